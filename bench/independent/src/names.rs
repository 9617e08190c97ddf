//! Distinguished names (Q-3 of document 02): stored ones in DER, asserted ones as strings of RFC 4514.

use crate::der::{self, Element};
use crate::prepare::{is_prepared_to, prepare_onto, Case};
use crate::rules::subidentifiers;
use crate::table::Basic;

const MAX_RDNS: usize = 16;
const MAX_PAIRS: usize = 4;
/// The string kinds that a value can have.
const VALUES: [Basic; 3] = [Basic::Utf8String, Basic::PrintableString, Basic::Ia5String];

/// Whether these are good contents of an RDNSequence.
pub fn is_rdn_sequence(contents: &[u8]) -> bool {
    let mut rdns = 0;
    let good = der::elements(contents).all(|rdn| {
        rdns += 1;
        rdn.is_some_and(|rdn| rdn.tag == der::SET && is_rdn(rdn.contents(contents)))
    });
    good && rdns <= MAX_RDNS
}

/// Whether these are good contents of a RelativeDistinguishedName: pairs in the order of a SET OF.
pub fn is_rdn(contents: &[u8]) -> bool {
    let mut pairs = 0;
    let mut last: &[u8] = &[];
    let good = der::elements(contents).all(|pair| {
        let Some(pair) = pair else { return false };
        // No encoding begins with another one, so that padding with zeros wouldn't change the order.
        let encoding = &contents[pair.place..pair.end];
        let ordered = last <= encoding;
        last = encoding;
        pairs += 1;
        ordered && pair.tag == der::SEQUENCE && is_pair(pair.contents(contents))
    });
    good && (1..=MAX_PAIRS).contains(&pairs)
}

fn is_pair(contents: &[u8]) -> bool {
    let admits = |basic: &Basic, own: Element| own.tag == basic.tag() && basic.admits(own.contents(contents));
    parts(contents).is_some_and(|(ty, value)| {
        admits(&Basic::ObjectIdentifier, ty) && VALUES.iter().any(|basic| admits(basic, value))
    })
}

/// The two elements in the contents of a pair, if there are two and no more.
fn parts(contents: &[u8]) -> Option<(Element, Element)> {
    let ty = Element::read(contents, 0, contents.len())?;
    let value = Element::read(contents, ty.end, contents.len())?;
    (value.end == contents.len()).then_some((ty, value))
}

/// An asserted name, ready to be compared.
#[derive(Debug)]
pub struct Name {
    /// For each pair its type, as the contents octets that are stored for it, and its prepared value.
    octets: Vec<u8>,
    pairs: Vec<Pair>,
    /// Where the pairs of each RDN end. The first RDN is the one that is stored last, as in the text.
    rdns: Vec<usize>,
    /// Whether each type is within the limits of stored ones; if not, no stored name is the same.
    storable: bool,
}

/// Where the type and the value of a pair stand in the octets: the value after the type.
#[derive(Clone, Copy, Debug)]
struct Pair {
    start: usize,
    middle: usize,
    end: usize,
}

impl Name {
    /// Reads a string of RFC 4514, perhaps an empty one, as a whole name; `None` if it doesn't conform.
    pub fn rdn_sequence(text: &[u8]) -> Option<Name> {
        Name::read(text, MAX_RDNS)
    }

    /// Reads a string of RFC 4514 as exactly one RDN.
    pub fn rdn(text: &[u8]) -> Option<Name> {
        Name::read(text, 1).filter(|name| !name.rdns.is_empty())
    }

    /// Reads a name of at most so many RDNs. The text is valid UTF-8.
    fn read(text: &[u8], most: usize) -> Option<Name> {
        let mut name = Name {
            octets: Vec::with_capacity(text.len()),
            pairs: Vec::with_capacity(MAX_PAIRS),
            rdns: Vec::with_capacity(MAX_PAIRS),
            storable: true,
        };
        let mut reader = Reader { rest: text, unescaped: Vec::new() };
        let mut more = !text.is_empty();
        while more {
            if name.rdns.len() == most {
                return None;
            }
            let first = name.pairs.len();
            loop {
                if name.pairs.len() - first == MAX_PAIRS {
                    return None;
                }
                name.read_pair(&mut reader)?;
                if !reader.accept(b'+') {
                    break;
                }
            }
            name.rdns.push(name.pairs.len());
            more = reader.accept(b',');
        }
        reader.rest.is_empty().then_some(name)
    }

    fn read_pair(&mut self, reader: &mut Reader) -> Option<()> {
        let start = self.octets.len();
        self.put_type(reader.attribute_type()?)?;
        let middle = self.octets.len();
        prepare_onto(reader.value()?, Case::Fold, &mut self.octets);
        self.pairs.push(Pair { start, middle, end: self.octets.len() });
        Some(())
    }

    fn put_type(&mut self, dotted: &[u8]) -> Option<()> {
        for (at, number) in subidentifiers(dotted)?.enumerate() {
            match u32::try_from(number?) {
                Ok(number) if at < der::MAX_SUBIDENTIFIERS => {
                    der::put_subidentifier(number, &mut self.octets)
                }
                _ => self.storable = false,
            }
        }
        Some(())
    }

    /// Whether these contents of a checked RDNSequence are the same name.
    pub fn is_same_sequence(&self, contents: &[u8]) -> bool {
        let mut stored: [&[u8]; MAX_RDNS] = [&[]; MAX_RDNS];
        let mut count = 0;
        for rdn in der::elements(contents) {
            let (Some(rdn), true) = (rdn, count < self.rdns.len()) else { return false };
            stored[count] = rdn.contents(contents);
            count += 1;
        }
        // Names that differ mostly do in the RDN that is stored last.
        self.storable
            && count == self.rdns.len()
            && stored[..count].iter().rev().enumerate().all(|(at, rdn)| self.is_same_at(at, rdn))
    }

    /// Whether these contents of a checked RelativeDistinguishedName are the same as the only RDN.
    pub fn is_same_rdn(&self, contents: &[u8]) -> bool {
        self.storable && self.is_same_at(0, contents)
    }

    /// Whether the pairs of an RDN of the text and stored ones match one to one. Pairs that are the same
    /// as a third one are the same, so that it doesn't matter which of them is taken.
    fn is_same_at(&self, at: usize, contents: &[u8]) -> bool {
        let first = if at == 0 { 0 } else { self.rdns[at - 1] };
        let asserted = &self.pairs[first..self.rdns[at]];
        let mut taken = [false; MAX_PAIRS];
        let mut left = asserted.len();
        for pair in der::elements(contents) {
            let found = pair.and_then(|pair| {
                let pair = pair.contents(contents);
                let (ty, value) = parts(pair)?;
                let (ty, value) = (ty.contents(pair), value.contents(pair));
                (0..asserted.len()).find(|&at| !taken[at] && self.is_same_pair(asserted[at], ty, value))
            });
            let Some(found) = found else { return false };
            taken[found] = true;
            left -= 1;
        }
        left == 0
    }

    fn is_same_pair(&self, pair: Pair, ty: &[u8], value: &[u8]) -> bool {
        ty == &self.octets[pair.start..pair.middle]
            && is_prepared_to(value, Case::Fold, &self.octets[pair.middle..pair.end])
    }
}

/// What is left of a string of RFC 4514, and memory for a value without its escapes.
struct Reader<'f> {
    rest: &'f [u8],
    unescaped: Vec<u8>,
}

impl<'f> Reader<'f> {
    fn accept(&mut self, octet: u8) -> bool {
        let rest = self.rest.strip_prefix(&[octet]);
        self.rest = rest.unwrap_or(self.rest);
        rest.is_some()
    }

    /// What stands before the next `=`, and that.
    fn attribute_type(&mut self) -> Option<&'f [u8]> {
        let length = self.rest.iter().position(|&b| b == b'=')?;
        let text = &self.rest[..length];
        self.rest = &self.rest[length + 1..];
        Some(text)
    }

    /// A value up to the comma or plus after it, without its escapes.
    fn value(&mut self) -> Option<&[u8]> {
        let text = self.rest;
        let (mut at, mut escapes, mut last) = (0, false, None);
        while let Some(&octet) = text.get(at) {
            match octet {
                b',' | b'+' => break,
                0 | b'"' | b';' | b'<' | b'>' => return None,
                // Which octet follows is looked at when the escapes are taken out.
                b'\\' => {
                    at += 2;
                    escapes = true;
                    last = None;
                }
                _ => {
                    at += 1;
                    last = Some(octet);
                }
            }
        }
        let value = text.get(..at)?;
        if matches!(value.first(), Some(b' ' | b'#')) || last == Some(b' ') {
            return None;
        }
        self.rest = &text[at..];
        if !escapes {
            return Some(value);
        }
        unescape(value, &mut self.unescaped)?;
        Some(&self.unescaped)
    }
}

/// Takes the escapes out; `None` if one is none, or if the octets are not UTF-8 afterwards.
fn unescape(value: &[u8], found: &mut Vec<u8>) -> Option<()> {
    found.clear();
    let mut rest = value;
    while let Some(bare) = rest.iter().position(|&b| b == b'\\') {
        found.extend(&rest[..bare]);
        rest = match &rest[bare + 1..] {
            [special @ (b'\\' | b'"' | b'+' | b',' | b';' | b'<' | b'>' | b' ' | b'#' | b'='), after @ ..] => {
                found.push(*special);
                after
            }
            [high, low, after @ ..] => {
                found.push(hex_digit(*high)? << 4 | hex_digit(*low)?);
                after
            }
            _ => return None,
        };
    }
    found.extend(rest);
    der::is_utf8(found).then_some(())
}

/// A hexadecimal digit, large or small.
fn hex_digit(digit: u8) -> Option<u8> {
    char::from(digit).to_digit(16).map(|number| number as u8)
}

#[cfg(test)]
mod tests {
    use super::*;

    /// The octets of a value by RFC 4514's grammar, written down as it stands:
    /// string = [ ( leadchar / pair ) [ *( stringchar / pair ) ( trailchar / pair ) ] ].
    fn by_grammar(text: &[u8]) -> Option<Vec<u8>> {
        let is_lead =
            |b| matches!(b, 0x01..=0x1F | 0x21 | 0x24..=0x2A | 0x2D..=0x3A | 0x3D | 0x3F..=0x5B | 0x5D..);
        let is_trail =
            |b| matches!(b, 0x01..=0x1F | 0x21 | 0x23..=0x2A | 0x2D..=0x3A | 0x3D | 0x3F..=0x5B | 0x5D..);
        let is_string =
            |b| matches!(b, 0x01..=0x21 | 0x23..=0x2A | 0x2D..=0x3A | 0x3D | 0x3F..=0x5B | 0x5D..);
        // The octets with whether they are of a pair.
        let mut found: Vec<(u8, bool)> = Vec::new();
        let mut rest = text;
        while let [first, after @ ..] = rest {
            rest = match (first, after) {
                (b'\\', [b'\\' | b'"' | b'+' | b',' | b';' | b'<' | b'>' | b' ' | b'#' | b'=', ..]) => {
                    found.push((after[0], true));
                    &after[1..]
                }
                (b'\\', [high, low, ..]) if high.is_ascii_hexdigit() && low.is_ascii_hexdigit() => {
                    let digits = std::str::from_utf8(&after[..2]).ok()?;
                    found.push((u8::from_str_radix(digits, 16).ok()?, true));
                    &after[2..]
                }
                (b'\\', _) => return None,
                _ => {
                    found.push((*first, false));
                    after
                }
            };
        }
        let good = match &found[..] {
            [] => true,
            [(lead, pair)] => *pair || is_lead(*lead),
            [(lead, pair), inner @ .., (trail, last_pair)] => {
                (*pair || is_lead(*lead))
                    && (*last_pair || is_trail(*trail))
                    && inner.iter().all(|&(octet, pair)| pair || is_string(octet))
            }
        };
        let octets: Vec<u8> = found.iter().map(|&(octet, _)| octet).collect();
        (good && std::str::from_utf8(&octets).is_ok()).then_some(octets)
    }

    /// All texts of up to five of these, as the whole value.
    #[test]
    fn values() {
        let words = ["a", " ", "#", "\\", "\"", "=", ";", "\0", "\t", "C", "3", "é", "\\A9", "\\c3", "\\,"];
        let mut texts = vec![String::new()];
        let mut from = 0;
        for _ in 0..5 {
            let to = texts.len();
            for at in from..to {
                texts.extend(words.iter().map(|word| texts[at].clone() + word).collect::<Vec<_>>());
            }
            from = to;
        }
        let mut good = 0;
        for text in &texts {
            let mut reader = Reader { rest: text.as_bytes(), unescaped: Vec::new() };
            let value = reader.value().map(<[u8]>::to_vec);
            // The rest is empty, as no comma or plus stands without an escape.
            let whole = value.filter(|_| reader.rest.is_empty());
            good += usize::from(whole.is_some());
            assert_eq!(whole, by_grammar(text.as_bytes()), "{text:?}");
        }
        assert!(good * 20 > texts.len(), "{good} of {}", texts.len());
    }

    #[test]
    fn prepared_form() {
        let name = Name::rdn_sequence(b"2.5.4.3=A  B+1.39=\\C3\\89,2.999=").expect("a name");
        let parts =
            |pair: &Pair| (&name.octets[pair.start..pair.middle], &name.octets[pair.middle..pair.end]);
        let expected = [(&[0x55, 4, 3][..], &b"a b"[..]), (&[79], "é".as_bytes()), (&[0x88, 0x37], b"")];
        assert_eq!(name.pairs.iter().map(parts).collect::<Vec<_>>(), expected);
        assert_eq!((name.rdns, name.storable), (vec![2, 3], true));
        assert!(!Name::rdn(b"2.4294967216=").expect("a name").storable);
    }
}
