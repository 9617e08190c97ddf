//! Matching rules: their names, the types they are for, asserted values, acceptance.

use crate::der;
use crate::names::Name;
use crate::prepare::{is_prepared_to, prepared, Case};
use crate::reference::Target;
use crate::table::{Basic, BitName, Form, Tagging, Type};
use std::borrow::Cow;
use std::cmp::Ordering;

#[derive(Clone, Copy, Debug, PartialEq, Eq)]
pub enum Rule {
    Present,
    Boolean,
    Integer,
    IntegerOrdering,
    ObjectIdentifier,
    OctetString,
    OctetStringOrdering,
    BitString,
    CaseIgnore,
    CaseExact,
    GeneralizedTime,
    GeneralizedTimeOrdering,
    DistinguishedName,
    Rdn,
}

const RULES: [(&str, &str, Rule); 14] = [
    ("presentMatch", "1.2.36.79672281.1.13.5", Rule::Present),
    ("booleanMatch", "2.5.13.13", Rule::Boolean),
    ("integerMatch", "2.5.13.14", Rule::Integer),
    ("integerOrderingMatch", "2.5.13.15", Rule::IntegerOrdering),
    ("objectIdentifierMatch", "2.5.13.0", Rule::ObjectIdentifier),
    ("octetStringMatch", "2.5.13.17", Rule::OctetString),
    ("octetStringOrderingMatch", "2.5.13.18", Rule::OctetStringOrdering),
    ("bitStringMatch", "2.5.13.16", Rule::BitString),
    ("caseIgnoreMatch", "2.5.13.2", Rule::CaseIgnore),
    ("caseExactMatch", "2.5.13.5", Rule::CaseExact),
    ("generalizedTimeMatch", "2.5.13.27", Rule::GeneralizedTime),
    ("generalizedTimeOrderingMatch", "2.5.13.28", Rule::GeneralizedTimeOrdering),
    ("distinguishedNameMatch", "2.5.13.1", Rule::DistinguishedName),
    ("rdnMatch", "1.2.36.79672281.1.13.3", Rule::Rdn),
];

impl Rule {
    /// The rule of this name or dotted OID. An OID has one dotted form, so that texts are compared.
    pub fn find(text: &[u8]) -> Option<Rule> {
        RULES
            .iter()
            .find(|(name, oid, _)| name.as_bytes().eq_ignore_ascii_case(text) || oid.as_bytes() == text)
            .map(|&(_, _, rule)| rule)
    }

    fn is_for(self, target: Target) -> bool {
        let ty = match target {
            Target::Count => return matches!(self, Rule::Present | Rule::Integer | Rule::IntegerOrdering),
            Target::Type(ty) => ty,
        };
        let is = |basic: Basic| matches!(ty.form, Form::Basic(own) if own == basic);
        match self {
            Rule::Present => true,
            Rule::Boolean => is(Basic::Boolean),
            Rule::Integer | Rule::IntegerOrdering => is(Basic::Integer),
            Rule::ObjectIdentifier => is(Basic::ObjectIdentifier),
            Rule::OctetString | Rule::OctetStringOrdering => is(Basic::OctetString),
            Rule::BitString => is(Basic::BitString) || bit_names(target).is_some(),
            Rule::CaseIgnore | Rule::CaseExact => is_string(ty),
            Rule::GeneralizedTime | Rule::GeneralizedTimeOrdering => is(Basic::GeneralizedTime),
            Rule::DistinguishedName => matches!(ty.form, Form::RdnSequence),
            Rule::Rdn => matches!(ty.form, Form::Rdn),
        }
    }
}

/// The names of the bits, if the target is a BIT STRING that has names.
fn bit_names<'t>(target: Target<'t>) -> Option<&'t [BitName<'t>]> {
    match target {
        Target::Type(Type { form: Form::NamedBits(names), .. }) => Some(names),
        _ => None,
    }
}

/// A string kind, or a CHOICE of untagged ones.
fn is_string(ty: &Type) -> bool {
    let kind = |ty: &Type| matches!(ty.form, Form::Basic(basic) if basic.is_string());
    match &ty.form {
        Form::Choice(members) => members.iter().all(|m| m.tagging == Tagging::None && kind(&m.ty)),
        _ => kind(ty),
    }
}

/// A letter, then letters, digits, hyphens.
pub fn is_name(text: &[u8]) -> bool {
    text.first().is_some_and(u8::is_ascii_alphabetic)
        && text.iter().all(|&b| b.is_ascii_alphanumeric() || b == b'-')
}

pub fn is_dotted(text: &[u8]) -> bool {
    subidentifiers(text).is_some_and(|mut numbers| numbers.all(|number| number.is_some()))
}

/// The subidentifiers of a dotted OID: the first two arcs are joined. One that doesn't fit is given as
/// the largest number, which no stored one has. The text is no dotted OID if there is `None` among them.
pub fn subidentifiers(text: &[u8]) -> Option<impl Iterator<Item = Option<u64>> + '_> {
    let mut arcs = text.split(|&b| b == b'.').map(arc);
    let first = arcs.next()??;
    let second = arcs.next()??;
    if first > 2 || first < 2 && second >= 40 {
        return None;
    }
    let joined = second.saturating_add(40 * first);
    Some(std::iter::once(Some(joined)).chain(arcs))
}

fn arc(digits: &[u8]) -> Option<u64> {
    if digits.is_empty() || digits.len() > 1 && digits[0] == b'0' {
        return None;
    }
    digits.iter().try_fold(0u64, |n, d| {
        d.is_ascii_digit().then(|| n.saturating_mul(10).saturating_add(u64::from(d - b'0')))
    })
}

/// A rule with the value it is to compare with.
#[derive(Debug)]
pub enum Matcher<'f> {
    Present,
    Boolean(bool),
    Integer(Relation, i128),
    ObjectIdentifier(Vec<u64>),
    Octets(Relation, Vec<u8>),
    /// Bits from the first on, the last octet filled with zeros, and their number.
    Bits(Vec<u8>, usize),
    /// Bits of a type with names, from the first on to the octet of the last bit that is 1.
    NamedBits(Vec<u8>),
    /// Whether case counts, and the prepared string.
    Text(Case, Vec<u8>),
    Time(Relation, &'f [u8]),
    DistinguishedName(Name),
    Rdn(Name),
}

/// How a stored value that is accepted compares with the asserted one.
#[derive(Clone, Copy, Debug)]
pub enum Relation {
    Equal,
    Less,
}

impl Relation {
    fn holds(self, stored_to_asserted: Ordering) -> bool {
        match self {
            Relation::Equal => stored_to_asserted.is_eq(),
            Relation::Less => stored_to_asserted.is_lt(),
        }
    }
}

impl<'f> Matcher<'f> {
    /// The matcher of a rule and a value text; `None` if the rule is not for the type or the text doesn't
    /// conform.
    pub fn new(rule: Rule, target: Target, text: &'f [u8]) -> Option<Matcher<'f>> {
        if !rule.is_for(target) {
            return None;
        }
        Some(match rule {
            Rule::Present => (text == b"NULL").then_some(Matcher::Present)?,
            Rule::Boolean => Matcher::Boolean(match text {
                b"TRUE" => true,
                b"FALSE" => false,
                _ => return None,
            }),
            Rule::Integer => Matcher::Integer(Relation::Equal, integer(text)?),
            Rule::IntegerOrdering => Matcher::Integer(Relation::Less, integer(text)?),
            Rule::ObjectIdentifier => {
                Matcher::ObjectIdentifier(subidentifiers(text)?.collect::<Option<_>>()?)
            }
            Rule::OctetString => Matcher::Octets(Relation::Equal, octets(text)?),
            Rule::OctetStringOrdering => Matcher::Octets(Relation::Less, octets(text)?),
            Rule::BitString => match bit_names(target) {
                Some(names) => Matcher::NamedBits(named_bits(text, names)?),
                None => {
                    let (packed, number) = bits(text)?;
                    Matcher::Bits(packed, number)
                }
            },
            Rule::CaseIgnore => Matcher::Text(Case::Fold, prepared(string(text)?, Case::Fold)),
            Rule::CaseExact => Matcher::Text(Case::Keep, prepared(string(text)?, Case::Keep)),
            Rule::GeneralizedTime => Matcher::Time(Relation::Equal, time(text)?),
            Rule::GeneralizedTimeOrdering => Matcher::Time(Relation::Less, time(text)?),
            Rule::DistinguishedName => Matcher::DistinguishedName(Name::rdn_sequence(&unquoted(text)?)?),
            Rule::Rdn => Matcher::Rdn(Name::rdn(&unquoted(text)?)?),
        })
    }

    /// Whether the rule accepts a value with these contents, stored or default.
    pub fn accepts(&self, contents: &[u8]) -> bool {
        match self {
            Matcher::Present => true,
            Matcher::Boolean(asserted) => (contents != [0]) == *asserted,
            Matcher::Integer(relation, asserted) => {
                relation.holds(i128::from(der::integer(contents)).cmp(asserted))
            }
            Matcher::ObjectIdentifier(asserted) => is_same_identifier(contents, asserted),
            Matcher::Octets(relation, asserted) => relation.holds(contents.cmp(asserted)),
            Matcher::Bits(packed, number) => match contents {
                [unused, stored @ ..] => {
                    stored.len() * 8 == number + usize::from(*unused) && stored == packed
                }
                [] => false,
            },
            Matcher::NamedBits(asserted) => match contents {
                [_, stored @ ..] => without_zeros(stored) == asserted,
                [] => false,
            },
            Matcher::Text(case, asserted) => is_prepared_to(contents, *case, asserted),
            Matcher::Time(relation, asserted) => relation.holds(der::compare_times(contents, asserted)),
            Matcher::DistinguishedName(asserted) => asserted.is_same_sequence(contents),
            Matcher::Rdn(asserted) => asserted.is_same_rdn(contents),
        }
    }

    /// Whether the rule accepts a count.
    pub fn accepts_count(&self, count: usize) -> bool {
        match self {
            Matcher::Present => true,
            Matcher::Integer(relation, asserted) => relation.holds((count as i128).cmp(asserted)),
            _ => false,
        }
    }
}

/// An integer. One that doesn't fit is given as the nearest that does: it is beyond every stored one.
fn integer(text: &[u8]) -> Option<i128> {
    let (negative, digits) = match text {
        [b'-', digits @ ..] => (true, digits),
        digits => (false, digits),
    };
    match digits {
        [] => return None,
        [b'0', ..] if negative || digits.len() > 1 => return None,
        _ => {}
    }
    let size = digits.iter().try_fold(0i128, |n, d| {
        d.is_ascii_digit().then(|| n.saturating_mul(10).saturating_add(i128::from(d - b'0')))
    })?;
    Some(if negative { -size } else { size })
}

fn is_same_identifier(contents: &[u8], asserted: &[u64]) -> bool {
    let mut rest = contents;
    for &number in asserted {
        match der::subidentifier(rest) {
            Some((stored, after)) if u64::from(stored) == number => rest = after,
            _ => return false,
        }
    }
    rest.is_empty()
}

/// The text between single quotes, before `suffix`.
fn single_quoted<'f>(text: &'f [u8], suffix: &[u8]) -> Option<&'f [u8]> {
    text.strip_prefix(b"'")?.strip_suffix(suffix)?.strip_suffix(b"'")
}

fn nibble(digit: u8) -> Option<u8> {
    match digit {
        b'0'..=b'9' => Some(digit - b'0'),
        b'A'..=b'F' => Some(digit - b'A' + 10),
        _ => None,
    }
}

/// Hexadecimal digits packed into octets, an odd last one as the upper half.
fn pack_hex(digits: &[u8]) -> Option<Vec<u8>> {
    digits
        .chunks(2)
        .map(|pair| {
            let low = pair.get(1).map_or(Some(0), |&d| nibble(d))?;
            Some(nibble(pair[0])? << 4 | low)
        })
        .collect()
}

fn octets(text: &[u8]) -> Option<Vec<u8>> {
    let digits = single_quoted(text, b"H")?;
    if digits.len() % 2 != 0 {
        return None;
    }
    pack_hex(digits)
}

fn bits(text: &[u8]) -> Option<(Vec<u8>, usize)> {
    if let Some(digits) = single_quoted(text, b"H") {
        return Some((pack_hex(digits)?, digits.len() * 4));
    }
    let digits = single_quoted(text, b"B")?;
    let mut packed = vec![0u8; digits.len().div_ceil(8)];
    for (i, digit) in digits.iter().enumerate() {
        match digit {
            b'0' => {}
            b'1' => packed[i / 8] |= 0x80 >> (i % 8),
            _ => return None,
        }
    }
    Some((packed, digits.len()))
}

/// The bits of a type with names: a list of the names, or digits as on other types. Zeros at the end
/// don't count.
fn named_bits(text: &[u8], names: &[BitName]) -> Option<Vec<u8>> {
    let packed = if text.starts_with(b"{") { bit_list(text, names)? } else { bits(text)?.0 };
    Some(without_zeros(&packed).to_vec())
}

/// `{` [ sp identifier *( `,` sp identifier ) ] sp `}` (RFC 3641), sp being any number of spaces. A name
/// that stands more than once counts once.
fn bit_list(text: &[u8], names: &[BitName]) -> Option<Vec<u8>> {
    let mut inner = text.strip_prefix(b"{")?.strip_suffix(b"}")?;
    while let [before @ .., b' '] = inner {
        inner = before;
    }
    let mut packed = vec![0u8; 8];
    if inner.is_empty() {
        return Some(packed);
    }
    for mut name in inner.split(|&b| b == b',') {
        while let [b' ', after @ ..] = name {
            name = after;
        }
        let bit = usize::from(names.iter().find(|known| known.name == name)?.bit);
        packed[bit / 8] |= 0x80 >> (bit % 8);
    }
    Some(packed)
}

/// Packed bits up to the last octet that isn't zero. Those of two bit strings are the same exactly if the
/// bit strings differ in nothing but zero bits at their ends.
fn without_zeros(packed: &[u8]) -> &[u8] {
    let used = packed.iter().rposition(|&b| b != 0).map_or(0, |last| last + 1);
    &packed[..used]
}

/// The text between double quotes, as it stands.
fn double_quoted(text: &[u8]) -> Option<&[u8]> {
    text.strip_prefix(b"\"")?.strip_suffix(b"\"")
}

/// A quoted string of at least one character.
fn string(text: &[u8]) -> Option<Vec<u8>> {
    unquoted(text).filter(|found| !found.is_empty()).map(Cow::into_owned)
}

/// A quoted string, each doubled quote made one.
fn unquoted(text: &[u8]) -> Option<Cow<'_, [u8]>> {
    let inner = double_quoted(text)?;
    if !inner.contains(&b'"') {
        return Some(Cow::Borrowed(inner));
    }
    let mut found = Vec::with_capacity(inner.len());
    let mut rest = inner.iter();
    while let Some(&b) = rest.next() {
        if b == b'"' && rest.next() != Some(&b'"') {
            return None;
        }
        found.push(b);
    }
    Some(Cow::Owned(found))
}

fn time(text: &[u8]) -> Option<&[u8]> {
    double_quoted(text).filter(|inner| der::is_generalized_time(inner))
}

#[cfg(test)]
mod tests {
    use super::*;

    #[test]
    fn integers() {
        assert_eq!(integer(b"-12"), Some(-12));
        assert_eq!(integer(b"0"), Some(0));
        for bad in ["", "-", "-0", "01", "+1", "1 ", "-01"] {
            assert_eq!(integer(bad.as_bytes()), None, "{bad}");
        }
        let huge = [b'9'; 100];
        assert_eq!(integer(&huge), Some(i128::MAX));
    }

    #[test]
    fn identifiers() {
        let numbers = |text: &[u8]| subidentifiers(text)?.collect::<Option<Vec<_>>>();
        assert_eq!(numbers(b"2.999.3"), Some(vec![1079, 3]));
        assert_eq!(numbers(b"1.39"), Some(vec![79]));
        assert_eq!(numbers(b"2.5..3"), None);
        for bad in ["", "2", "3.1", "1.40", "2.05", "2..5", "2.5.", "iso", "99999999999999999999999.1"] {
            assert!(!is_dotted(bad.as_bytes()), "{bad}");
        }
        assert!(is_dotted(b"2.99999999999999999999999999"));
        assert!(is_same_identifier(&[0x2A, 3, 4], &[42, 3, 4]));
        assert!(!is_same_identifier(&[0x2A, 3, 4], &[42, 3]));
    }

    #[test]
    fn bit_texts() {
        assert_eq!(bits(b"'101'B"), Some((vec![0xA0], 3)));
        assert_eq!(bits(b"'ABC'H"), Some((vec![0xAB, 0xC0], 12)));
        assert_eq!(bits(b"''B"), Some((vec![], 0)));
        assert_eq!(bits(b"'"), None);
        assert_eq!(bits(b"'B"), None);
        assert_eq!(octets(b"'0AF'H"), None);
        assert_eq!(octets(b"'0a'H"), None);
    }

    #[test]
    fn named_bit_texts() {
        let names = [("print", 0), ("perform", 1), ("record", 63)]
            .map(|(name, bit)| BitName { name: name.as_bytes(), bit });
        let far = [0x80, 0, 0, 0, 0, 0, 0, 1];
        for (text, expected) in [
            ("{}", &[][..]),
            ("{ }", &[]),
            ("{   }", &[]),
            ("{print}", &[0x80]),
            ("{perform,print}", &[0xC0]),
            ("{  print,   perform  }", &[0xC0]),
            ("{ print, print, perform, print }", &[0xC0]),
            ("{record,print}", &far),
            ("'110'B", &[0xC0]),
            ("'11'B", &[0xC0]),
            ("'C00'H", &[0xC0]),
            ("'000'B", &[]),
            ("''H", &[]),
            ("'0000000000000000000'H", &[]),
            ("'00000000000000000100'H", &[0, 0, 0, 0, 0, 0, 0, 0, 1]),
        ] {
            assert_eq!(named_bits(text.as_bytes(), &names).as_deref(), Some(expected), "{text}");
        }
        for bad in [
            "",
            "{",
            "}",
            "{,}",
            "{print,}",
            "{print, }",
            "{,print}",
            "{print ,perform}",
            "{print perform}",
            "{printperform}",
            "{print,PERFORM}",
            "{Print}",
            "{prin}",
            "{prints}",
            "{stage}",
            "{print,stage}",
            "{0}",
            "{\"print\"}",
            "{{print}}",
            "{print}{perform}",
            "{print\t}",
            "print",
            "{print",
            "print}",
            "'110'",
            "'12'B",
            "'c0'H",
        ] {
            assert_eq!(named_bits(bad.as_bytes(), &names), None, "{bad}");
        }
    }

    #[test]
    fn texts() {
        assert_eq!(string(b"\"a\"\"b\""), Some(b"a\"b".to_vec()));
        assert_eq!(string(b"\"\"\"\""), Some(b"\"".to_vec()));
        for bad in ["\"", "\"\"", "\"\"\"", "a", "\"a\"b\""] {
            assert_eq!(string(bad.as_bytes()), None, "{bad}");
        }
    }
}
