//! DER: headers, and the contents of the basic types.

use std::cmp::Ordering;

/// Bit 6 of a tag octet.
pub const CONSTRUCTED: u8 = 0x20;
/// The class bits of a context tag.
pub const CONTEXT: u8 = 0x80;
/// The tag octet of SEQUENCE and SEQUENCE OF.
pub const SEQUENCE: u8 = 16 | CONSTRUCTED;
/// The tag octet of SET OF.
pub const SET: u8 = 17 | CONSTRUCTED;

/// One encoded value in a buffer: its tag octet and where it stands.
#[derive(Clone, Copy, Debug, PartialEq, Eq)]
pub struct Element {
    pub tag: u8,
    /// The place of the tag octet.
    pub place: usize,
    /// The place of the first octet of the contents.
    pub start: usize,
    /// The place after the contents.
    pub end: usize,
}

impl Element {
    /// Reads the header at `place`; the element has to end at `limit` or before.
    pub fn read(octets: &[u8], place: usize, limit: usize) -> Option<Element> {
        let header = octets.get(place..limit)?;
        let (length, header_size) = match *header {
            [_, short, ..] if short < 0x80 => (usize::from(short), 2),
            [_, 0x81, low, ..] if low >= 0x80 => (usize::from(low), 3),
            [_, 0x82, high, low, ..] if high > 0 => (usize::from(u16::from_be_bytes([high, low])), 4),
            _ => return None,
        };
        if length > header.len() - header_size {
            return None;
        }
        let start = place + header_size;
        Some(Element { tag: header[0], place, start, end: start + length })
    }

    pub fn contents<'v>(&self, octets: &'v [u8]) -> &'v [u8] {
        octets.get(self.start..self.end).unwrap_or(&[])
    }

    /// The elements in the contents, one after another; the last is `None` if it doesn't fit.
    pub fn children<'v>(&self, octets: &'v [u8]) -> Children<'v> {
        Children { octets, place: self.start, limit: self.end }
    }
}

/// The elements that are these octets, one after another; the last is `None` if it doesn't fit.
pub fn elements(octets: &[u8]) -> Children<'_> {
    Children { octets, place: 0, limit: octets.len() }
}

/// An iterator over elements that stand one after another.
pub struct Children<'v> {
    octets: &'v [u8],
    place: usize,
    limit: usize,
}

impl Iterator for Children<'_> {
    type Item = Option<Element>;

    fn next(&mut self) -> Option<Option<Element>> {
        if self.place >= self.limit {
            return None;
        }
        let element = Element::read(self.octets, self.place, self.limit);
        self.place = element.map_or(self.limit, |e| e.end);
        Some(element)
    }
}

pub fn is_boolean(contents: &[u8]) -> bool {
    matches!(contents, [0x00] | [0xFF])
}

/// INTEGER and ENUMERATED: one to eight octets, shortest.
pub fn is_integer(contents: &[u8]) -> bool {
    match *contents {
        [] => false,
        [0x00, second, ..] if second < 0x80 => false,
        [0xFF, second, ..] if second >= 0x80 => false,
        _ => contents.len() <= 8,
    }
}

/// The number that the contents of an INTEGER stand for.
pub fn integer(contents: &[u8]) -> i64 {
    let sign = if contents.first().is_some_and(|&b| b >= 0x80) { -1 } else { 0 };
    contents.iter().fold(sign, |n, &b| (n << 8) | i64::from(b))
}

/// An OBJECT IDENTIFIER has at most so many subidentifiers.
pub const MAX_SUBIDENTIFIERS: usize = 32;

/// Splits off one subidentifier: its number and the octets after it.
pub fn subidentifier(octets: &[u8]) -> Option<(u32, &[u8])> {
    if octets.first() == Some(&0x80) {
        return None;
    }
    let mut number = 0u64;
    for (i, &octet) in octets.iter().enumerate() {
        number = (number << 7) | u64::from(octet & 0x7F);
        if number > u64::from(u32::MAX) {
            return None;
        }
        if octet & 0x80 == 0 {
            return Some((number as u32, &octets[i + 1..]));
        }
    }
    None
}

/// Puts a subidentifier behind others.
pub fn put_subidentifier(number: u32, octets: &mut Vec<u8>) {
    for shift in [28, 21, 14, 7] {
        if number >> shift > 0 {
            octets.push(0x80 | (number >> shift) as u8);
        }
    }
    octets.push(number as u8 & 0x7F);
}

pub fn is_object_identifier(contents: &[u8]) -> bool {
    let mut rest = contents;
    let mut count = 0;
    while !rest.is_empty() {
        let Some((_, after)) = subidentifier(rest) else { return false };
        rest = after;
        count += 1;
    }
    (1..=MAX_SUBIDENTIFIERS).contains(&count)
}

pub fn is_bit_string(contents: &[u8]) -> bool {
    match *contents {
        [unused] => unused == 0,
        [unused, .., last] => unused <= 7 && last & ((1 << unused) - 1) == 0,
        [] => false,
    }
}

/// A BIT STRING whose last bit, if it has bits, is 1.
pub fn is_bit_string_without_trailing_zeros(contents: &[u8]) -> bool {
    let last_bit = match *contents {
        [unused, .., last] if unused <= 7 => last >> unused & 1,
        _ => 1,
    };
    is_bit_string(contents) && last_bit == 1
}

pub fn is_utf8(contents: &[u8]) -> bool {
    std::str::from_utf8(contents).is_ok()
}

pub fn is_printable(contents: &[u8]) -> bool {
    contents.iter().all(|b| b.is_ascii_alphanumeric() || b" '()+,-./:=?".contains(b))
}

pub fn is_ia5(contents: &[u8]) -> bool {
    contents.is_ascii()
}

const TIME_DIGITS: usize = 14;
const MAX_FRACTION_DIGITS: usize = 9;

pub fn is_generalized_time(contents: &[u8]) -> bool {
    let Some((b'Z', rest)) = contents.split_last() else { return false };
    if rest.len() < TIME_DIGITS {
        return false;
    }
    let (digits, fraction) = rest.split_at(TIME_DIGITS);
    digits.iter().all(u8::is_ascii_digit) && is_real_time(digits) && is_fraction(fraction)
}

fn is_fraction(text: &[u8]) -> bool {
    match text {
        [] => true,
        [b'.', digits @ ..] => {
            (1..=MAX_FRACTION_DIGITS).contains(&digits.len())
                && digits.iter().all(u8::is_ascii_digit)
                && !digits.ends_with(b"0")
        }
        _ => false,
    }
}

fn is_real_time(digits: &[u8]) -> bool {
    let number =
        |from: usize, to: usize| digits[from..to].iter().fold(0u32, |n, &d| n * 10 + u32::from(d - b'0'));
    let (year, month, day) = (number(0, 4), number(4, 6), number(6, 8));
    let leap = year % 4 == 0 && (year % 100 != 0 || year % 400 == 0);
    let days = match month {
        1 | 3 | 5 | 7 | 8 | 10 | 12 => 31,
        4 | 6 | 9 | 11 => 30,
        2 if leap => 29,
        2 => 28,
        _ => return false,
    };
    (1..=days).contains(&day) && number(8, 10) <= 23 && number(10, 12) <= 59 && number(12, 14) <= 60
}

/// The order of two good GeneralizedTimes.
pub fn compare_times(left: &[u8], right: &[u8]) -> Ordering {
    // Both end in Z. Date and time are of one length; a fraction doesn't end in 0, so that its digits are
    // in the order of their octets, and a missing one comes first.
    let body = |time: &'_ [u8]| time.len().saturating_sub(1);
    left[..body(left)].cmp(&right[..body(right)])
}

#[cfg(test)]
mod tests {
    use super::*;

    #[test]
    fn lengths() {
        let end = |octets: &[u8]| Element::read(octets, 0, octets.len()).map(|e| (e.start, e.end));
        assert_eq!(end(&[4, 0]), Some((2, 2)));
        assert_eq!(end(&[4, 1]), None);
        assert_eq!(end(&[4]), None);
        assert_eq!(end(&[4, 0x80]), None);
        let mut long = vec![4, 0x81, 0x80];
        long.resize(3 + 128, 0);
        assert_eq!(end(&long), Some((3, 131)));
        long[2] = 0x7F;
        assert_eq!(end(&long), None);
        let mut longer = vec![4, 0x82, 1, 0];
        longer.resize(4 + 256, 0);
        assert_eq!(end(&longer), Some((4, 260)));
        longer[2] = 0;
        assert_eq!(end(&longer), None);
        assert_eq!(Element::read(&[4, 0], 1, 0), None);
    }

    #[test]
    fn integers() {
        assert_eq!(integer(&[0xFF]), -1);
        assert_eq!(integer(&[0x00, 0x80]), 128);
        assert_eq!(integer(&[0x80, 0, 0, 0, 0, 0, 0, 0]), i64::MIN);
        assert!(!is_integer(&[0xFF, 0x80]));
        assert!(!is_integer(&[0; 9]));
    }

    #[test]
    fn object_identifiers() {
        assert!(is_object_identifier(&[0x8F, 0xFF, 0xFF, 0xFF, 0x7F]));
        assert!(!is_object_identifier(&[0x90, 0x80, 0x80, 0x80, 0x00]));
        assert!(!is_object_identifier(&[0x80, 0x01]));
        assert!(!is_object_identifier(&[0x81]));
        assert!(!is_object_identifier(&[]));
        assert!(is_object_identifier(&[1; 32]));
        assert!(!is_object_identifier(&[1; 33]));
        for number in
            [0, 1, 0x7F, 0x80, 0x3FFF, 0x4000, 0x1F_FFFF, 0x20_0000, 0x0FFF_FFFF, 0x1000_0000, u32::MAX]
        {
            let mut octets = Vec::new();
            put_subidentifier(number, &mut octets);
            assert_eq!(subidentifier(&octets), Some((number, &[][..])));
        }
    }

    #[test]
    fn bit_strings() {
        let both =
            |contents: &[u8]| (is_bit_string(contents), is_bit_string_without_trailing_zeros(contents));
        for contents in [&[0][..], &[0, 1], &[7, 0x80], &[5, 0xE0], &[6, 0, 0x40], &[0, 0xFF, 0xFF]] {
            assert_eq!(both(contents), (true, true), "{contents:02X?}");
        }
        for contents in [&[0, 0][..], &[0, 0xFE], &[5, 0xC0], &[7, 0], &[0, 0x80, 0]] {
            assert_eq!(both(contents), (true, false), "{contents:02X?}");
        }
        for contents in [&[][..], &[1], &[7], &[8, 0], &[0xFF, 0x80], &[6, 0x60], &[1, 1]] {
            assert_eq!(both(contents), (false, false), "{contents:02X?}");
        }
    }

    #[test]
    fn times() {
        assert!(is_generalized_time(b"20240229120000.5Z"));
        assert!(is_generalized_time(b"00000229235960.123456789Z"));
        for bad in
            ["20230229120000Z", "20240229120000.50Z", "20240229120000.Z", "20240229120000", "20240229240000Z"]
        {
            assert!(!is_generalized_time(bad.as_bytes()), "{bad}");
        }
        assert_eq!(compare_times(b"20240229120000Z", b"20240229120000.1Z"), Ordering::Less);
        assert_eq!(compare_times(b"20240229120000.49Z", b"20240229120000.5Z"), Ordering::Less);
    }
}
