//! Draws distinguished names, stored and asserted, and cases with long ones.

use super::{encoded, sized, Draw, LONGEST_FILTER, LONGEST_VALUE};
use crate::{der, rules};

/// Attribute types: the last ones are as long, or have as large numbers, as stored ones may.
const TYPES: [&str; 8] = [
    "2.5.4.3",
    "2.5.4.6",
    "2.5.4.10",
    "0.9.2342.19200300.100.1.25",
    "1.39",
    "2.999",
    "2.4294967215.4294967295",
    "1.2.1.1.1.1.1.1.1.1.1.1.1.1.1.1.1.1.1.1.1.1.1.1.1.1.1.1.1.1.1.1.1",
];

/// Names that many drawn ones are made from: RDNs in stored order, their pairs as numbers of types and values.
const NAMES: [&[&[(usize, &str)]]; 14] = [
    &[],
    &[&[(1, "AU")], &[(2, "Adacel")], &[(0, "Steven Legg")]],
    &[&[(1, "AU")], &[(2, "Adacel")]],
    &[&[(1, "de")], &[(2, "Élan")], &[(0, "straße")]],
    &[&[(0, "a")]],
    &[&[(0, "b")]],
    &[&[(0, "")]],
    &[&[(0, "a"), (0, "b")]],
    &[&[(0, "a"), (0, "a")]],
    &[&[(0, "a"), (2, "b")]],
    &[&[(0, "a"), (0, "a"), (0, "b"), (2, "")]],
    &[&[(3, "example")], &[(3, "choir")], &[(0, "x, \"y\" + #1; <=>\\")]],
    &[&[(4, "a"), (5, "#")], &[(6, "\u{B4}"), (7, "\0")]],
    &[&[(5, "a")], &[(5, "a")], &[(5, "a"), (6, "漢")]],
];

/// The number of a type and a value.
type Pair = (usize, String);
type Rdn = Vec<Pair>;
/// RDNs in stored order.
pub type Name = Vec<Rdn>;

/// What a name is asked as.
#[derive(Clone, Copy, PartialEq, Eq)]
pub enum Kind {
    RdnSequence,
    Rdn,
}

impl Draw {
    /// A name, most often one of few; for an RDN mostly one of a single RDN.
    fn name(&mut self, kind: Kind) -> Name {
        let base = self.pick(&NAMES);
        let mut name: Name =
            base.iter().map(|rdn| rdn.iter().map(|&(ty, value)| (ty, value.to_string())).collect()).collect();
        if self.once_in(6) {
            self.change(&mut name);
        }
        if kind == Kind::Rdn && !self.once_in(20) {
            name.truncate(1);
        }
        if kind == Kind::Rdn && name.is_empty() && !self.once_in(20) {
            name.push(vec![(0, "a".to_string())]);
        }
        name
    }

    /// Changes a name in one place, sometimes up to the limits of RDNs and pairs and over.
    fn change(&mut self, name: &mut Name) {
        if name.is_empty() {
            return;
        }
        let at = self.below(name.len());
        let pair = self.below(name[at].len());
        match self.below(9) {
            0 => drop(name.remove(at)),
            1 => name.insert(at, name[at].clone()),
            2 => name.reverse(),
            3 => drop(name[at].remove(pair)),
            4 => {
                let again = name[at][pair].clone();
                name[at].push(again);
            }
            5 => name[at][pair].0 = self.below(TYPES.len()),
            6 => name[at][pair].1 = self.pick(&["a", "b", "", "A b", "é", "\u{131}"]).to_string(),
            7 => {
                let rdns = self.pick(&[15, 16, 17]);
                name.resize(rdns, vec![(0, "a".to_string())]);
            }
            _ => {
                let pairs = self.pick(&[3, 4, 5]);
                name[at].resize(pairs, (2, "b".to_string()));
            }
        }
        name.retain(|rdn| !rdn.is_empty());
    }

    /// A text that is prepared as this one is.
    fn varied(&mut self, value: &str) -> String {
        let mut text = String::new();
        for c in value.chars() {
            match self.below(4) {
                _ if c == ' ' => text += self.pick(&[" ", " ", "  ", "\t ", "\u{A0}"]),
                0 => text.extend(c.to_uppercase()),
                1 => text.extend(c.to_lowercase()),
                _ => text.push(c),
            }
            if self.once_in(20) {
                text += self.pick(&["\u{AD}", "\0", "\u{7F}"]);
            }
        }
        if self.once_in(6) {
            text.insert_str(self.pick(&[0, text.len()]), self.pick(&[" ", "  ", "\n"]));
        }
        text
    }

    /// The contents of a drawn name, good ones mostly.
    pub fn stored(&mut self, kind: Kind) -> Vec<u8> {
        let name = self.name(kind);
        let flawed = self.once_in(12);
        self.contents_of_name(&name, kind, flawed)
    }

    /// The contents of a name, or some that are close to it.
    fn contents_of_name(&mut self, name: &Name, kind: Kind, flawed: bool) -> Vec<u8> {
        match kind {
            Kind::Rdn => name.first().map_or(Vec::new(), |rdn| self.contents_of_rdn(rdn, flawed)),
            Kind::RdnSequence => name
                .iter()
                .flat_map(|rdn| {
                    let other = flawed && self.once_in(8);
                    let tag = if other { self.pick(&[0x30, 0x11, 0xA0, 0xB1]) } else { der::SET };
                    encoded(tag, &self.contents_of_rdn(rdn, flawed))
                })
                .collect(),
        }
    }

    fn contents_of_rdn(&mut self, rdn: &Rdn, flawed: bool) -> Vec<u8> {
        let mut pairs: Vec<Vec<u8>> = rdn
            .iter()
            .map(|(ty, value)| {
                let value = self.varied(value);
                let ty = encoded(6, &contents_of_type(TYPES[*ty]));
                let value = self.string(value.as_bytes());
                if flawed && self.once_in(4) {
                    self.other_pair(ty, value)
                } else {
                    encoded(der::SEQUENCE, &[ty, value].concat())
                }
            })
            .collect();
        pairs.sort();
        match self.below(12) {
            0 if flawed => pairs.reverse(),
            1 if flawed => pairs.rotate_left(1),
            2 if flawed => pairs.clear(),
            _ => {}
        }
        pairs.concat()
    }

    /// A string of one of the kinds that admit it.
    fn string(&mut self, text: &[u8]) -> Vec<u8> {
        let tag = match self.below(3) {
            0 if der::is_printable(text) => 0x13,
            1 if der::is_ia5(text) => 0x16,
            _ => 0x0C,
        };
        encoded(tag, text)
    }

    /// Something close to a pair of a type and a value.
    fn other_pair(&mut self, ty: Vec<u8>, value: Vec<u8>) -> Vec<u8> {
        let long = [&[0x2A][..], &[1; 32]].concat();
        let contents = match self.below(8) {
            0 => ty,
            1 => [value, ty].concat(),
            2 => [ty, value, vec![5, 0]].concat(),
            3 => {
                let tag = self.pick(&[0x14, 0x1E, 0x04, 0x2C, 0x33, 0x80, 0x1A, 0x0D, 0x17]);
                [ty, vec![tag], value[1..].to_vec()].concat()
            }
            4 => {
                let other = self.pick(&[&[][..], &[0x80, 1], &[0x81], &[0x90, 0x80, 0x80, 0x80, 0], &long]);
                [encoded(6, other), value].concat()
            }
            5 => {
                let other = self.pick(&[
                    &[0x13, 1, b'*'][..],
                    &[0x13, 1, b'@'],
                    &[0x16, 1, 0x80],
                    &[0x0C, 1, 0xC3],
                    &[0x0C, 0x81, 1, b'a'],
                    &[0x16, 2, b'a'],
                ]);
                [ty, other.to_vec()].concat()
            }
            6 => return encoded(self.pick(&[0x31, 0x10, 0x04, 0xA0]), &[ty, value].concat()),
            _ => vec![],
        };
        encoded(der::SEQUENCE, &contents)
    }

    /// A text for a name that may well be stored. Not each of them conforms.
    pub fn asserted_name(&mut self, kind: Kind) -> String {
        let name = self.name(kind);
        let near = self.once_in(4);
        self.text_of_name(&name, near)
    }

    /// The text of a name, or one close to it.
    fn text_of_name(&mut self, name: &Name, near: bool) -> String {
        let mut texts = Vec::new();
        for rdn in name {
            let mut pairs = rdn.clone();
            for at in 1..pairs.len() {
                pairs.swap(at, self.below(at + 1));
            }
            let pairs: Vec<String> = pairs.iter().map(|pair| self.text_of_pair(pair, near)).collect();
            let plus = if near && self.once_in(8) { self.pick(&[" +", "+ ", "++", "|"]) } else { "+" };
            texts.push(pairs.join(plus));
        }
        if !near || !self.once_in(6) {
            texts.reverse();
        }
        let comma = if near && self.once_in(6) { self.pick(&[", ", " ,", ";", ",,", "+", "/"]) } else { "," };
        let mut text = texts.join(comma);
        if near && self.once_in(6) {
            let around = self.pick(&[" ", ",", "+", "\\", "#", "="]);
            text.insert_str(self.pick(&[0, text.len()]), around);
        }
        let quoted = format!("\"{}\"", text.replace('"', "\"\""));
        match self.below(60) {
            0 if near => format!("rdnSequence:{quoted}"),
            1 if near => text,
            2 if near => format!("{quoted}{quoted}"),
            _ => quoted,
        }
    }

    fn text_of_pair(&mut self, (ty, value): &Pair, near: bool) -> String {
        let value = self.varied(value);
        let mut value = self.escaped(&value);
        let mut ty = TYPES[*ty].to_string();
        match self.below(8) {
            0 if near => {
                let long = ".1".repeat(40);
                ty = match self.below(6) {
                    0 => ty + self.pick(&[".", "..1", ".01", ".-1", " ", "a", &long]),
                    1 => format!("{}{ty}", self.pick(&["OID.", " ", "0", "."])),
                    2 => self.pick(&["cn", "CN", "o", "", "2", "1.40", "3.1", "0.40.1"]).to_string(),
                    // Numbers that are those of a type if they are cut to 32 or 64 bits.
                    3 => self.pick(&["2.5.4.4294967299", "2.5.4.18446744073709551619"]).to_string(),
                    4 => self.pick(&["2.4294967216", "2.18446744073709551621.4.3"]).to_string(),
                    _ => ty + self.pick(&[".0", ".1", ".4294967296"]),
                };
            }
            1 if near => {
                let odd = self.pick(&[
                    "\"", ";", "<", ">", "\\", "\0", "#", " ", "\\-", "\\n", "\\4", "\\C3", "\\fF", "\\zz",
                    "\\é", "=", "\\=", "\\#", "\\ ", "\u{1}", "{", "\\c3\\A9",
                ]);
                value.insert_str(self.pick(&[0, value.len()]), odd);
            }
            _ => {}
        }
        format!("{ty}={value}")
    }

    /// A value with the escapes it needs, and others.
    fn escaped(&mut self, value: &str) -> String {
        let mut text = String::new();
        let last = value.chars().count().saturating_sub(1);
        let often = self.pick(&[1, 6, 30, 30]);
        for (at, c) in value.chars().enumerate() {
            let special = matches!(c, '"' | '+' | ',' | ';' | '<' | '>' | '\\' | ' ' | '#' | '=');
            let needed = match c {
                '\0' | '"' | '+' | ',' | ';' | '<' | '>' | '\\' => true,
                ' ' => at == 0 || at == last,
                '#' => at == 0,
                _ => false,
            };
            if special && (needed || self.once_in(6)) && self.once_in(2) {
                text.extend(['\\', c]);
            } else if needed || self.once_in(often) {
                for octet in c.to_string().bytes() {
                    text +=
                        &if self.once_in(2) { format!("\\{octet:02X}") } else { format!("\\{octet:02x}") };
                }
            } else {
                text.push(c);
            }
        }
        text
    }

    /// A case of questions about long names: many in a list, of many RDNs and pairs, with long values that
    /// differ in their last character.
    pub fn long_names(&mut self) -> Vec<u8> {
        let kind = self.pick(&[Kind::RdnSequence, Kind::Rdn]);
        let group = self.pick(&[0, 14, 15]);
        let (row, tag) = if kind == Kind::Rdn { (20, der::SET) } else { (19, der::SEQUENCE) };
        let most = self.pick(&[300, 2000, 4000, 4000, 4080, 4150]);
        let rdns = if kind == Kind::Rdn { 1 } else { self.pick(&[1, 1, 2, 3, 16]) };
        let pairs = self.pick(&[1, 1, 2, 4]);
        // Most of the names fit into a filter.
        let longest = (self.pick(&[500usize, 1900, 1900, 3800]) / (rdns * pairs)).saturating_sub(16);
        let letters = self.pick(&[0, 1, 5, 30, 120, 300, 900, 1800]).min(longest);
        let (mut names, mut elements, mut size) = (Vec::new(), Vec::new(), 0);
        while names.is_empty() || group != 0 {
            let name = self.long_name(rdns, pairs, letters);
            let flawed = self.once_in(400);
            let element = encoded(tag, &self.contents_of_name(&name, kind, flawed));
            if !names.is_empty() && size + element.len() > most {
                break;
            }
            size += element.len();
            names.push(name);
            elements.push(element);
        }
        if group == 15 {
            elements.sort();
        }
        let mut value = elements.concat();
        let mut table = vec![row];
        if group != 0 {
            value = encoded(if group == 15 { der::SET } else { der::SEQUENCE }, &value);
            table = vec![group, 0, 1, row];
        }
        value.truncate(LONGEST_VALUE);
        if self.once_in(12) {
            self.broken(&mut value);
            value.truncate(LONGEST_VALUE);
        }
        let questions: Vec<Vec<u8>> = (0..4).map(|_| self.long_question(&names, kind, group != 0)).collect();
        let count = (questions.len() as u16).to_be_bytes().to_vec();
        [vec![b'q'], sized(&table), sized(&value), count, questions.concat()].concat()
    }

    fn long_name(&mut self, rdns: usize, pairs: usize, letters: usize) -> Name {
        let stem = self.pick(&["a", "A b", "é", "ß ", "\"", "x"]);
        let value =
            |draw: &mut Draw| stem.repeat(letters / stem.len()) + draw.pick(&["", "a", "a", "b", "c"]);
        (0..rdns).map(|_| (0..pairs).map(|_| (self.pick(&[0, 0, 2]), value(self))).collect()).collect()
    }

    /// A filter about names like these, too long only now and then.
    fn long_question(&mut self, names: &[Name], kind: Kind, listed: bool) -> Vec<u8> {
        let rule = if kind == Kind::Rdn { "rdnMatch" } else { "distinguishedNameMatch" };
        let component = if listed { "component \"*\"," } else { "" };
        let (mut items, mut size) = (Vec::new(), 8);
        for _ in 0..self.pick(&[2, 2, 4, 20]) {
            let text = self.long_text(names);
            let item = format!("item:{{{component}rule {rule},value {text}}}");
            if size + item.len() < LONGEST_FILTER || self.once_in(20) {
                size += item.len() + 1;
                items.push(item);
            }
        }
        let filter = match &items[..] {
            [only] => only.clone(),
            _ => format!("{}:{{{}}}", self.pick(&["and", "or", "or"]), items.join(",")),
        };
        self.filter_question(filter.into_bytes())
    }

    /// The text of one of these names, or of one close to it.
    fn long_text(&mut self, names: &[Name]) -> String {
        let mut name = names[self.below(names.len())].clone();
        match self.below(8) {
            0 => self.change(&mut name),
            1..=3 => {
                let at = self.below(name.len());
                let pair = self.below(name[at].len());
                name[at][pair].1 += self.pick(&["a", "b", " ", "\u{AD}"]);
            }
            _ => {}
        }
        let near = self.once_in(8);
        self.text_of_name(&name, near)
    }
}

/// The contents octets of a dotted type.
fn contents_of_type(dotted: &str) -> Vec<u8> {
    let mut octets = Vec::new();
    for number in rules::subidentifiers(dotted.as_bytes()).into_iter().flatten().flatten() {
        der::put_subidentifier(number as u32, &mut octets);
    }
    octets
}
