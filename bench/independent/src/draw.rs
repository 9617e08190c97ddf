//! Draws cases from a seed, in the format of docs/CASES.md.
//!
//! A case is a drawn table with a drawn value of its type, either of them broken now and then, and
//! questions about them. Small domains make equal values likely.

mod members;
mod names;

use crate::table::{Basic, BitName, Form, Member, Presence, Table, Tagging, Type};
use crate::{check_table, der, list};
use members::FIELDS;
use names::Kind;

const QUESTIONS: usize = 12;
/// No input of a case is longer (docs/CASES.md): one octet more than the limits.
const LONGEST_TABLE: usize = 8065;
const LONGEST_VALUE: usize = 4097;
const LONGEST_FILTER: usize = 2049;
const RULES: [(&str, &str); 14] = [
    ("presentMatch", "1.2.36.79672281.1.13.5"),
    ("booleanMatch", "2.5.13.13"),
    ("integerMatch", "2.5.13.14"),
    ("integerOrderingMatch", "2.5.13.15"),
    ("objectIdentifierMatch", "2.5.13.0"),
    ("octetStringMatch", "2.5.13.17"),
    ("octetStringOrderingMatch", "2.5.13.18"),
    ("bitStringMatch", "2.5.13.16"),
    ("caseIgnoreMatch", "2.5.13.2"),
    ("caseExactMatch", "2.5.13.5"),
    ("generalizedTimeMatch", "2.5.13.27"),
    ("generalizedTimeOrderingMatch", "2.5.13.28"),
    ("distinguishedNameMatch", "2.5.13.1"),
    ("rdnMatch", "1.2.36.79672281.1.13.3"),
];

/// Numbers drawn by SplitMix64.
pub struct Draw(u64);

impl Draw {
    /// What is drawn follows from the seed.
    pub fn new(seed: u64) -> Draw {
        Draw(seed)
    }

    fn next(&mut self) -> u64 {
        self.0 = self.0.wrapping_add(0x9E37_79B9_7F4A_7C15);
        let mut z = self.0;
        z = (z ^ (z >> 30)).wrapping_mul(0xBF58_476D_1CE4_E5B9);
        z = (z ^ (z >> 27)).wrapping_mul(0x94D0_49BB_1331_11EB);
        z ^ (z >> 31)
    }

    /// A number below `limit`.
    pub fn below(&mut self, limit: usize) -> usize {
        (self.next() % limit as u64) as usize
    }

    /// True once in `n` times.
    pub fn once_in(&mut self, n: usize) -> bool {
        self.below(n) == 0
    }

    /// One of these.
    pub fn pick<T: Copy>(&mut self, from: &[T]) -> T {
        from[self.below(from.len())]
    }

    /// Changes, doubles, drops or puts in an octet, or cuts the octets off.
    pub fn broken(&mut self, octets: &mut Vec<u8>) {
        let at = self.below(octets.len() + 1);
        let octet = match self.below(3) {
            0 => self.next() as u8,
            1 => self.pick(b"\"{},.*: 0-'aT"),
            _ => self.below(22) as u8,
        };
        match self.below(5) {
            0 => octets.insert(at, octet),
            1 => octets.truncate(at),
            _ if at == octets.len() => {}
            2 => octets.insert(at, octets[at]),
            3 => drop(octets.remove(at)),
            _ => octets[at] = if octet & 1 == 0 { octets[at] ^ (1 << self.below(8)) } else { octet },
        }
    }

    /// Changes the end of a bit string in the value, if there is any, to one close to it.
    fn other_bits(&mut self, value: &mut [u8]) {
        let contents = |at: usize| {
            let length = usize::from(*value.get(at + 1)?);
            value.get(at + 2..at + 2 + length).filter(|octets| der::is_bit_string(octets))
        };
        let found: Vec<usize> =
            (0..value.len()).filter(|&at| value[at] == 3 && contents(at).is_some()).collect();
        if found.is_empty() {
            return;
        }
        let unused = self.pick(&found) + 2;
        let last = unused + usize::from(value[unused - 1]) - 1;
        match self.below(4) {
            0 => value[unused] = value[unused].wrapping_sub(1),
            1 => value[unused] += 1,
            // The octet of the last bits: without the last 1, or zero.
            2 if last > unused => value[last] &= value[last].wrapping_sub(1),
            _ if last > unused => value[last] = 0,
            _ => value[unused] = self.pick(&[1, 7, 8, 255]),
        }
    }

    /// One case.
    pub fn case(&mut self) -> Vec<u8> {
        if self.once_in(16) {
            return self.long_names();
        }
        let mut table = if self.once_in(16) { self.large_table() } else { self.table() };
        let mut value = Vec::new();
        let mut questions = Vec::new();
        if let Some(parsed) = Table::parse(&table) {
            value = self.value(&parsed.root, None);
            value.truncate(LONGEST_VALUE);
            if self.once_in(8) {
                self.broken(&mut value);
            } else if self.once_in(20) {
                self.other_bits(&mut value);
            }
            questions = (0..QUESTIONS).map(|_| self.question(&table, &value, &parsed.root)).collect();
        }
        if self.once_in(10) {
            self.broken(&mut table);
        } else if self.once_in(10) {
            table = self.other_bit_names(&table);
        } else if self.once_in(6) {
            table = self.other_members(&table);
        } else if self.once_in(20) {
            table = self.other_kind(&table);
        } else if self.once_in(50) {
            self.resized(&mut table);
        }
        table.truncate(LONGEST_TABLE);
        value.truncate(LONGEST_VALUE);
        match self.below(6) {
            0 => [vec![b't'], sized(&table)].concat(),
            1 => {
                if self.once_in(3) {
                    self.other_bits(&mut value);
                } else {
                    self.broken(&mut value);
                    value.truncate(LONGEST_VALUE);
                }
                [vec![b'v'], sized(&table), sized(&value)].concat()
            }
            2 if self.once_in(4) => {
                let [place, length] = [(); 2].map(|()| match self.below(8) {
                    0 => self.next(),
                    1 => u64::MAX - self.below(3) as u64,
                    _ => self.below(value.len() + 2) as u64,
                });
                [vec![b'p'], sized(&value), place.to_be_bytes().to_vec(), length.to_be_bytes().to_vec()]
                    .concat()
            }
            _ => {
                let count = (questions.len() as u16).to_be_bytes().to_vec();
                [vec![b'q'], sized(&table), sized(&value), count, questions.concat()].concat()
            }
        }
    }

    /// A table that is admitted, mostly.
    fn table(&mut self) -> Vec<u8> {
        loop {
            let table = self.loose_table();
            if check_table(&table).is_ok() || self.once_in(12) {
                return table;
            }
        }
    }

    fn loose_table(&mut self) -> Vec<u8> {
        let most = self.pick(&[4, 10, 20, 40]);
        // Some tables have many named bit strings, distinguished names or long members, the others none.
        let [named_bits, names, long_members] = [2, 2, 3].map(|often| self.below(5) < often);
        let mut rows: Vec<Vec<u8>> = Vec::new();
        // Rows that wait for a type: which, and whether they are alternatives.
        let mut waiting: Vec<(usize, bool)> = Vec::new();
        loop {
            let row = rows.len();
            let open = row + waiting.len() < most;
            let rarely = if row == 0 { 10 } else { 3 };
            let kind = if named_bits && self.once_in(rarely) {
                17
            } else if names && self.once_in(rarely) {
                self.pick(&[19, 19, 20])
            } else if open && (row == 0 || self.once_in(2)) {
                12 + self.below(4) as u8
            } else {
                1 + self.below(11) as u8
            };
            // Two rows share a type now and then.
            let sharing = if self.once_in(6) { 2 } else { 1 };
            for _ in 0..sharing.min(waiting.len()) {
                let last = self.below(waiting.len());
                let (from, alternative) = waiting.swap_remove(last);
                put_number(&mut rows[from], row);
                if matches!(rows[from][0], 16 | 21) {
                    self.presence(&mut rows[from], kind, alternative);
                }
            }
            match kind {
                12 | 13 => {
                    let few = self.pick(&[2, 4, 4, 8, 17]);
                    let members = self.below(few).max(usize::from(kind == 13));
                    rows.push(vec![kind, members as u8]);
                    for i in 0..members {
                        waiting.push((rows.len(), kind == 13));
                        rows.push(self.member(i, long_members));
                    }
                }
                14 | 15 => {
                    waiting.push((row, false));
                    rows.push(vec![kind, 0, 0]);
                }
                17 => rows.extend(self.bit_names()),
                _ => rows.push(vec![kind]),
            }
            if waiting.is_empty() {
                return rows.concat();
            }
        }
    }

    /// The rows of a named bit string.
    fn bit_names(&mut self) -> Vec<Vec<u8>> {
        let names = self.pick(&[1, 2, 3, 3, 3, 5, 16]);
        let longest = if self.once_in(8) { "a-very-long-name-of-24-" } else { "right" };
        let (first, step) = self.pick(&[(0, 1), (0, 1), (0, 1), (6, 1), (48, 1), (63, 63), (5, 7)]);
        let mut rows = vec![vec![17, names as u8]];
        for i in 0..names {
            let name = match ["print", "perform", "record", "a", "x-1"].get(i) {
                Some(&name) if longest == "right" => name.to_string(),
                _ => format!("{longest}{}", char::from(b'a' + i as u8)),
            };
            let mut row = [&[18], name.as_bytes()].concat();
            row.resize(25, 0);
            row.push(((first + i * step) % 64) as u8);
            // In any place of the list.
            let at = if self.once_in(2) { rows.len() } else { 1 + self.below(rows.len()) };
            rows.insert(at, row);
        }
        rows
    }

    /// The table with a change in one of its named bit strings, if it has any.
    fn other_bit_names(&mut self, table: &[u8]) -> Vec<u8> {
        let mut rows = rows(table);
        let heads: Vec<usize> = (0..rows.len()).filter(|&at| rows[at][0] == 17).collect();
        if heads.is_empty() {
            return table.to_vec();
        }
        let head = self.pick(&heads);
        let names = usize::from(rows[head][1]);
        let [one, other] = [(); 2].map(|()| head + 1 + self.below(names));
        match self.below(9) {
            0 => rows[one][25] = rows[other][25],
            1 => {
                let name = rows[other][1..25].to_vec();
                rows[one][1..25].copy_from_slice(&name);
            }
            2 => rows[one][25] = self.pick(&[0, 1, 62, 63, 64, 65, 128, 255]),
            3 => rows[head][1] = self.pick(&[0, 1, 2, 15, 16, 17, 255]),
            4 => rows[one][1 + self.below(10)] = self.pick(b"\0aA-1_ z"),
            5 => rows.swap(one, other),
            6 => drop(rows.remove(other)),
            7 => {
                let row = rows[other].clone();
                rows.insert(self.pick(&[head, one, rows.len()]), row);
                rows[head][1] += self.pick(&[0, 1]);
            }
            _ => self.point_to(&mut rows, other),
        }
        rows.concat()
    }

    /// Makes this row the type of a member or of a list's elements, if there are any.
    fn point_to(&mut self, rows: &mut [Vec<u8>], row: usize) {
        let pointing: Vec<usize> =
            (0..rows.len()).filter(|&at| matches!(rows[at][0], 14..=16 | 21)).collect();
        if !pointing.is_empty() {
            put_number(&mut rows[self.pick(&pointing)], row);
        }
    }

    /// The table with another kind in one of its rows that have no body, if it has any: a name most often.
    fn other_kind(&mut self, table: &[u8]) -> Vec<u8> {
        let mut rows = rows(table);
        let bare: Vec<usize> = (0..rows.len()).filter(|&at| rows[at].len() == 1).collect();
        if !bare.is_empty() {
            rows[self.pick(&bare)][0] = self.pick(&[19, 19, 20, 20, 1, 2, 8, 21]);
        }
        rows.concat()
    }

    fn presence(&mut self, row: &mut [u8], kind: u8, alternative: bool) {
        if alternative {
            return;
        }
        let at = row.len() - FIELDS + 4;
        row[at] = match kind {
            1..=3 => self.pick(&[0, 1, 2, 2]),
            _ => self.pick(&[0, 0, 1]),
        };
        if row[at] == 2 {
            let basic = if kind == 1 { Basic::Boolean } else { Basic::Integer };
            let default = self.contents(basic);
            row[at + 1] = default.len() as u8;
            row[at + 2..at + 2 + default.len()].copy_from_slice(&default);
        }
    }

    /// Good contents of a basic type.
    fn contents(&mut self, basic: Basic) -> Vec<u8> {
        match basic {
            Basic::Boolean => vec![self.pick(&[0, 0xFF])],
            Basic::Integer | Basic::Enumerated => {
                let wide = self.next() as i64 >> self.below(64);
                let number = if self.once_in(4) { wide } else { self.below(5) as i64 - 2 };
                let octets = number.to_be_bytes();
                let fill = (0..7).take_while(|&i| {
                    octets[i] == 0 && octets[i + 1] < 0x80 || octets[i] == 0xFF && octets[i + 1] >= 0x80
                });
                octets[fill.count()..].to_vec()
            }
            Basic::Null => vec![],
            Basic::ObjectIdentifier => {
                let mut octets = self.pick(&[&[0x2A][..], &[0x55], &[0x88, 0x37], &[0], &[0x4F]]).to_vec();
                for _ in 0..self.below(3) {
                    octets.extend(self.pick(&[
                        &[3][..],
                        &[4],
                        &[0x81, 0x00],
                        &[0x8F, 0xFF, 0xFF, 0xFF, 0x7F],
                    ]));
                }
                octets
            }
            Basic::OctetString => (0..self.below(4)).map(|_| self.pick(&[0, 1, 0xFF])).collect(),
            Basic::BitString => {
                let octets: Vec<u8> = (0..self.below(3)).map(|_| self.pick(&[0, 0x80, 0xA0])).collect();
                let unused = if octets.is_empty() { 0 } else { self.pick(&[0, 0, 3, 5]) };
                [vec![unused], octets].concat()
            }
            Basic::Utf8String => {
                let from = self.pick(&[
                    &["a", "A", " ", "b", "\"", "é", "}", "漢"][..],
                    &["é", "É", "e", "\u{301}", " "],
                    &["ß", "s", "S", "\u{17F}", "\u{1E9E}"],
                    &["a", " ", "\u{A0}", "\t", "\u{AD}", "\u{85}", "\0", "\u{2003}"],
                    &["a", " ", "\u{B4}", "\u{301}", "\u{A8}"],
                    &["i", "I", "\u{130}", "\u{131}", "\u{307}", "\u{132}", "j"],
                ]);
                self.text(from)
            }
            Basic::PrintableString => self.text(&["a", "A", " ", " ", "b", "B"]),
            Basic::Ia5String => self.text(&["a", "A", " ", " ", "{", "\"", "\u{0}", "\n"]),
            Basic::GeneralizedTime => {
                let day = self.pick(&["20240229", "20240228", "00000101", "99991231"]);
                let second = self.pick(&["120000", "120001", "235960"]);
                let fraction = self.pick(&["", "", ".5", ".49", ".000000001"]);
                format!("{day}{second}{fraction}Z").into_bytes()
            }
        }
    }

    /// Some bits of a named bit string as digits, the last of them 1.
    fn bits(&mut self, names: &[BitName]) -> String {
        let mut set = Vec::new();
        for _ in 0..self.pick(&[0, 1, 1, 2, 2, 3]) {
            set.push(usize::from(self.pick(names).bit));
        }
        if self.once_in(8) {
            set.push(self.pick(&[2, 7, 8, 15, 63, 64, 65, 128, 1100]));
        }
        let length = set.iter().max().map_or(0, |last| last + 1);
        (0..length).map(|bit| if set.contains(&bit) { '1' } else { '0' }).collect()
    }

    /// Good contents of a named bit string, rarely with zeros at the end.
    fn named_bits(&mut self, names: &[BitName]) -> Vec<u8> {
        let mut digits = self.bits(names);
        if self.once_in(60) {
            digits += self.pick(&["0", "00", "0000", "00000000", "0000000000"]);
        }
        packed(&digits)
    }

    fn text(&mut self, from: &[&str]) -> Vec<u8> {
        (0..self.below(6)).flat_map(|_| self.pick(from).bytes()).collect()
    }

    /// A good value of a type, with another tag octet if it is tagged implicitly.
    fn value(&mut self, ty: &Type, tag: Option<u8>) -> Vec<u8> {
        let contents = match &ty.form {
            Form::Choice(members) => {
                let chosen = self.below(members.len());
                return self.member_value(&members[chosen]);
            }
            Form::Basic(basic) => self.contents(*basic),
            Form::NamedBits(names) => self.named_bits(names),
            Form::Sequence(members) => {
                let mut octets = Vec::new();
                for member in members {
                    if member.presence == Presence::Mandatory || self.once_in(2) {
                        octets.extend(self.member_value(member));
                    }
                }
                octets
            }
            Form::SequenceOf(inner) | Form::SetOf(inner) => {
                let many = self.pick(&[1, 3, 4, 5]);
                let mut elements: Vec<Vec<u8>> =
                    (0..self.below(many)).map(|_| self.value(inner, None)).collect();
                if matches!(ty.form, Form::SetOf(_)) {
                    elements.sort();
                }
                elements.concat()
            }
            Form::RdnSequence => self.stored(Kind::RdnSequence),
            Form::Rdn => self.stored(Kind::Rdn),
        };
        encoded(tag.or(ty.form.tag()).unwrap_or(0), &contents)
    }

    fn member_value(&mut self, member: &Member) -> Vec<u8> {
        let tag = match member.tagging {
            Tagging::Implicit(tag) => Some(tag),
            _ => None,
        };
        let own = self.value(&member.ty, tag);
        if matches!(member.presence, Presence::Default(default) if own[2..] == *default) && !self.once_in(30)
        {
            return Vec::new();
        }
        match member.tagging {
            Tagging::Explicit(tag) => encoded(tag, &own),
            _ => own,
        }
    }

    /// A reference and the type it leads to, `None` for a count. The empty text is for the whole value.
    fn reference<'t>(&mut self, root: &'t Type<'t>) -> (String, Option<&'t Type<'t>>) {
        let mut text = String::new();
        let mut ty = root;
        while !self.once_in(4) {
            let next = match &ty.form {
                Form::Basic(_) => break,
                Form::NamedBits(names) => {
                    // No reference goes inside, not even one of a name.
                    if self.once_in(10) {
                        let name = String::from_utf8_lossy(self.pick(names).name).into_owned();
                        text += self.pick(&[&name, &name, "0", "1", "*", "content"]);
                        return (text, Some(ty));
                    }
                    break;
                }
                Form::RdnSequence | Form::Rdn => {
                    if self.once_in(10) {
                        text += self.pick(&["0", "1", "-1", "*", "1.1", "rdnSequence", "type", "content"]);
                        return (text, Some(ty));
                    }
                    break;
                }
                Form::Sequence(members) | Form::Choice(members) => {
                    if members.is_empty() {
                        break;
                    }
                    let member = &members[self.below(members.len())];
                    text += &self.referred(member.name);
                    Some(&*member.ty)
                }
                Form::SequenceOf(inner) | Form::SetOf(inner) => {
                    let step =
                        self.pick(&["*", "*", "*", "1", "2", "3", "-1", "-2", "0", "18446744073709551617"]);
                    text += step;
                    (step != "0").then_some(&**inner)
                }
            };
            text.push('.');
            match next {
                Some(inner) => ty = inner,
                None => return (text.trim_end_matches('.').to_string(), None),
            }
        }
        (text.trim_end_matches('.').to_string(), Some(ty))
    }

    fn question(&mut self, table: &[u8], value: &[u8], root: &Type) -> Vec<u8> {
        if self.once_in(3) {
            let (text, _) = self.reference(root);
            let given = !text.is_empty() || self.once_in(8);
            let mut reference = text.into_bytes();
            if self.once_in(8) {
                self.broken(&mut reference);
            }
            let defaults = self.below(4) > 0;
            let mut room = [0; 6144];
            let named = list(table, value, given.then_some(&reference[..]), defaults, &mut room);
            let room = (3 * named.unwrap_or(1) + self.pick(&[0, 1, 1, 1, 2, 4])).saturating_sub(1) as u16;
            let (given, defaults) = (vec![u8::from(given)], vec![u8::from(defaults)]);
            return [vec![b'l'], given, sized(&reference), defaults, room.to_be_bytes().to_vec()].concat();
        }
        let mut items = 0;
        let deepest = self.pick(&[1, 1, 2, 3, 5, 17]);
        let filter = self.filter(root, deepest, &mut items).into_bytes();
        self.filter_question(filter)
    }

    /// The question that a filter is, broken now and then.
    fn filter_question(&mut self, mut filter: Vec<u8>) -> Vec<u8> {
        if self.once_in(8) {
            self.broken(&mut filter);
        }
        filter.truncate(LONGEST_FILTER);
        let budget: u64 = match self.below(12) {
            0 => 65_536,
            1..=4 => self.below(4) as u64,
            _ => 65_535,
        };
        [vec![b'f'], sized(&filter), budget.to_be_bytes().to_vec()].concat()
    }

    fn filter(&mut self, root: &Type, depth: usize, items: &mut usize) -> String {
        match self.below(4) {
            _ if depth <= 1 || *items > 8 => {
                *items += 1;
                self.item(root)
            }
            0 => {
                *items += 1;
                self.item(root)
            }
            1 => format!("not:{}", self.filter(root, depth - 1, items)),
            _ => {
                let word = self.pick(&["and", "or"]);
                let filters: Vec<String> =
                    (0..self.below(4)).map(|_| self.filter(root, depth - 1, items)).collect();
                let (before, after) = (self.spaces(), self.spaces());
                format!("{word}:{{{before}{}{after}}}", filters.join(self.pick(&[",", ", "])))
            }
        }
    }

    fn spaces(&mut self) -> &'static str {
        self.pick(&["", "", "", " ", "  "])
    }

    fn item(&mut self, root: &Type) -> String {
        let (reference, target) = self.reference(root);
        let (suited, text): (&[usize], String) = match target.map(|ty| (&ty.form, ty)) {
            None => (&[2, 3], self.below(4).to_string()),
            Some((Form::Basic(basic), _)) => (suited(*basic), self.asserted(*basic)),
            Some((Form::NamedBits(names), _)) => (&[7], self.asserted_bits(names)),
            Some((Form::Choice(members), _)) if members.iter().all(|m| is_string(&m.ty)) => {
                (&[8, 9], self.asserted(Basic::Utf8String))
            }
            Some((Form::RdnSequence, _)) => (&[12], self.asserted_name(Kind::RdnSequence)),
            Some((Form::Rdn, _)) => (&[13], self.asserted_name(Kind::Rdn)),
            Some(_) if self.once_in(12) => (&[12, 13], self.asserted_name(Kind::Rdn)),
            Some(_) => (&[0], "NULL".to_string()),
        };
        let mut text = text.into_bytes();
        if self.once_in(12) {
            self.broken(&mut text);
        }
        let mut text = String::from_utf8_lossy(&text).into_owned();
        let (mut name, mut oid) = RULES[self.pick(suited)];
        if self.once_in(6) {
            (name, oid) = (RULES[0].0, RULES[0].1);
            text = "NULL".to_string();
        } else if self.once_in(12) {
            (name, oid) = self.pick(&RULES);
        }
        let rule = match self.below(8) {
            0 => oid.to_string(),
            1 => name.to_uppercase(),
            _ => name.to_string(),
        };
        let component = match (reference.is_empty(), self.spaces()) {
            (true, _) => String::new(),
            (false, space) => format!("component {space}\"{reference}\",{space}"),
        };
        let defaults = self.pick(&["", "", "useDefaultValues FALSE,", "useDefaultValues TRUE, "]);
        let (before, after) = (self.spaces(), self.spaces());
        format!("item:{{{before}{component}{defaults}rule {rule},{after}value {before}{text}{after}}}")
    }

    /// A text for a named bit string, of a value that may well be stored: a list of names or digits. Not
    /// each of them conforms.
    fn asserted_bits(&mut self, names: &[BitName]) -> String {
        let mut digits = self.bits(names);
        if self.once_in(3) {
            let zeros = self.pick(&[0, 0, 1, 2, 3, 7, 8, 9, 64, 200]);
            digits.extend(std::iter::repeat_n('0', zeros));
            if self.once_in(2) {
                return format!("'{digits}'B");
            }
            digits.extend(std::iter::repeat_n('0', digits.len().wrapping_neg() % 4));
            let nibbles =
                digits.as_bytes().chunks(4).map(|four| four.iter().fold(0, |n, d| 2 * n + (d - b'0')));
            return format!("'{}'H", nibbles.map(|nibble| format!("{nibble:X}")).collect::<String>());
        }
        let is_set = |name: &&BitName| digits.as_bytes().get(usize::from(name.bit)) == Some(&b'1');
        let mut listed: Vec<String> =
            names.iter().filter(is_set).map(|name| String::from_utf8_lossy(name.name).into_owned()).collect();
        while self.once_in(4) && !listed.is_empty() {
            let again = listed[self.below(listed.len())].clone();
            listed.insert(self.below(listed.len() + 1), again);
        }
        if self.once_in(12) {
            let name = String::from_utf8_lossy(self.pick(names).name).into_owned();
            let near =
                self.pick(&["", "stage", "0", "A", "Print", "perform1", "recor", "\u{e9}", "\"a\"", "{a}"]);
            let near = match self.below(4) {
                0 => name.to_uppercase(),
                1 => name[..name.len() - 1].to_string(),
                2 => name + "a",
                _ => near.to_string(),
            };
            listed.insert(self.below(listed.len() + 1), near);
        }
        let mut text = String::from("{") + self.spaces();
        for (i, name) in listed.iter().enumerate() {
            if i > 0 {
                let comma = if self.once_in(20) { self.pick(&[" ,", " ", ";", ",,", ", ,"]) } else { "," };
                text = text + comma + self.spaces();
            }
            text += name;
        }
        let after = if self.once_in(20) {
            self.pick(&[",", ", ", "\t", "\u{a0}", "{}", "}{"])
        } else {
            self.spaces()
        };
        text + after + "}"
    }

    /// A text that conforms, of a value that may well be stored.
    fn asserted(&mut self, basic: Basic) -> String {
        let contents = self.contents(basic);
        let hex = |octets: &[u8]| octets.iter().map(|b| format!("{b:02X}")).collect::<String>();
        match basic {
            Basic::Boolean => if contents == [0] { "FALSE" } else { "TRUE" }.to_string(),
            Basic::Integer | Basic::Enumerated => {
                let number = der::integer(&contents).to_string();
                let longer = self.pick(&["", "", "", "", "", "00000000000000000000"]);
                if number == "0" {
                    number
                } else {
                    number + longer
                }
            }
            Basic::Null => "NULL".to_string(),
            Basic::ObjectIdentifier => {
                let mut arcs = Vec::new();
                let mut rest = &contents[..];
                while let Some((number, after)) = der::subidentifier(rest) {
                    if arcs.is_empty() {
                        let first = (number / 40).min(2);
                        arcs.push(first);
                        arcs.push(number - 40 * first);
                    } else {
                        arcs.push(number);
                    }
                    rest = after;
                }
                arcs.iter().map(u32::to_string).collect::<Vec<_>>().join(".")
            }
            Basic::OctetString => format!("'{}'H", hex(&contents)),
            Basic::BitString => {
                let bits: String = contents[1..].iter().map(|b| format!("{b:08b}")).collect();
                let bits = &bits[..bits.len() - usize::from(contents[0])];
                if self.once_in(10) {
                    return self.pick(&["{}", "{ }", "{print}", "{a}"]).to_string();
                }
                if self.once_in(2) && bits.len() % 8 == 0 {
                    format!("'{}'H", hex(&contents[1..]))
                } else {
                    format!("'{bits}'B")
                }
            }
            Basic::Utf8String | Basic::PrintableString | Basic::Ia5String | Basic::GeneralizedTime => {
                format!("\"{}\"", String::from_utf8_lossy(&contents).replace('"', "\"\""))
            }
        }
    }
}

/// The rows of a table that has only whole rows.
fn rows(table: &[u8]) -> Vec<Vec<u8>> {
    let mut rows = Vec::new();
    let mut rest = table;
    while let Some(kind) = rest.first() {
        let size = match kind {
            12 | 13 | 17 => 2,
            14 | 15 => 3,
            16 => 39,
            18 => 26,
            21 => 63,
            _ => 1,
        };
        let (row, after) = rest.split_at(size.min(rest.len()));
        rows.push(row.to_vec());
        rest = after;
    }
    rows
}

/// Puts the number of a type's row into the row of a member or a list.
fn put_number(row: &mut [u8], number: usize) {
    let at = if matches!(row[0], 14 | 15) { 1 } else { row.len() - FIELDS };
    row[at..at + 2].copy_from_slice(&(number as u16).to_be_bytes());
}

/// The contents of a BIT STRING of binary digits.
fn packed(digits: &str) -> Vec<u8> {
    let octets = digits.as_bytes().chunks(8).map(|eight| {
        eight.iter().enumerate().fold(0, |octet, (at, &digit)| octet | (digit - b'0') << (7 - at))
    });
    let unused = digits.len().wrapping_neg() % 8;
    std::iter::once(unused as u8).chain(octets).collect()
}

fn is_string(ty: &Type) -> bool {
    matches!(ty.form, Form::Basic(basic) if basic.is_string())
}

/// Which of the rules are for a basic type, presentMatch if there is no other.
fn suited(basic: Basic) -> &'static [usize] {
    match basic {
        Basic::Boolean => &[1],
        Basic::Integer => &[2, 3],
        Basic::Enumerated | Basic::Null => &[0],
        Basic::ObjectIdentifier => &[4],
        Basic::OctetString => &[5, 6],
        Basic::BitString => &[7],
        Basic::Utf8String | Basic::PrintableString | Basic::Ia5String => &[8, 9],
        Basic::GeneralizedTime => &[10, 11],
    }
}

/// An input of octets: length and octets.
fn sized(octets: &[u8]) -> Vec<u8> {
    [&(octets.len() as u16).to_be_bytes(), octets].concat()
}

/// A value with a definite and shortest length.
pub fn encoded(tag: u8, contents: &[u8]) -> Vec<u8> {
    let length = contents.len();
    let header = match length {
        0..=0x7F => vec![tag, length as u8],
        0x80..=0xFF => vec![tag, 0x81, length as u8],
        _ => vec![tag, 0x82, (length >> 8) as u8, length as u8],
    };
    [&header, contents].concat()
}
