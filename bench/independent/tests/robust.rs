//! Broken inputs: every entry ends with an answer, and the answers agree with each other.

mod common;

use common::{licence_table, LICENCE};
use independent::cases::{read_case, read_question, Case, Input, Question};
use independent::{ask, check_table, check_value, list, part, Truth};
use std::collections::BTreeMap;

/// Numbers drawn by SplitMix64.
struct Draw(u64);

impl Draw {
    fn next(&mut self) -> u64 {
        self.0 = self.0.wrapping_add(0x9E37_79B9_7F4A_7C15);
        let mut z = self.0;
        z = (z ^ (z >> 30)).wrapping_mul(0xBF58_476D_1CE4_E5B9);
        z = (z ^ (z >> 27)).wrapping_mul(0x94D0_49BB_1331_11EB);
        z ^ (z >> 31)
    }

    fn below(&mut self, limit: usize) -> usize {
        (self.next() % limit as u64) as usize
    }

    /// Changes, drops or puts in a few octets, perhaps none.
    fn broken(&mut self, octets: &[u8]) -> Vec<u8> {
        let mut octets = octets.to_vec();
        for _ in 0..self.below(3) {
            let at = self.below(octets.len() + 1);
            let octet =
                [self.next() as u8, b"\"{},.* 0-'"[self.below(10)], self.below(22) as u8][self.below(3)];
            match self.below(3) {
                0 => octets.insert(at, octet),
                1 if at < octets.len() => drop(octets.remove(at)),
                _ if at < octets.len() => octets[at] = octet,
                _ => {}
            }
        }
        octets
    }
}

#[test]
fn broken_inputs() {
    let references = ["parts.*.copies", "parts.-1.name", "seats", "parts.0", "event", "parts.2", "parts.*"];
    let mut draw = Draw(1);
    let mut agreed = 0;
    for _ in 0..60_000 {
        let table = draw.broken(&licence_table());
        let value = draw.broken(&LICENCE);
        let reference = references[draw.below(references.len())];
        let reference = draw.broken(reference.as_bytes());
        let admitted = check_table(&table);
        let good = check_value(&table, &value);
        assert!(good.is_err() || admitted.is_ok());
        let _ = part(&value, draw.below(30), draw.below(30));

        let mut room = [9999; 6144];
        let listed = list(&table, &value, Some(&reference), true, &mut room);
        let mut filter = b"item:{component \"".to_vec();
        filter.extend(&reference);
        filter.extend(b"\",rule presentMatch,value NULL}");
        let asked = ask(&table, &value, &filter, 1);
        if !reference.contains(&b'"') {
            match (listed, asked) {
                (Ok(count), Ok((truth, tests))) => {
                    assert_eq!((truth, tests), if count > 0 { (Truth::True, 1) } else { (Truth::False, 0) });
                    assert!(room[..3 * count].chunks(3).is_sorted_by(|a, b| a[1] < b[1]));
                    agreed += 1;
                }
                (Err(3), Ok((truth, tests))) => assert_eq!((truth, tests), (Truth::Undefined, 0)),
                (Err(3), Err(number)) => assert!(number == 3 || number == 4),
                (listed, asked) => assert_eq!(listed.err(), asked.err()),
            }
        }
        let _ = ask(&table, &value, &draw.broken(&filter), draw.next() % 4);
    }
    assert!(agreed > 1000);
}

/// The kinds of the rows of a table.
fn kinds(table: &[u8]) -> Vec<u8> {
    let mut found = Vec::new();
    let mut rest = table;
    while let [kind, ..] = *rest {
        found.push(kind);
        let size = match kind {
            12 | 13 | 17 => 2,
            14 | 15 => 3,
            16 => 39,
            18 => 26,
            21 => 63,
            _ => 1,
        };
        rest = rest.get(size..).unwrap_or(&[]);
    }
    found
}

/// Whether a text has the drawn name of a member that is too long for kind 16.
fn has_long_name(text: &[u8]) -> bool {
    let names = text.split(|octet| !octet.is_ascii_alphanumeric() && *octet != b'-');
    names.into_iter().any(|name| name.len() > 24 && !name.ends_with(b"Match"))
}

/// Drawn questions are answered. A good part of them is about named bits, distinguished names and long names of
/// members, with each kind of answer.
#[test]
fn drawn_questions() {
    let mut draw = independent::draw::Draw::new(1);
    let (mut questions, mut about_bits, mut about_names, mut about_members, mut long) = (0, 0, 0, 0, 0);
    let (mut bit_answers, mut name_answers) = (BTreeMap::new(), BTreeMap::new());
    let (mut member_answers, mut listings) = (BTreeMap::new(), BTreeMap::new());
    for _ in 0..4000 {
        let drawn = draw.case();
        let mut input = Input::new(&drawn);
        let Some(Case::Questions(table, value, count)) = read_case(&mut input) else { continue };
        let kinds = kinds(table);
        let named_bits = kinds.contains(&17);
        let names = kinds.contains(&19) || kinds.contains(&20);
        let members = kinds.contains(&21);
        for _ in 0..count {
            questions += 1;
            about_bits += usize::from(named_bits);
            about_names += usize::from(names);
            about_members += usize::from(members);
            let (filter, budget) = match read_question(&mut input).expect("a question") {
                Question::Filter(filter, budget) => (filter, budget),
                Question::List { reference, defaults, room } => {
                    if members && reference.is_some_and(has_long_name) {
                        let answer = list(table, value, reference, defaults, &mut vec![0; room]);
                        *listings.entry(answer.map(|count| count.min(1))).or_insert(0) += 1;
                    }
                    continue;
                }
            };
            let answer = ask(table, value, filter, budget).map(|(truth, _)| format!("{truth:?}"));
            let has = |text: &[u8]| filter.windows(text.len()).any(|word| word == text);
            if members && has_long_name(filter) {
                *member_answers.entry(answer.clone()).or_insert(0) += 1;
            }
            if named_bits && has(b"bitStringMatch,value {") {
                *bit_answers.entry(answer.clone()).or_insert(0) += 1;
            }
            if names && (has(b"distinguishedNameMatch,value \"") || has(b"rdnMatch,value \"")) {
                *name_answers.entry(answer).or_insert(0) += 1;
                long += usize::from(value.len() > 1000 || filter.len() > 500);
            }
        }
    }
    assert!(about_bits * 6 > questions, "{about_bits} of {questions}");
    assert!(about_names * 5 > questions, "{about_names} of {questions}");
    assert!(long > 500, "{long} of {questions}");
    assert!(about_members * 5 > questions, "{about_members} of {questions}");
    for answer in [Ok(0), Ok(1), Err(1), Err(2), Err(3), Err(4), Err(6)] {
        assert!(listings.get(&answer).is_some_and(|&count| count > 10), "{answer:?} in {listings:?}");
    }
    for answers in [bit_answers, name_answers, member_answers] {
        for answer in ["True", "False", "Undefined"]
            .map(|truth| Ok(truth.to_string()))
            .into_iter()
            .chain((1..=5).map(Err))
        {
            assert!(answers.get(&answer).is_some_and(|&count| count > 10), "{answer:?} in {answers:?}");
        }
    }
}
