//! One case asked of both, and how often each answer came.

use std::collections::BTreeMap;
use std::fmt::{self, Debug};
use tezqulom::{Answer, Component, Refusal, Truth};

/// What a number of a room is before the listing. No listing writes it.
const UNWRITTEN: u64 = 9999;
/// An input of more octets is long.
const LONG: usize = 1000;

/// The answers of each entry that have to come.
const ANSWERS: [(&str, &[&str]); 5] = [
    ("check_table", &["done", "refused 1", "refused 2"]),
    ("check_value", &["done", "refused 1", "refused 2", "refused 4"]),
    ("part", &["done", "refused 1", "refused 4"]),
    ("list", &["done", "refused 1", "refused 2", "refused 3", "refused 4", "refused 6"]),
    ("ask", &["True", "False", "Undefined", "refused 1", "refused 2", "refused 3", "refused 4", "refused 5"]),
];

/// How often each entry gave each answer, the same from both.
#[derive(Default)]
pub struct Tally {
    answers: BTreeMap<(&'static str, String), usize>,
    long: usize,
}

impl Tally {
    pub fn check_table(&mut self, table: &[u8]) {
        let ours = tezqulom::check_table(table);
        same(&ours, &independent::check_table(table), || format!("{table:02X?}"));
        self.count("check_table", &[table], done(&ours));
    }

    pub fn check_value(&mut self, table: &[u8], value: &[u8]) {
        let ours = tezqulom::check_value(table, value);
        same(&ours, &independent::check_value(table, value), || format!("{table:02X?} {value:02X?}"));
        self.count("check_value", &[table, value], done(&ours));
    }

    pub fn part(&mut self, value: &[u8], place: usize, length: usize) {
        let ours = tezqulom::part(value, place, length);
        let theirs = independent::part(value, place, length);
        same(&ours, &theirs, || format!("{value:02X?} {place} {length}"));
        if let (Ok(ours), Ok(theirs)) = (ours, theirs) {
            assert_eq!(ours.as_ptr(), theirs.as_ptr(), "octets of the value itself");
        }
        self.count("part", &[value], done(&ours));
    }

    pub fn list(
        &mut self,
        table: &[u8],
        value: &[u8],
        reference: Option<&[u8]>,
        defaults: bool,
        room: usize,
    ) {
        let case = || format!("{table:02X?} {value:02X?} {reference:02X?} {defaults} {room}");
        let (mut our_room, mut their_room) = (vec![UNWRITTEN; room], vec![UNWRITTEN; room]);
        let ours = tezqulom::list_into(table, value, reference, defaults, &mut our_room)
            .map(|named| named.collect::<Vec<_>>());
        let theirs = independent::list(table, value, reference, defaults, &mut their_room);
        same(&ours.as_ref().map(Vec::len).map_err(|&refusal| refusal), &theirs, case);
        assert_eq!(our_room, their_room, "{}", case());

        let allocated = tezqulom::listing(table, value, reference, defaults);
        match &ours {
            Ok(named) => {
                assert_eq!(flat(named), our_room[..3 * named.len()], "{}", case());
                assert_eq!(allocated.as_ref(), Ok(named), "{}", case());
            }
            Err(Refusal::Room) => assert!(allocated.is_ok_and(|named| 3 * named.len() > room), "{}", case()),
            Err(refusal) => assert_eq!(allocated, Err(*refusal), "{}", case()),
        }
        self.count("list", &[table, value, reference.unwrap_or_default()], done(&ours));
    }

    pub fn ask(&mut self, table: &[u8], value: &[u8], filter: &[u8], budget: u64) {
        let ours = tezqulom::ask(table, value, filter, budget);
        let theirs = independent::ask(table, value, filter, budget).map(|(truth, tests)| {
            let truth = match truth {
                independent::Truth::True => Truth::True,
                independent::Truth::False => Truth::False,
                independent::Truth::Undefined => Truth::Undefined,
            };
            Answer { truth, tests }
        });
        same(&ours, &theirs, || format!("{table:02X?} {value:02X?} {filter:02X?} {budget}"));
        let answer = ours.map_or_else(refused, |answer| format!("{:?}", answer.truth));
        self.count("ask", &[table, value, filter], answer);
    }

    fn count(&mut self, entry: &'static str, inputs: &[&[u8]], answer: String) {
        *self.answers.entry((entry, answer)).or_default() += 1;
        self.long += usize::from(inputs.iter().any(|octets| octets.len() > LONG));
    }

    pub fn add(&mut self, other: Tally) {
        for (answer, count) in other.answers {
            *self.answers.entry(answer).or_default() += count;
        }
        self.long += other.long;
    }

    pub fn total(&self) -> usize {
        self.answers.values().sum()
    }

    /// The cases that have a long input.
    pub fn long_inputs(&self) -> usize {
        self.long
    }

    /// Each answer came at least so often, and no other came.
    pub fn has_each_answer(&self, least: usize) {
        for (entry, answers) in ANSWERS {
            for answer in answers {
                let count = self.answers.get(&(entry, answer.to_string())).copied().unwrap_or(0);
                assert!(count >= least, "{entry} {answer}: {count} cases");
            }
        }
        let kinds: usize = ANSWERS.iter().map(|(_, answers)| answers.len()).sum();
        assert_eq!(self.answers.len(), kinds);
    }
}

impl fmt::Display for Tally {
    fn fmt(&self, f: &mut fmt::Formatter) -> fmt::Result {
        for ((entry, answer), count) in &self.answers {
            writeln!(f, "  {entry} {answer}: {count}")?;
        }
        write!(f, "  total: {}, with a long input: {}", self.total(), self.long)
    }
}

/// The same answer, or the same refusal.
fn same<T: Debug + PartialEq>(ours: &Result<T, Refusal>, theirs: &Result<T, u8>, case: impl Fn() -> String) {
    let ours = ours.as_ref().map_err(|refusal| refusal.number());
    let theirs = theirs.as_ref().map_err(|&number| number);
    assert_eq!(ours, theirs, "{}", case());
}

/// Document 01's numbers of components.
fn flat(named: &[Component]) -> Vec<u64> {
    let numbers = |component: &Component| match *component {
        Component::Stored { place, length } => [0, place as u64, length as u64],
        Component::Default { place, row } => [1, place as u64, row as u64],
        Component::Count { place, elements } => [2, place as u64, elements as u64],
    };
    named.iter().flat_map(numbers).collect()
}

fn done<T>(answer: &Result<T, Refusal>) -> String {
    answer.as_ref().map_or_else(|&refusal| refused(refusal), |_| "done".to_string())
}

fn refused(refusal: Refusal) -> String {
    format!("refused {}", refusal.number())
}
