//! The engine's answers compared with those of the independent implementation (`bench/independent`), on drawn
//! cases whose seeds are fixed.

mod long;
mod tally;

use independent::cases::{read_case, read_question, Case, Input, Question};
use independent::draw::Draw;
use std::thread;
use tally::Tally;

const SHORT_SEEDS: [u64; 4] = [1, 2, 3, 4];
const SHORT_DRAWS: usize = 9_000;
const LONG_SEEDS: [u64; 2] = [5, 6];
const LONG_DRAWS: usize = 3_000;

/// Compares the cases of each seed, on one thread for each, and counts the answers.
fn compared(seeds: &[u64], cases: fn(&mut Draw, &mut Tally), draws: usize) -> Tally {
    let one = |seed| {
        let (mut draw, mut tally) = (Draw::new(seed), Tally::default());
        for _ in 0..draws {
            cases(&mut draw, &mut tally);
        }
        tally
    };
    thread::scope(|scope| {
        let threads: Vec<_> = seeds.iter().map(|&seed| scope.spawn(move || one(seed))).collect();
        let mut all = Tally::default();
        for thread in threads {
            all.add(thread.join().expect("a thread's cases all compare equal"));
        }
        all
    })
}

/// A drawn case with all its questions.
fn short(draw: &mut Draw, tally: &mut Tally) {
    let octets = draw.case();
    let mut input = Input::new(&octets);
    match read_case(&mut input).expect("one case") {
        Case::Table(table) => tally.check_table(table),
        Case::Value(table, value) => tally.check_value(table, value),
        Case::Part(value, place, length) => tally.part(value, place as usize, length as usize),
        Case::Questions(table, value, count) => {
            for _ in 0..count {
                match read_question(&mut input).expect("as many questions as the case says") {
                    Question::List { reference, defaults, room } => {
                        tally.list(table, value, reference, defaults, room)
                    }
                    Question::Filter(filter, budget) => tally.ask(table, value, filter, budget),
                }
            }
        }
    }
}

#[test]
fn drawn_cases() {
    let tally = compared(&SHORT_SEEDS, short, SHORT_DRAWS);
    println!("drawn cases\n{tally}");
    assert!(tally.total() >= 200_000, "{} cases", tally.total());
    tally.has_each_answer(5);
}

#[test]
fn long_cases() {
    let tally = compared(&LONG_SEEDS, long::cases, LONG_DRAWS);
    println!("long cases\n{tally}");
    assert!(tally.total() >= 50_000, "{} cases", tally.total());
    assert!(tally.long_inputs() * 2 > tally.total(), "{} long inputs", tally.long_inputs());
    tally.has_each_answer(100);
}
