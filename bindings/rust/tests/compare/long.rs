//! Licence records of many parts, tables of many rows, filters of many items and references of many digits, up
//! to their limits and over, each of them broken now and then.

use crate::tally::Tally;
use independent::draw::{encoded, Draw};

const TABLE: &[u8] = include_bytes!("../../../../crates/askvalue/data/table");
const LICENCE_ROWS: usize = 12;
const QUESTIONS: usize = 6;
const LARGEST_ROOM: usize = 6144;

/// Cases of all five entries about one drawn record.
pub fn cases(draw: &mut Draw, tally: &mut Tally) {
    let (mut table, mut value) = (table(draw), value(draw));
    if draw.once_in(10) {
        draw.broken(&mut table);
    }
    if draw.once_in(6) {
        draw.broken(&mut value);
    }
    tally.check_table(&table);
    tally.check_value(&table, &value);
    tally.part(&value, draw.below(value.len() + 2), draw.below(value.len() + 2));
    for _ in 0..QUESTIONS {
        list(draw, tally, &table, &value);
        ask(draw, tally, &table, &value);
    }
}

fn list(draw: &mut Draw, tally: &mut Tally, table: &[u8], value: &[u8]) {
    let mut reference = reference(draw).into_bytes();
    if draw.once_in(10) {
        draw.broken(&mut reference);
    }
    let given = (!draw.once_in(12)).then_some(&reference[..]);
    let defaults = draw.below(4) > 0;
    let named = independent::list(table, value, given, defaults, &mut [0; LARGEST_ROOM]);
    let enough = 3 * named.unwrap_or(1);
    let room = draw.pick(&[enough, enough + 1, enough.saturating_sub(1), LARGEST_ROOM]);
    tally.list(table, value, given, defaults, room);
}

fn ask(draw: &mut Draw, tally: &mut Tally, table: &[u8], value: &[u8]) {
    let mut filter = filter(draw).into_bytes();
    if draw.once_in(10) {
        draw.broken(&mut filter);
    }
    let needed = independent::ask(table, value, &filter, 65_535).map_or(0, |(_, tests)| tests);
    let budget = match draw.below(12) {
        0 => 65_536,
        1..=3 => needed,
        4 => needed + 1,
        5..=6 => needed.saturating_sub(1),
        _ => 65_535,
    };
    tally.ask(table, value, &filter, budget);
}

/// The licence table, and after it SEQUENCEs that nothing names.
fn table(draw: &mut Draw) -> Vec<u8> {
    let mut table = TABLE.to_vec();
    let groups = draw.below(8);
    let last = LICENCE_ROWS + 17 * groups;
    for _ in 0..groups {
        table.extend([12, 16]);
        for at in 0..16 {
            let letters = draw.pick(&[1, 1, 21, 22, 45]);
            table.extend(member(&format!("{}-{at}", "m".repeat(letters)), last));
        }
    }
    table.push(2);
    if draw.once_in(20) {
        table.resize(draw.pick(&[4992, 4993, 8063, 8064, 8065, 8065, 8200]), 2);
    }
    table
}

/// The row of a mandatory member without a tag of its own, of the kind that the length of its name asks for.
fn member(name: &str, ty: usize) -> Vec<u8> {
    let (kind, field) = if name.len() > 24 { (21, 48) } else { (16, 24) };
    let mut row = vec![kind];
    row.extend(name.bytes());
    row.resize(1 + field, 0);
    row.extend((ty as u16).to_be_bytes());
    row.resize(1 + field + 14, 0);
    row
}

/// A licence record, of 4,200 octets at most.
fn value(draw: &mut Draw) -> Vec<u8> {
    let size = draw.pick(&[30, 200, 1200, 2500, 4000, 4000, 4150]);
    let event = draw.pick(&[2, 2, 127, 128, 255, 256, 900]).min(size);
    let event: Vec<u8> = (0..event).map(|_| draw.pick(b"e1 ")).collect();
    let mut contents = encoded(0x0C, &event);
    if draw.once_in(2) {
        contents.extend([2, 1, draw.pick(&[2, 3, 4])]);
    }
    let mut parts = Vec::new();
    while contents.len() + parts.len() + 16 < size {
        parts.extend(part(draw));
    }
    contents.extend(encoded(0x30, &parts));
    encoded(0x30, &contents)
}

fn part(draw: &mut Draw) -> Vec<u8> {
    let name: Vec<u8> = (0..draw.below(5)).map(|_| draw.pick(b"VlaA ")).collect();
    let mut contents = encoded(0x13, &name);
    if draw.once_in(2) {
        contents.extend([0x80, 1, draw.pick(&[0, 2, 3, 0xFF])]);
    }
    encoded(0x30, &contents)
}

/// A reference into the licence record; a position may have up to 2,050 digits.
fn reference(draw: &mut Draw) -> String {
    let digits = draw.pick(&[1, 1, 2, 3, 19, 20, 21, 2040, 2042, 2043, 2044]);
    let position = draw.pick(&["1", "2", "3", "9"]).repeat(digits);
    let form =
        draw.pick(&["*", "*.copies", "*.copies", "*.name", "0", "P", "-P", "P.name", "-P.copies", "*.P"]);
    draw.pick(&["event", "seats", "parts", "parts.F", "parts.F", "parts.F", "parts.F"])
        .replace('F', form)
        .replace('P', &position)
}

/// A list of up to 66 items, some of them negated, or lists within each other.
fn filter(draw: &mut Draw) -> String {
    let items = draw.pick(&[1, 2, 10, 20, 30, 63, 64, 65, 66]);
    let short = items > 20;
    let items: Vec<String> = (0..items).map(|_| item(draw, short)).collect();
    let list = format!("{}:{{{}}}", draw.pick(&["and", "or"]), items.join(draw.pick(&[",", ", "])));
    let outer = draw.pick(&[0, 0, 0, 1, 14, 15]);
    "not:".repeat(outer) + &list
}

/// An assertion about a licence record; a short one leaves room for 64 of them in a filter.
fn item(draw: &mut Draw, short: bool) -> String {
    if short && !draw.once_in(8) {
        return draw.pick(&["item:{rule 2.5.13.5,value x}", "item:{rule x,value 1}"]).to_string();
    }
    if short {
        return "item:{component \"seats\",rule 2.5.13.14,value 2}".to_string();
    }
    let (reference, rule) = draw.pick(&[
        ("parts.*.copies", "integerMatch"),
        ("parts.*.copies", "integerOrderingMatch"),
        ("seats", "integerMatch"),
        ("parts.0", "integerOrderingMatch"),
        ("parts.*.name", "caseIgnoreMatch"),
        ("parts.*.name", "caseExactMatch"),
        ("event", "caseIgnoreMatch"),
        ("parts.-1", "presentMatch"),
        ("parts.*.copies", "booleanMatch"),
    ]);
    let value = match rule {
        "integerMatch" | "integerOrderingMatch" => draw.pick(&["3", "7", "-1", "-2", "1"]).to_string(),
        "presentMatch" => "NULL".to_string(),
        _ => format!("\"{}\"", draw.pick(&["v", "Vl", " E1", "e", "a"]).repeat(draw.pick(&[1, 1, 1, 90]))),
    };
    let defaults = draw.pick(&["", "", "useDefaultValues FALSE,"]);
    format!("item:{{component \"{reference}\",{defaults}rule {rule},value {value}}}")
}
