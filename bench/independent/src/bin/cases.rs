//! Answers cases from standard input, a line for each (docs/CASES.md).

use independent::cases::{read_case, read_question, Case, Input, Question};
use independent::{ask, check_table, check_value, list, part, Truth};
use std::io::{self, BufWriter, Read, Write};

/// What a number of a room is before the listing.
const UNWRITTEN: u64 = 9999;

fn main() -> io::Result<()> {
    let mut octets = Vec::new();
    io::stdin().lock().read_to_end(&mut octets)?;
    let mut out = BufWriter::new(io::stdout().lock());
    let mut input = Input::new(&octets);
    while case(&mut input, &mut out)?.is_some() {}
    out.flush()
}

fn case(input: &mut Input, out: &mut impl Write) -> io::Result<Option<()>> {
    let Some(case) = read_case(input) else { return Ok(None) };
    match case {
        Case::Table(table) => match check_table(table) {
            Ok(rows) => writeln!(out, "admitted {rows}")?,
            Err(number) => refused(out, number)?,
        },
        Case::Value(table, value) => match check_value(table, value) {
            Ok(()) => writeln!(out, "good")?,
            Err(number) => refused(out, number)?,
        },
        Case::Part(value, place, length) => {
            // A number that is no usize is beyond the end of every value.
            let [place, length] = [place, length].map(|n| usize::try_from(n).unwrap_or(usize::MAX));
            match part(value, place, length) {
                Ok(octets) => {
                    write!(out, "part ")?;
                    octets.iter().try_for_each(|b| write!(out, "{b:02X}"))?;
                    writeln!(out)?;
                }
                Err(number) => refused(out, number)?,
            }
        }
        Case::Questions(table, value, count) => {
            for _ in 0..count {
                let Some(question) = read_question(input) else { break };
                answer(table, value, question, out)?;
            }
        }
    }
    Ok(Some(()))
}

fn answer(table: &[u8], value: &[u8], question: Question, out: &mut impl Write) -> io::Result<()> {
    match question {
        Question::List { reference, defaults, room } => {
            let mut room = vec![UNWRITTEN; room];
            match list(table, value, reference, defaults, &mut room) {
                Ok(count) => write!(out, "listed {count}:")?,
                Err(number) => write!(out, "refused {number}:")?,
            }
            room.iter().try_for_each(|number| write!(out, " {number}"))?;
            writeln!(out)
        }
        Question::Filter(filter, budget) => match ask(table, value, filter, budget) {
            Ok((Truth::True, tests)) => writeln!(out, "TRUE {tests}"),
            Ok((Truth::False, tests)) => writeln!(out, "FALSE {tests}"),
            Ok((Truth::Undefined, tests)) => writeln!(out, "UNDEFINED {tests}"),
            Err(number) => refused(out, number),
        },
    }
}

fn refused(out: &mut impl Write, number: u8) -> io::Result<()> {
    writeln!(out, "refused {number}")
}
