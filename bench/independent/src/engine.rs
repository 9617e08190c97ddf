//! The five entries.

use crate::filter::{self, Assertion, Filter};
use crate::reference::{self, Named, Reference};
use crate::rules::{Matcher, Rule};
use crate::table::{self, Table, Type};
use crate::{refusal, value};

/// A budget is at most this.
pub const MAX_BUDGET: u64 = 65_535;

#[derive(Clone, Copy, Debug, PartialEq, Eq)]
pub enum Truth {
    True,
    False,
    Undefined,
}

/// The number of rows of an admitted table.
pub fn check_table(table: &[u8]) -> Result<usize, u8> {
    sized(table::SIZES.contains(&table.len()))?;
    Ok(admitted(table)?.rows)
}

/// Checks a value against the type of row 0.
pub fn check_value(table: &[u8], value: &[u8]) -> Result<(), u8> {
    sized(table::SIZES.contains(&table.len()) && value::SIZES.contains(&value.len()))?;
    good(value, &admitted(table)?.root)
}

/// The octets of a stored value from place and length.
pub fn part(value: &[u8], place: usize, length: usize) -> Result<&[u8], u8> {
    sized(value::SIZES.contains(&value.len()))?;
    let end = place.checked_add(length).ok_or(refusal::VALUE)?;
    value.get(place..end).ok_or(refusal::VALUE)
}

/// Lists what a reference names, three numbers for each value, and returns the number of values.
pub fn list(
    table: &[u8],
    value: &[u8],
    reference: Option<&[u8]>,
    defaults: bool,
    room: &mut [u64],
) -> Result<usize, u8> {
    sized(
        table::SIZES.contains(&table.len())
            && value::SIZES.contains(&value.len())
            && reference.map_or(0, <[u8]>::len) <= reference::MAX_SIZE,
    )?;
    let table = admitted(table)?;
    let reference = Reference::resolve(&table.root, reference).ok_or(refusal::TEXT)?;
    good(value, &table.root)?;

    let mut numbers = Vec::new();
    reference.walk(value, defaults, &mut |named| {
        numbers.extend(named.numbers());
        Ok::<(), u8>(())
    })?;
    room.get_mut(..numbers.len()).ok_or(refusal::ROOM)?.copy_from_slice(&numbers);
    Ok(numbers.len() / 3)
}

/// The truth of a filter for a value, and the tests made.
pub fn ask(table: &[u8], value: &[u8], filter: &[u8], budget: u64) -> Result<(Truth, u64), u8> {
    sized(
        table::SIZES.contains(&table.len())
            && value::SIZES.contains(&value.len())
            && filter::SIZES.contains(&filter.len())
            && budget <= MAX_BUDGET,
    )?;
    let table = admitted(table)?;
    let filter = Filter::parse(filter).ok_or(refusal::TEXT)?;
    good(value, &table.root)?;

    let mut judge = Judge { root: &table.root, value, budget, tests: 0 };
    let truth = judge.filter(&filter)?;
    Ok((truth, judge.tests))
}

fn sized(within: bool) -> Result<(), u8> {
    within.then_some(()).ok_or(refusal::SIZE)
}

fn admitted(table: &[u8]) -> Result<Table<'_>, u8> {
    Table::parse(table).ok_or(refusal::TABLE)
}

fn good(octets: &[u8], ty: &Type) -> Result<(), u8> {
    value::is_value(octets, ty).then_some(()).ok_or(refusal::VALUE)
}

struct Judge<'a> {
    root: &'a Type<'a>,
    value: &'a [u8],
    budget: u64,
    tests: u64,
}

/// What ends the walk of an assertion early.
enum Stop {
    Accepted,
    Refused(u8),
}

impl From<u8> for Stop {
    fn from(number: u8) -> Stop {
        Stop::Refused(number)
    }
}

impl Judge<'_> {
    fn filter(&mut self, filter: &Filter) -> Result<Truth, u8> {
        match filter {
            Filter::Item(assertion) => self.assertion(assertion),
            Filter::And(filters) => self.list(filters, Truth::True, Truth::False),
            Filter::Or(filters) => self.list(filters, Truth::False, Truth::True),
            Filter::Not(inner) => Ok(match self.filter(inner)? {
                Truth::True => Truth::False,
                Truth::False => Truth::True,
                Truth::Undefined => Truth::Undefined,
            }),
        }
    }

    /// A list that is `empty` if all its filters are, and stops at its first filter that is `decisive`.
    fn list(&mut self, filters: &[Filter], empty: Truth, decisive: Truth) -> Result<Truth, u8> {
        let mut truth = empty;
        for filter in filters {
            match self.filter(filter)? {
                found if found == decisive => return Ok(decisive),
                Truth::Undefined => truth = Truth::Undefined,
                _ => {}
            }
        }
        Ok(truth)
    }

    fn assertion(&mut self, assertion: &Assertion) -> Result<Truth, u8> {
        let Some((reference, matcher)) = defined(self.root, assertion) else {
            return Ok(Truth::Undefined);
        };
        let (value, budget, tests) = (self.value, self.budget, &mut self.tests);
        let walked = reference.walk(value, assertion.use_defaults, &mut |named| {
            if *tests == budget {
                return Err(Stop::Refused(refusal::BUDGET));
            }
            *tests += 1;
            let accepted = match named {
                Named::Stored(element) => matcher.accepts(element.contents(value)),
                Named::Default { contents, .. } => matcher.accepts(contents),
                Named::Count { elements, .. } => matcher.accepts_count(elements),
            };
            if accepted {
                Err(Stop::Accepted)
            } else {
                Ok(())
            }
        });
        match walked {
            Ok(()) => Ok(Truth::False),
            Err(Stop::Accepted) => Ok(Truth::True),
            Err(Stop::Refused(number)) => Err(number),
        }
    }
}

/// The reference and the matcher of an assertion that is not Undefined.
fn defined<'t, 'f>(root: &'t Type<'t>, assertion: &Assertion<'f>) -> Option<(Reference<'t>, Matcher<'f>)> {
    let reference = Reference::resolve(root, assertion.component)?;
    let rule = Rule::find(assertion.rule)?;
    let matcher = Matcher::new(rule, reference.target, assertion.value)?;
    Some((reference, matcher))
}
