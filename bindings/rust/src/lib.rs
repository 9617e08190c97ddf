//! Component filters (RFC 3687) over DER records whose types are given by a table.
//!
//! A safe wrapper of Tezqulom's C interface, `include/tezqulom.h`. The engine behind it is proved; this crate
//! is tested. The five entries are [`check_table`], [`check_value`], [`part`], [`list_into`] (with
//! [`listing`], which allocates) and [`ask`]. Each takes any octets and any numbers and answers for all of
//! them, so nothing has to be checked first. Nothing is kept between calls; calls may run on several threads
//! at once. Tables, values, filters, references and limits are described in `docs/GUIDE.md`.
//!
//! A list of two INTEGERs, and whether one of them is below 6:
//!
//! ```
//! use tezqulom::{ask, listing, part, Answer, Component, Refusal, Truth, MOST_TESTS};
//!
//! # fn main() -> Result<(), Refusal> {
//! let table = [0x0E, 0x00, 0x01, 0x02]; // row 0: SEQUENCE OF row 1; row 1: INTEGER
//! let value = [0x30, 0x06, 0x02, 0x01, 0x07, 0x02, 0x01, 0x05];
//! let filter = br#"item:{component "*",rule integerOrderingMatch,value 6}"#;
//! assert_eq!(ask(&table, &value, filter, MOST_TESTS)?, Answer { truth: Truth::True, tests: 2 });
//!
//! let elements = listing(&table, &value, Some(b"*"), true)?;
//! assert_eq!(elements[1], Component::Stored { place: 5, length: 3 });
//! assert_eq!(part(&value, 5, 3)?, [0x02, 0x01, 0x05]);
//! # Ok(())
//! # }
//! ```
//!
//! Only [`ask`] tells FALSE from Undefined: whoever stores a record where the answer is FALSE has to keep them
//! apart.
//!
//! The crate needs no standard library. The feature `alloc` has [`listing`], which allocates; the feature `std`, a default
//! one, has that too, and `std::error::Error` for [`Refusal`]. Where the archive that is linked has a function that
//! quotes texts for filters, the crate has `quoted` and `quote_into`; where it has one that escapes the values in
//! distinguished names, `escaped` and `escape_into`.

#![no_std]
#![deny(missing_docs, unsafe_op_in_unsafe_fn)]

#[cfg(not(target_pointer_width = "64"))]
compile_error!("the interface's numbers are 64 bits wide, and so must usize be");

#[cfg(feature = "alloc")]
extern crate alloc;
#[cfg(feature = "std")]
extern crate std;

mod answer;
mod component;
#[cfg(any(tezqulom_quote, tezqulom_escape))]
mod quote;
mod raw;

pub use answer::{Answer, Refusal, Truth};
pub use component::{Component, Components};
#[cfg(tezqulom_escape)]
pub use quote::escape_into;
#[cfg(all(tezqulom_escape, feature = "alloc"))]
pub use quote::escaped;
#[cfg(tezqulom_quote)]
pub use quote::quote_into;
#[cfg(all(tezqulom_quote, feature = "alloc"))]
pub use quote::quoted;
#[cfg(any(tezqulom_quote, tezqulom_escape))]
pub use quote::NotQuoted;

/// The largest budget.
pub const MOST_TESTS: u64 = 65_535;

/// The most octets that a stored value may have.
const LONGEST_VALUE: usize = 4_096;

/// The number of rows of an admitted table.
///
/// # Errors
///
/// [`Refusal::Size`] or [`Refusal::Table`].
///
/// ```
/// use tezqulom::{check_table, Refusal};
///
/// assert_eq!(check_table(&[0x0E, 0x00, 0x01, 0x02]), Ok(2));
/// assert_eq!(check_table(&[0x0E, 0x00, 0x00]), Err(Refusal::Table)); // SEQUENCE OF its own row
/// ```
pub fn check_table(table: &[u8]) -> Result<usize, Refusal> {
    // SAFETY: pointer and length are those of a slice.
    unsafe { raw::tezqulom_check_table(table.as_ptr(), table.len() as u64) }.done()
}

/// Whether a value is one of the type of the table's row 0.
///
/// # Errors
///
/// [`Refusal::Size`], [`Refusal::Table`] or [`Refusal::Value`].
///
/// ```
/// use tezqulom::{check_value, Refusal};
///
/// assert_eq!(check_value(&[0x02], &[0x02, 0x01, 0x05]), Ok(()));
/// assert_eq!(check_value(&[0x02], &[0x02, 0x02, 0x00, 0x05]), Err(Refusal::Value)); // not the shortest
/// ```
pub fn check_value(table: &[u8], value: &[u8]) -> Result<(), Refusal> {
    // SAFETY: pointers and lengths are those of slices.
    unsafe {
        raw::tezqulom_check_value(table.as_ptr(), table.len() as u64, value.as_ptr(), value.len() as u64)
    }
    .done()
    .map(|_| ())
}

/// The octets of a stored value from a place on.
///
/// # Errors
///
/// [`Refusal::Size`] for the value's size, [`Refusal::Value`] if place plus length passes it.
///
/// ```
/// use tezqulom::{part, Refusal};
///
/// let value = [0x02, 0x01, 0x05];
/// assert_eq!(part(&value, 1, 2), Ok(&[0x01, 0x05][..]));
/// assert_eq!(part(&value, 3, 0), Ok(&[][..]));
/// assert_eq!(part(&value, 2, 2), Err(Refusal::Value));
/// ```
pub fn part(value: &[u8], place: usize, length: usize) -> Result<&[u8], Refusal> {
    // SAFETY: pointer and length are those of a slice.
    let answer =
        unsafe { raw::tezqulom_part(value.as_ptr(), value.len() as u64, place as u64, length as u64) };
    let count = answer.done()?;
    Ok(&value[place..place + count])
}

/// The numbers of room that are enough for every listing of a value of so many octets.
///
/// No two components have one place, and at each place there is a tag octet and a length octet: so there is
/// at most one component for two octets, and each needs three numbers.
///
/// ```
/// assert_eq!(tezqulom::room_for(4096), 6144);
/// ```
pub const fn room_for(octets: usize) -> usize {
    let octets = if octets < LONGEST_VALUE { octets } else { LONGEST_VALUE };
    octets / 2 * 3
}

/// What a component reference names, by rising place, written into lent room.
///
/// Without a reference the whole value is named. A reference is its text without quotes. With `defaults` an
/// absent member that has a default names it, else it names nothing. The room takes three numbers for each
/// component, from its start; the rest of it stays as it was, and so does all of it with a refusal.
///
/// # Errors
///
/// [`Refusal::Size`], [`Refusal::Table`], [`Refusal::Form`], [`Refusal::Value`], [`Refusal::Walk`] or
/// [`Refusal::Room`].
///
/// ```
/// use tezqulom::{list_into, room_for, Component, Refusal};
///
/// let table = [0x0E, 0x00, 0x01, 0x02];
/// let value = [0x30, 0x06, 0x02, 0x01, 0x07, 0x02, 0x01, 0x05];
/// let mut room = [0; room_for(8)];
/// let mut count = list_into(&table, &value, Some(b"0"), true, &mut room)?;
/// assert_eq!(count.next(), Some(Component::Count { place: 0, elements: 2 }));
/// assert_eq!(count.next(), None);
///
/// let refused = list_into(&table, &value, Some(b"*"), true, &mut room[..5]);
/// assert_eq!(refused.err(), Some(Refusal::Room));
/// # Ok::<(), Refusal>(())
/// ```
pub fn list_into<'r>(
    table: &[u8],
    value: &[u8],
    reference: Option<&[u8]>,
    defaults: bool,
    room: &'r mut [u64],
) -> Result<Components<'r>, Refusal> {
    let text = reference.unwrap_or_default();
    // SAFETY: pointers and lengths are those of slices; the room is borrowed mutably, so it is apart from them.
    let answer = unsafe {
        raw::tezqulom_list(
            table.as_ptr(),
            table.len() as u64,
            value.as_ptr(),
            value.len() as u64,
            u64::from(reference.is_some()),
            text.as_ptr(),
            text.len() as u64,
            u64::from(defaults),
            room.as_mut_ptr(),
            room.len() as u64,
        )
    };
    let count = answer.done()?;
    Ok(Components::of(&room[..3 * count]))
}

/// What a component reference names, by rising place, as [`list_into`] has it, with room of its own.
///
/// # Errors
///
/// Those of [`list_into`] but [`Refusal::Room`].
///
/// ```
/// use tezqulom::{listing, Component, Refusal};
///
/// let value = [0x02, 0x01, 0x05];
/// assert_eq!(listing(&[0x02], &value, None, true), Ok(vec![Component::Stored { place: 0, length: 3 }]));
/// assert_eq!(listing(&[0x02], &value, Some(b"1"), true), Err(Refusal::Form)); // a position on an INTEGER
/// ```
#[cfg(feature = "alloc")]
pub fn listing(
    table: &[u8],
    value: &[u8],
    reference: Option<&[u8]>,
    defaults: bool,
) -> Result<alloc::vec::Vec<Component>, Refusal> {
    let mut room = alloc::vec![0; room_for(value.len())];
    list_into(table, value, reference, defaults, &mut room).map(Iterator::collect)
}

/// The truth of a filter over a value, with the number of tests made.
///
/// # Errors
///
/// [`Refusal::Size`], [`Refusal::Table`], [`Refusal::Form`], [`Refusal::Value`], [`Refusal::Tests`] or
/// [`Refusal::Walk`].
///
/// ```
/// use tezqulom::{ask, Answer, Refusal, Truth};
///
/// let (table, value) = ([0x02], [0x02, 0x01, 0x05]);
/// let five = b"item:{rule integerMatch,value 5}";
/// assert_eq!(ask(&table, &value, five, 1), Ok(Answer { truth: Truth::True, tests: 1 }));
/// assert_eq!(ask(&table, &value, five, 0), Err(Refusal::Tests));
/// let text = br#"item:{rule caseIgnoreMatch,value "5"}"#;
/// assert_eq!(ask(&table, &value, text, 1), Ok(Answer { truth: Truth::Undefined, tests: 0 }));
/// ```
pub fn ask(table: &[u8], value: &[u8], filter: &[u8], budget: u64) -> Result<Answer, Refusal> {
    // SAFETY: pointers and lengths are those of slices.
    let answer = unsafe {
        raw::tezqulom_ask(
            table.as_ptr(),
            table.len() as u64,
            value.as_ptr(),
            value.len() as u64,
            filter.as_ptr(),
            filter.len() as u64,
            budget,
        )
    };
    let (number, tests) = answer.accepted()?;
    let truth = match number {
        raw::TRUE => Truth::True,
        raw::FALSE => Truth::False,
        raw::UNDEFINED => Truth::Undefined,
        number => raw::unknown(number),
    };
    Ok(Answer { truth, tests })
}
