//! Component filters (RFC 3687) over DER values whose type a table describes.
//!
//! An implementation of document 01 and of of document 02 in plain Rust, written from the documents alone. It is there to
//! be compared with the proved engine, in its answers and in its speed.
//!
//! The five entries are [`check_table`], [`check_value`], [`part`], [`list`] and [`ask`]. A refusal is the
//! `Err` of its number, see [`refusal`].

#![forbid(unsafe_code)]

pub mod cases;
pub mod der;
pub mod draw;
pub mod engine;
pub mod filter;
pub mod names;
pub mod prepare;
pub mod reference;
pub mod rules;
pub mod table;
pub mod value;

pub use engine::{ask, check_table, check_value, list, part, Truth};

/// Refusal numbers, in order of checking.
pub mod refusal {
    /// A size or the budget is outside its limits.
    pub const SIZE: u8 = 1;
    /// The table is not admitted.
    pub const TABLE: u8 = 2;
    /// The filter is not of its form, or a listing's reference is malformed or not allowed.
    pub const TEXT: u8 = 3;
    /// The value is not of the table's type.
    pub const VALUE: u8 = 4;
    /// The tests needed exceed the budget.
    pub const BUDGET: u8 = 5;
    /// A listing's room is too small.
    pub const ROOM: u8 = 6;
    /// A walk met a header that doesn't fit.
    pub const WALK: u8 = 7;
}
