//! The independent implementation's `ask` under a C name, with the numbers of include/tezqulom.h.

use independent::Truth;
use std::slice::from_raw_parts;

const FALSE: u64 = 16;
const TRUE: u64 = 17;
const UNDEFINED: u64 = 18;

#[repr(C)]
pub struct Answer {
    number: u64,
    count: u64,
}

/// The truth of a filter over a value.
///
/// # Safety
/// Each pointer is to as many octets as the length after it says.
#[no_mangle]
pub unsafe extern "C" fn independent_ask(
    table: *const u8,
    table_length: u64,
    value: *const u8,
    value_length: u64,
    filter: *const u8,
    filter_length: u64,
    budget: u64,
) -> Answer {
    let table = from_raw_parts(table, table_length as usize);
    let value = from_raw_parts(value, value_length as usize);
    let filter = from_raw_parts(filter, filter_length as usize);
    match independent::ask(table, value, filter, budget) {
        Ok((Truth::False, tests)) => Answer { number: FALSE, count: tests },
        Ok((Truth::True, tests)) => Answer { number: TRUE, count: tests },
        Ok((Truth::Undefined, tests)) => Answer { number: UNDEFINED, count: tests },
        Err(refusal) => Answer { number: u64::from(refusal), count: 0 },
    }
}
