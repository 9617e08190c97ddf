//! The declarations of `include/tezqulom.h`.

use crate::Refusal;

pub const DONE: u64 = 0;
pub const FALSE: u64 = 16;
pub const TRUE: u64 = 17;
pub const UNDEFINED: u64 = 18;

#[repr(C)]
pub struct Answer {
    pub number: u64,
    pub count: u64,
}

impl Answer {
    /// The number and the count, where the number is no refusal's.
    pub fn accepted(self) -> Result<(u64, u64), Refusal> {
        match Refusal::from_number(self.number) {
            Some(refusal) => Err(refusal),
            None => Ok((self.number, self.count)),
        }
    }

    /// The count of an answer that is done or refused.
    pub fn done(self) -> Result<usize, Refusal> {
        match self.accepted()? {
            (DONE, count) => Ok(count as usize),
            (number, _) => unknown(number),
        }
    }
}

/// The archive is not the one that the header describes.
pub fn unknown(number: u64) -> ! {
    panic!("the engine answered {number}")
}

extern "C" {
    pub fn tezqulom_check_table(table: *const u8, table_length: u64) -> Answer;

    pub fn tezqulom_check_value(
        table: *const u8,
        table_length: u64,
        value: *const u8,
        value_length: u64,
    ) -> Answer;

    pub fn tezqulom_part(value: *const u8, value_length: u64, place: u64, length: u64) -> Answer;

    pub fn tezqulom_list(
        table: *const u8,
        table_length: u64,
        value: *const u8,
        value_length: u64,
        given: u64,
        reference: *const u8,
        reference_length: u64,
        defaults: u64,
        room: *mut u64,
        room_length: u64,
    ) -> Answer;

    pub fn tezqulom_ask(
        table: *const u8,
        table_length: u64,
        value: *const u8,
        value_length: u64,
        filter: *const u8,
        filter_length: u64,
        budget: u64,
    ) -> Answer;

    #[cfg(tezqulom_quote)]
    pub fn tezqulom_quote(text: *const u8, text_length: u64, room: *mut u8, room_length: u64) -> Answer;

    #[cfg(tezqulom_escape)]
    pub fn tezqulom_escape(text: *const u8, text_length: u64, room: *mut u8, room_length: u64) -> Answer;
}
