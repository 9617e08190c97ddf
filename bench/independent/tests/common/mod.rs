//! The licence record of document 01.

// Not every test uses all of it.
#![allow(dead_code)]

/// A member's row: name, type row, tag mode, tag number, presence, default.
pub fn member(name: &str, ty: u16, mode: u8, number: u8, presence: u8, default: &[u8]) -> Vec<u8> {
    let mut row = vec![16];
    row.extend(name.as_bytes());
    row.resize(1 + 24, 0);
    row.extend(ty.to_be_bytes());
    row.extend([mode, number, presence, default.len() as u8]);
    row.extend(default);
    row.resize(39, 0);
    row
}

/// The same with a name field of 48 octets.
pub fn long_member(name: &str, ty: u16, mode: u8, number: u8, presence: u8, default: &[u8]) -> Vec<u8> {
    let mut row = [&[21], name.as_bytes()].concat();
    row.resize(1 + 48, 0);
    row.extend(&member("", ty, mode, number, presence, default)[1 + 24..]);
    row
}

pub fn licence_table() -> Vec<u8> {
    [
        vec![12, 3],
        member("event", 4, 0, 0, 0, &[]),
        member("seats", 5, 0, 0, 2, &[1]),
        member("parts", 6, 0, 0, 0, &[]),
        vec![8, 2, 14, 0, 7, 12, 2],
        member("name", 10, 0, 0, 0, &[]),
        member("copies", 11, 2, 0, 2, &[1]),
        vec![9, 2],
    ]
    .concat()
}

pub const LICENCE: [u8; 23] = [
    0x30, 0x15, 0x0C, 0x02, 0x65, 0x31, 0x30, 0x0F, 0x30, 0x04, 0x13, 0x02, 0x56, 0x6C, 0x30, 0x07, 0x13,
    0x02, 0x56, 0x61, 0x80, 0x01, 0x03,
];
