//! Draws members, with names of up to 24 characters and longer ones, and tables of many members.

use super::{put_number, rows, Draw};

/// What a member's row has after the name.
pub const FIELDS: usize = 14;
/// The longest name of a member of kind 16.
const SHORT: usize = 24;
/// Many names begin as this one does, which is as long as a name may be.
const STEM: &str = "a-very-long-name-of-24-characters-which-goes-on1";

impl Draw {
    /// A member whose type isn't known yet; some of them have long names if there are any.
    pub fn member(&mut self, number: usize, long: bool) -> Vec<u8> {
        let name = if long && self.once_in(2) {
            self.long_member_name(number)
        } else {
            self.short_member_name(number)
        };
        let mode = self.pick(&[0, 0, 1, 2]);
        row_of(&name, mode, if mode == 0 { 0 } else { number as u8 })
    }

    fn short_member_name(&mut self, number: usize) -> String {
        let longest = if self.once_in(10) { &STEM[..SHORT] } else { "m" };
        let mut name = self.pick(&["content", "a", "b", "c", "d", "aB", "x-1", longest]).to_string();
        if self.below(4) > 0 && name.len() < SHORT {
            name += &number.to_string();
        }
        name
    }

    /// A name of 25 to 48 characters. Those of other numbers are alike up to a place at which a name could be
    /// cut, and often behind it too.
    fn long_member_name(&mut self, number: usize) -> String {
        let letter = char::from(b'a' + number as u8);
        if self.once_in(5) {
            return format!("educationalConcessionCategory{letter}");
        }
        let same = self.pick(&[SHORT - 1, SHORT, SHORT, 40, 47]);
        let length = self.pick(&[25, 41, 48]).max(same + 1);
        format!("{}{letter}{}", &STEM[..same], &STEM[same + 1..length])
    }

    /// A member's name in a reference: now and then a long one that is cut, goes on or ends in another way.
    pub fn referred(&mut self, name: &[u8]) -> String {
        let mut name = String::from_utf8_lossy(name).into_owned();
        if name.len() >= SHORT && self.once_in(10) {
            match self.below(4) {
                0 | 1 => name.truncate(self.pick(&[SHORT - 1, SHORT, SHORT, 25, 40, 47])),
                2 => name += self.pick(&["a", "1", &STEM[SHORT..], "-"]),
                _ => {
                    name.pop();
                    name.push(self.pick(&['a', 'b', 'C', '1']));
                }
            }
        }
        name
    }

    /// A table of up to 128 rows, rarely 129, most of them members with long names. Each of its SEQUENCEs and
    /// CHOICEs is the type of one member of the one before it; all other members have the last row's type.
    pub fn large_table(&mut self) -> Vec<u8> {
        let count = self.pick(&[40, 80, 127, 128, 128, 128, 128, 129]);
        let last = self.pick(&[&[12, 0][..], &[2], &[4], &[8], &[20]]).to_vec();
        let often_short = self.pick(&[2, 20, 1000]);
        let mut rows: Vec<Vec<u8>> = Vec::new();
        while rows.len() + 1 < count {
            let members = (count - 2 - rows.len()).min(self.pick(&[16, 16, 16, 9]));
            let kind = if members == 0 { 12 } else { self.pick(&[12, 12, 12, 13]) };
            let next = rows.len() + 1 + members;
            rows.push(vec![kind, members as u8]);
            let inner = self.below(members.max(1));
            for number in 0..members {
                let letter = char::from(b'a' + number as u8);
                let same = if self.once_in(often_short) { SHORT - 1 } else { 47 };
                // A CHOICE may be next, and has no implicit tag.
                let (ty, mode) = if number == inner { (next, 1) } else { (count - 1, self.pick(&[1, 2])) };
                let mut row = row_of(&format!("{}{letter}", &STEM[..same]), mode, number as u8);
                put_number(&mut row, ty);
                self.presence(&mut row, if ty == count - 1 { last[0] } else { 12 }, kind == 13);
                rows.push(row);
            }
        }
        rows.push(last);
        rows.concat()
    }

    /// The table with a change in one of its members with long names, if it has any.
    pub fn other_members(&mut self, table: &[u8]) -> Vec<u8> {
        let mut rows = rows(table);
        let long: Vec<usize> = (0..rows.len()).filter(|&at| rows[at][0] == 21).collect();
        let all: Vec<usize> = (0..rows.len()).filter(|&at| matches!(rows[at][0], 16 | 21)).collect();
        if long.is_empty() {
            return table.to_vec();
        }
        let (one, other, any) = (self.pick(&long), self.pick(&long), self.pick(&all));
        match self.below(12) {
            // A name that is too short, or as short as it may be.
            0 => rows[one][1 + self.pick(&[0, 1, SHORT - 1, SHORT, SHORT, 25])..49].fill(0),
            1 => rows[any] = in_other_field(&rows[any]),
            2 => rows[one][1 + self.below(48)] = 0,
            3 => rows[one][1 + self.pick(&[0, 22, 23, 24, 25, 39, 40, 47])] = self.pick(b"\0aA-1_ z"),
            4 => {
                let same = 1 + self.pick(&[SHORT, 40, 47, 48]);
                let name = rows[other][1..same].to_vec();
                rows[one][1..same].copy_from_slice(&name);
            }
            5 => rows[one][0] = self.pick(&[16, 18, 20, 22]),
            6 => rows.swap(one, any),
            7 => drop(rows.remove(one)),
            8 => {
                let row = rows[one].clone();
                rows.insert(self.below(rows.len() + 1), row);
            }
            9 => self.point_to(&mut rows, one),
            10 => rows[one][49 + self.below(FIELDS)] = self.pick(&[0, 1, 2, 3, 30, 31, 255]),
            _ => {
                // After another kind of row, or after one that says more or fewer members.
                if let Some(head) = (0..one).rev().find(|&at| matches!(rows[at][0], 12 | 13)) {
                    match self.below(2) {
                        0 => rows[head][0] = self.pick(&[12, 13, 17]),
                        _ => rows[head][1] = rows[head][1].wrapping_add(self.pick(&[1, 255])),
                    }
                }
            }
        }
        rows.concat()
    }

    /// Fills a table up to a size close to the limit, or to the one before there were long names, or cuts it.
    pub fn resized(&mut self, table: &mut Vec<u8>) {
        let size = self.pick(&[4991, 4992, 4993, 4994, 7514, 7515, 7516, 8063, 8064, 8064, 8065, 8065]);
        match self.below(3) {
            0 => *table = row_of(STEM, 0, 0).repeat(129),
            1 => table.clear(),
            _ => {}
        }
        table.resize(size, self.pick(&[0, 2, 2, 12, 20, 21, b'a']));
    }
}

/// The row of a mandatory member without a type yet, of the kind that its name takes.
fn row_of(name: &str, mode: u8, number: u8) -> Vec<u8> {
    let kind = if name.len() > SHORT { 21 } else { 16 };
    [vec![kind], field_of(name.as_bytes(), kind), vec![0, 0, mode, number], vec![0; FIELDS - 4]].concat()
}

/// The name in the field of a kind of member, filled up or cut.
fn field_of(name: &[u8], kind: u8) -> Vec<u8> {
    let mut field = name.to_vec();
    field.resize(if kind == 21 { 48 } else { SHORT }, 0);
    field
}

/// The member in the other kind of row.
fn in_other_field(row: &[u8]) -> Vec<u8> {
    let (name, fields) = row[1..].split_at(row.len() - 1 - FIELDS);
    let kind = if row[0] == 21 { 16 } else { 21 };
    [vec![kind], field_of(name, kind), fields.to_vec()].concat()
}
