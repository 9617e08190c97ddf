//! Reads cases in the format of docs/CASES.md.

/// What is left of the input.
pub struct Input<'a>(&'a [u8]);

impl<'a> Input<'a> {
    pub fn new(octets: &'a [u8]) -> Input<'a> {
        Input(octets)
    }

    fn take(&mut self, length: usize) -> Option<&'a [u8]> {
        if length > self.0.len() {
            return None;
        }
        let (taken, rest) = self.0.split_at(length);
        self.0 = rest;
        Some(taken)
    }

    fn number(&mut self, size: usize) -> Option<u64> {
        Some(self.take(size)?.iter().fold(0, |n, &b| n << 8 | u64::from(b)))
    }

    fn size(&mut self) -> Option<usize> {
        usize::try_from(self.number(2)?).ok()
    }

    fn octets(&mut self) -> Option<&'a [u8]> {
        let length = self.size()?;
        self.take(length)
    }

    fn whether(&mut self) -> Option<bool> {
        Some(self.number(1)? != 0)
    }
}

/// What the input has after the kind of a case.
pub enum Case<'a> {
    Table(&'a [u8]),
    Value(&'a [u8], &'a [u8]),
    Part(&'a [u8], u64, u64),
    Questions(&'a [u8], &'a [u8], usize),
}

/// The next case, if there is one.
pub fn read_case<'a>(input: &mut Input<'a>) -> Option<Case<'a>> {
    Some(match input.number(1)? as u8 {
        b't' => Case::Table(input.octets()?),
        b'v' => Case::Value(input.octets()?, input.octets()?),
        b'p' => Case::Part(input.octets()?, input.number(8)?, input.number(8)?),
        b'q' => Case::Questions(input.octets()?, input.octets()?, input.size()?),
        _ => return None,
    })
}

/// A question about the table and the value of its case.
pub enum Question<'a> {
    List { reference: Option<&'a [u8]>, defaults: bool, room: usize },
    Filter(&'a [u8], u64),
}

/// The next question of a case, if there is one.
pub fn read_question<'a>(input: &mut Input<'a>) -> Option<Question<'a>> {
    Some(match input.number(1)? as u8 {
        b'l' => {
            let given = input.whether()?;
            let reference = input.octets()?;
            let (defaults, room) = (input.whether()?, input.size()?);
            Question::List { reference: given.then_some(reference), defaults, room }
        }
        b'f' => Question::Filter(input.octets()?, input.number(8)?),
        _ => return None,
    })
}
