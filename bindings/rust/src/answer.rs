use core::fmt;

/// The truth of a filter over a value.
///
/// ```
/// use tezqulom::Truth;
///
/// let stored = |truth| match truth {
///     Truth::True => "there",
///     Truth::False => "new",
///     Truth::Undefined => "for a person",
/// };
/// assert_eq!(stored(Truth::Undefined), "for a person");
/// ```
#[derive(Clone, Copy, Debug, PartialEq, Eq, Hash)]
pub enum Truth {
    /// The filter is TRUE of the value.
    True,
    /// The filter is FALSE of the value.
    False,
    /// An assertion in the filter has no meaning for the type, and the rest doesn't decide.
    Undefined,
}

/// The answer to a filter.
///
/// ```
/// use tezqulom::{ask, Answer, Truth};
///
/// let answer = ask(&[0x02], &[0x02, 0x01, 0x05], b"item:{rule integerMatch,value 6}", 1);
/// assert_eq!(answer, Ok(Answer { truth: Truth::False, tests: 1 }));
/// ```
#[derive(Clone, Copy, Debug, PartialEq, Eq, Hash)]
pub struct Answer {
    /// The filter's truth.
    pub truth: Truth,
    /// The number of values that a rule was applied to.
    pub tests: u64,
}

/// A refusal, with document 01's number. They are checked in this order, but [`Walk`](Refusal::Walk) goes
/// before [`Room`](Refusal::Room), and of [`Tests`](Refusal::Tests) and `Walk` the first met is given. More can
/// come, so a `match` needs an arm for others:
///
/// ```
/// use tezqulom::{check_table, Refusal};
///
/// let why = match check_table(&[0x00]) {
///     Ok(rows) => format!("{rows} rows"),
///     Err(Refusal::Table) => "not a table".to_string(),
///     Err(refusal) => refusal.to_string(),
/// };
/// assert_eq!(why, "not a table");
/// ```
#[derive(Clone, Copy, Debug, PartialEq, Eq, PartialOrd, Ord, Hash)]
#[non_exhaustive]
pub enum Refusal {
    /// A size or the budget is not within its limits.
    Size = 1,
    /// The table is not admitted.
    Table = 2,
    /// The filter is not of the form, or over depth or items; a listing's reference is malformed or not
    /// allowed.
    Form = 3,
    /// The value is not one of the table's type; a part passes the value's end.
    Value = 4,
    /// The tests needed exceed the budget.
    Tests = 5,
    /// The room is under three numbers for each named value.
    Room = 6,
    /// A header on the way along a reference doesn't fit. No input gives it: it is proved that a value that
    /// passed the check has no such header.
    Walk = 7,
}

impl Refusal {
    /// All refusals, in the order of their numbers.
    ///
    /// ```
    /// use tezqulom::Refusal;
    ///
    /// assert_eq!(Refusal::ALL.first(), Some(&Refusal::Size));
    /// ```
    pub const ALL: &'static [Refusal] = &[
        Refusal::Size,
        Refusal::Table,
        Refusal::Form,
        Refusal::Value,
        Refusal::Tests,
        Refusal::Room,
        Refusal::Walk,
    ];

    /// Document 01's number.
    ///
    /// ```
    /// assert_eq!(tezqulom::check_table(&[]).unwrap_err().number(), 1);
    /// ```
    pub const fn number(self) -> u8 {
        self as u8
    }

    /// The refusal of a number.
    ///
    /// ```
    /// use tezqulom::Refusal;
    ///
    /// assert_eq!(Refusal::from_number(2), Some(Refusal::Table));
    /// assert_eq!(Refusal::from_number(0), None);
    /// ```
    pub fn from_number(number: u64) -> Option<Refusal> {
        Refusal::ALL.iter().copied().find(|refusal| u64::from(refusal.number()) == number)
    }
}

/// The number and a sentence, that of the C interface's `tezqulom_text`.
impl fmt::Display for Refusal {
    fn fmt(&self, f: &mut fmt::Formatter) -> fmt::Result {
        let why = match self {
            Refusal::Size => "a size or the budget is not within its limits",
            Refusal::Table => "the table is not admitted",
            Refusal::Form => "the filter is not of the form, or the reference is malformed or not allowed",
            Refusal::Value => "the value is not of the table's type, or the part passes its end",
            Refusal::Tests => "the tests needed exceed the budget",
            Refusal::Room => "the room is under three numbers for each named value",
            Refusal::Walk => "a header on the way along the reference doesn't fit",
        };
        write!(f, "refused {}: {why}", self.number())
    }
}

#[cfg(feature = "std")]
impl std::error::Error for Refusal {}
