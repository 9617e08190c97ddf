use crate::raw;
use core::fmt;

/// Why a text can't be quoted or escaped. More can come.
#[derive(Clone, Copy, Debug, PartialEq, Eq, PartialOrd, Ord, Hash)]
#[non_exhaustive]
pub enum NotQuoted {
    /// The text is empty. An empty one is escaped to nothing.
    Empty = 32,
    /// The text is not UTF-8.
    Utf8 = 33,
    /// The room is too small for the quoted or escaped text.
    Room = 34,
}

impl NotQuoted {
    /// The interface's number.
    ///
    /// ```
    /// assert_eq!(tezqulom::quote_into(b"", &mut []).unwrap_err().number(), 32);
    /// ```
    pub const fn number(self) -> u8 {
        self as u8
    }
}

/// The sentence of the C interface's `tezqulom_text`.
impl fmt::Display for NotQuoted {
    fn fmt(&self, f: &mut fmt::Formatter) -> fmt::Result {
        f.write_str(match self {
            NotQuoted::Empty => "the text to quote is empty",
            NotQuoted::Utf8 => "the text to quote or escape is not UTF-8",
            NotQuoted::Room => "the room is too small for the quoted or escaped text",
        })
    }
}

#[cfg(feature = "std")]
impl std::error::Error for NotQuoted {}

/// What an answer says was written into the room.
fn written(answer: raw::Answer, room: &mut [u8]) -> Result<&str, NotQuoted> {
    match answer.number {
        raw::DONE => {
            let written = &room[..answer.count as usize];
            Ok(core::str::from_utf8(written).expect("what is written of UTF-8 is UTF-8"))
        }
        32 => Err(NotQuoted::Empty),
        33 => Err(NotQuoted::Utf8),
        34 => Err(NotQuoted::Room),
        number => raw::unknown(number),
    }
}

/// A text as the GSER string that stands for it in a filter, written into lent room: in quotes, with each quote
/// doubled. Nothing in the text can end its item.
///
/// Twice the text's length and 2 octets are room enough for every text. The rest of the room stays as it was, and so
/// does all of it where the text is not quoted.
///
/// # Errors
///
/// [`NotQuoted::Empty`], [`NotQuoted::Utf8`] or [`NotQuoted::Room`], checked in this order.
///
/// ```
/// use tezqulom::{quote_into, NotQuoted};
///
/// let mut room = [0; 10];
/// assert_eq!(quote_into(br#"a"b"#, &mut room), Ok(r#""a""b""#));
/// assert_eq!(quote_into(br#"a"b"#, &mut room[..5]), Err(NotQuoted::Room));
/// assert_eq!(quote_into(b"", &mut room), Err(NotQuoted::Empty));
/// assert_eq!(quote_into(b"\xFF", &mut room), Err(NotQuoted::Utf8));
/// ```
#[cfg(tezqulom_quote)]
pub fn quote_into<'r>(text: &[u8], room: &'r mut [u8]) -> Result<&'r str, NotQuoted> {
    // SAFETY: pointers and lengths are those of slices; the room is borrowed mutably, so it is apart from the text.
    let answer = unsafe {
        raw::tezqulom_quote(text.as_ptr(), text.len() as u64, room.as_mut_ptr(), room.len() as u64)
    };
    written(answer, room)
}

/// A text as the GSER string that stands for it in a filter, as [`quote_into`] has it, with room of its own.
///
/// # Errors
///
/// Those of [`quote_into`] but [`NotQuoted::Room`].
///
/// ```
/// use tezqulom::{ask, quoted, Truth, MOST_TESTS};
///
/// let event = r#"x"},item:{rule presentMatch,value NULL},item:{rule presentMatch,value ""#;
/// let filter = format!("item:{{rule caseExactMatch,value {}}}", quoted(event.as_bytes())?);
/// let answer = ask(&[0x08], &[0x0C, 0x01, 0x78], filter.as_bytes(), MOST_TESTS).unwrap();
/// assert_eq!(answer.truth, Truth::False);
/// # Ok::<(), tezqulom::NotQuoted>(())
/// ```
#[cfg(all(tezqulom_quote, feature = "alloc"))]
pub fn quoted(text: &[u8]) -> Result<alloc::string::String, NotQuoted> {
    let mut room = alloc::vec![0; 2 * text.len() + 2];
    quote_into(text, &mut room).map(Into::into)
}

/// The value of an attribute as it stands in the text of a distinguished name (RFC 4514 section 2.4), written into
/// lent room: with a backslash before each of `"+,;<>\`, before a space that is first or last and a `#` that is first,
/// and NUL as `\00`. Nothing in the value can end its pair; the whole name is then quoted for a filter.
///
/// Three times the value's length is room enough for every value. The rest of the room stays as it was, and so does
/// all of it where the value is not escaped.
///
/// # Errors
///
/// [`NotQuoted::Utf8`] or [`NotQuoted::Room`], checked in this order.
///
/// ```
/// use tezqulom::{escape_into, NotQuoted};
///
/// let mut room = [0; 12];
/// assert_eq!(escape_into(b"a, b", &mut room), Ok(r"a\, b"));
/// assert_eq!(escape_into(b"#\0 ", &mut room), Ok(r"\#\00\ "));
/// assert_eq!(escape_into(b"", &mut []), Ok(""));
/// assert_eq!(escape_into(b"a, b", &mut room[..4]), Err(NotQuoted::Room));
/// assert_eq!(escape_into(b"\xFF", &mut room), Err(NotQuoted::Utf8));
/// ```
#[cfg(tezqulom_escape)]
pub fn escape_into<'r>(value: &[u8], room: &'r mut [u8]) -> Result<&'r str, NotQuoted> {
    // SAFETY: pointers and lengths are those of slices; the room is borrowed mutably, so it is apart from the value.
    let answer = unsafe {
        raw::tezqulom_escape(value.as_ptr(), value.len() as u64, room.as_mut_ptr(), room.len() as u64)
    };
    written(answer, room)
}

/// The value of an attribute as it stands in the text of a distinguished name, as [`escape_into`] has it, with room of
/// its own.
///
/// # Errors
///
/// [`NotQuoted::Utf8`].
///
/// ```
/// use tezqulom::{escaped, quoted};
///
/// let name = format!("2.5.4.3={},2.5.4.6=AU", escaped(br#"Steven "the" Legg"#)?); // the last RDN first
/// let filter = format!("item:{{rule distinguishedNameMatch,value {}}}", quoted(name.as_bytes())?);
/// assert_eq!(filter, r#"item:{rule distinguishedNameMatch,value "2.5.4.3=Steven \""the\"" Legg,2.5.4.6=AU"}"#);
/// # Ok::<(), tezqulom::NotQuoted>(())
/// ```
#[cfg(all(tezqulom_escape, feature = "alloc"))]
pub fn escaped(value: &[u8]) -> Result<alloc::string::String, NotQuoted> {
    let mut room = alloc::vec![0; 3 * value.len()];
    escape_into(value, &mut room).map(Into::into)
}
