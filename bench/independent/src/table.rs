//! The type table: its rows, and what is admitted.

use crate::der;
use std::rc::Rc;

/// The size of a table in octets.
pub const SIZES: std::ops::RangeInclusive<usize> = 1..=8064;
const MAX_ROWS: usize = 128;
const MAX_CHAIN: usize = 16;
const MAX_MEMBERS: usize = 16;
const MAX_BIT_NAMES: usize = 16;
const MAX_BIT: u8 = 63;
const MAX_TAG: u8 = 30;
const NAME: usize = 24;
const LONG_NAME: usize = 48;
const DEFAULT: usize = 8;

const SEQUENCE: u8 = 12;
const CHOICE: u8 = 13;
const SEQUENCE_OF: u8 = 14;
const SET_OF: u8 = 15;
const MEMBER: u8 = 16;
/// What the body of a member has after the name.
const MEMBER_FIELDS: usize = 6 + DEFAULT;
const NAMED_BITS: u8 = 17;
const BIT_NAME: u8 = 18;
const BIT_NAME_BODY: usize = NAME + 1;
const RDN_SEQUENCE: u8 = 19;
const RDN: u8 = 20;
/// A member whose name is too long for the other kind of member.
const LONG_MEMBER: u8 = 21;

/// A type that has no parts.
#[derive(Clone, Copy, Debug, PartialEq, Eq)]
pub enum Basic {
    Boolean,
    Integer,
    Enumerated,
    Null,
    ObjectIdentifier,
    OctetString,
    BitString,
    Utf8String,
    PrintableString,
    Ia5String,
    GeneralizedTime,
}

impl Basic {
    fn from_kind(kind: u8) -> Option<Basic> {
        Some(match kind {
            1 => Basic::Boolean,
            2 => Basic::Integer,
            3 => Basic::Enumerated,
            4 => Basic::Null,
            5 => Basic::ObjectIdentifier,
            6 => Basic::OctetString,
            7 => Basic::BitString,
            8 => Basic::Utf8String,
            9 => Basic::PrintableString,
            10 => Basic::Ia5String,
            11 => Basic::GeneralizedTime,
            _ => return None,
        })
    }

    /// The universal tag octet.
    pub fn tag(self) -> u8 {
        match self {
            Basic::Boolean => 1,
            Basic::Integer => 2,
            Basic::BitString => 3,
            Basic::OctetString => 4,
            Basic::Null => 5,
            Basic::ObjectIdentifier => 6,
            Basic::Enumerated => 10,
            Basic::Utf8String => 12,
            Basic::PrintableString => 19,
            Basic::Ia5String => 22,
            Basic::GeneralizedTime => 24,
        }
    }

    pub fn is_string(self) -> bool {
        matches!(self, Basic::Utf8String | Basic::PrintableString | Basic::Ia5String)
    }

    /// Whether these are good contents of this type.
    pub fn admits(self, contents: &[u8]) -> bool {
        match self {
            Basic::Boolean => der::is_boolean(contents),
            Basic::Integer | Basic::Enumerated => der::is_integer(contents),
            Basic::Null => contents.is_empty(),
            Basic::ObjectIdentifier => der::is_object_identifier(contents),
            Basic::OctetString => true,
            Basic::BitString => der::is_bit_string(contents),
            Basic::Utf8String => der::is_utf8(contents),
            Basic::PrintableString => der::is_printable(contents),
            Basic::Ia5String => der::is_ia5(contents),
            Basic::GeneralizedTime => der::is_generalized_time(contents),
        }
    }
}

/// A set of tags by class and number: 32 bits for the universal class, 32 for the context class.
#[derive(Clone, Copy, Debug, PartialEq, Eq)]
pub struct Tags(u64);

impl Tags {
    const NONE: Tags = Tags(0);

    /// The tag of one tag octet.
    fn one(octet: u8) -> Tags {
        let number = octet & 0x1F;
        match octet >> 6 {
            0 => Tags(1 << number),
            2 => Tags(1 << (32 + number)),
            _ => Tags::NONE,
        }
    }

    fn or(self, other: Tags) -> Tags {
        Tags(self.0 | other.0)
    }

    fn meets(self, other: Tags) -> bool {
        self.0 & other.0 != 0
    }

    /// Whether an encoding that starts with this octet has one of the tags.
    pub fn contains(self, octet: u8) -> bool {
        self.meets(Tags::one(octet))
    }
}

/// The type of a row.
#[derive(Debug)]
pub struct Type<'t> {
    pub form: Form<'t>,
    /// The tags that a value of the type can start with.
    pub starts: Tags,
    /// The type rows of the longest chain from here.
    chain: usize,
}

#[derive(Debug)]
pub enum Form<'t> {
    Basic(Basic),
    /// A BIT STRING with names.
    NamedBits(Vec<BitName<'t>>),
    Sequence(Vec<Member<'t>>),
    Choice(Vec<Member<'t>>),
    SequenceOf(Rc<Type<'t>>),
    SetOf(Rc<Type<'t>>),
    /// A distinguished name.
    RdnSequence,
    /// One RelativeDistinguishedName.
    Rdn,
}

/// A name of a bit, with the number of the bit from 0.
#[derive(Clone, Copy, Debug)]
pub struct BitName<'t> {
    pub name: &'t [u8],
    pub bit: u8,
}

/// A member of a SEQUENCE or an alternative of a CHOICE.
#[derive(Debug)]
pub struct Member<'t> {
    pub row: usize,
    pub name: &'t [u8],
    pub ty: Rc<Type<'t>>,
    pub tagging: Tagging,
    pub presence: Presence<'t>,
    /// The tags that the encoding of the member can start with.
    pub starts: Tags,
}

/// How a member is tagged, with its tag octet.
#[derive(Clone, Copy, Debug, PartialEq, Eq)]
pub enum Tagging {
    None,
    Explicit(u8),
    Implicit(u8),
}

#[derive(Clone, Copy, Debug, PartialEq, Eq)]
pub enum Presence<'t> {
    Mandatory,
    Optional,
    Default(&'t [u8]),
}

impl<'t> Type<'t> {
    fn new(form: Form<'t>) -> Option<Rc<Type<'t>>> {
        let starts = match &form {
            Form::Choice(members) => members.iter().fold(Tags::NONE, |tags, m| tags.or(m.starts)),
            other => other.tag().map_or(Tags::NONE, Tags::one),
        };
        let below = match &form {
            Form::Basic(_) | Form::NamedBits(_) | Form::RdnSequence | Form::Rdn => 0,
            Form::Sequence(members) | Form::Choice(members) => {
                members.iter().map(|m| m.ty.chain).max().unwrap_or(0)
            }
            Form::SequenceOf(element) | Form::SetOf(element) => element.chain,
        };
        (below < MAX_CHAIN).then(|| Rc::new(Type { form, starts, chain: below + 1 }))
    }
}

impl Form<'_> {
    /// The universal tag octet; a CHOICE has none.
    pub fn tag(&self) -> Option<u8> {
        match self {
            Form::Basic(basic) => Some(basic.tag()),
            Form::NamedBits(_) => Some(Basic::BitString.tag()),
            Form::Sequence(_) | Form::SequenceOf(_) | Form::RdnSequence => Some(der::SEQUENCE),
            Form::SetOf(_) | Form::Rdn => Some(der::SET),
            Form::Choice(_) => None,
        }
    }
}

/// An admitted table.
#[derive(Debug)]
pub struct Table<'t> {
    pub rows: usize,
    pub root: Rc<Type<'t>>,
}

impl<'t> Table<'t> {
    /// Reads a table; `None` if it is not admitted.
    pub fn parse(octets: &'t [u8]) -> Option<Table<'t>> {
        let rows = split(octets)?;
        // From the last row to the first, as rows name later ones: a row that isn't built yet, or is no
        // type, cannot be named.
        let mut types: Vec<Option<Rc<Type>>> = vec![None; rows.len()];
        for &at in type_rows(&rows)?.iter().rev() {
            let (kind, body) = rows[at];
            let followers = || at + 1..=at + usize::from(body[0]);
            let members =
                || followers().map(|row| member(row, rows[row].1, &types)).collect::<Option<Vec<_>>>();
            let bit_names = || followers().map(|row| bit_name(rows[row].1)).collect::<Option<Vec<_>>>();
            let form = match kind {
                SEQUENCE => Form::Sequence(members().filter(|m| is_sequence(m))?),
                CHOICE => Form::Choice(members().filter(|m| is_choice(m))?),
                NAMED_BITS => Form::NamedBits(bit_names().filter(|names| is_bit_list(names))?),
                SEQUENCE_OF => Form::SequenceOf(named(body, &types)?),
                SET_OF => Form::SetOf(named(body, &types)?),
                RDN_SEQUENCE => Form::RdnSequence,
                RDN => Form::Rdn,
                _ => Form::Basic(Basic::from_kind(kind)?),
            };
            types[at] = Some(Type::new(form)?);
        }
        let root = types.first()?.clone()?;
        Some(Table { rows: rows.len(), root })
    }
}

type Row<'t> = (u8, &'t [u8]);

/// The rows as kinds and bodies.
fn split(octets: &[u8]) -> Option<Vec<Row<'_>>> {
    let mut rows = Vec::new();
    let mut rest = octets;
    while let Some((&kind, after)) = rest.split_first() {
        let size = match kind {
            SEQUENCE | CHOICE | NAMED_BITS => 1,
            SEQUENCE_OF | SET_OF => 2,
            MEMBER => NAME + MEMBER_FIELDS,
            LONG_MEMBER => LONG_NAME + MEMBER_FIELDS,
            BIT_NAME => BIT_NAME_BODY,
            RDN_SEQUENCE | RDN => 0,
            _ => Basic::from_kind(kind).map(|_| 0)?,
        };
        if rows.len() == MAX_ROWS || after.len() < size {
            return None;
        }
        let (body, next) = after.split_at(size);
        rows.push((kind, body));
        rest = next;
    }
    (!rows.is_empty()).then_some(rows)
}

/// The numbers of the rows that are types, if all others follow one of them as they should.
fn type_rows(rows: &[Row]) -> Option<Vec<usize>> {
    let mut found = Vec::new();
    let mut at = 0;
    while let Some(&(kind, body)) = rows.get(at) {
        let (followers, allowed): (&[u8], _) = match kind {
            MEMBER | LONG_MEMBER | BIT_NAME => return None,
            SEQUENCE => (&[MEMBER, LONG_MEMBER], 0..=MAX_MEMBERS),
            CHOICE => (&[MEMBER, LONG_MEMBER], 1..=MAX_MEMBERS),
            NAMED_BITS => (&[BIT_NAME], 1..=MAX_BIT_NAMES),
            _ => {
                found.push(at);
                at += 1;
                continue;
            }
        };
        let count = usize::from(body[0]);
        let owned = rows.get(at + 1..at + 1 + count)?;
        if !allowed.contains(&count) || owned.iter().any(|row| !followers.contains(&row.0)) {
            return None;
        }
        found.push(at);
        at += 1 + count;
    }
    Some(found)
}

/// The type of the row whose number the first two octets are.
fn named<'t>(octets: &[u8], types: &[Option<Rc<Type<'t>>>]) -> Option<Rc<Type<'t>>> {
    let row = u16::from_be_bytes([octets[0], octets[1]]);
    types.get(usize::from(row))?.clone()
}

fn member<'t>(row: usize, body: &'t [u8], types: &[Option<Rc<Type<'t>>>]) -> Option<Member<'t>> {
    let (field, body) = body.split_at(body.len() - MEMBER_FIELDS);
    // A name that fits into the shorter field stands in no other.
    let name = identifier(field).filter(|name| field.len() == NAME || name.len() > NAME)?;
    let ty = named(body, types)?;
    let (mode, number, presence, length) = (body[2], body[3], body[4], usize::from(body[5]));
    if number > MAX_TAG || length > DEFAULT {
        return None;
    }
    let tagging = match mode {
        0 if number == 0 => Tagging::None,
        1 => Tagging::Explicit(der::CONTEXT | der::CONSTRUCTED | number),
        // A CHOICE has no tag of its own that could be replaced.
        2 => Tagging::Implicit(der::CONTEXT | ty.form.tag()? & der::CONSTRUCTED | number),
        _ => return None,
    };
    let default = unfilled(&body[6..], length)?;
    let presence = match presence {
        0 if length == 0 => Presence::Mandatory,
        1 if length == 0 => Presence::Optional,
        2 => match ty.form {
            Form::Basic(basic @ (Basic::Boolean | Basic::Integer | Basic::Enumerated))
                if basic.admits(default) =>
            {
                Presence::Default(default)
            }
            _ => return None,
        },
        _ => return None,
    };
    let starts = match tagging {
        Tagging::None => ty.starts,
        Tagging::Explicit(tag) | Tagging::Implicit(tag) => Tags::one(tag),
    };
    Some(Member { row, name, ty, tagging, presence, starts })
}

fn bit_name(body: &[u8]) -> Option<BitName<'_>> {
    let (name, bit) = body.split_at(NAME);
    let (name, bit) = (identifier(name)?, bit[0]);
    (bit <= MAX_BIT).then_some(BitName { name, bit })
}

/// The name in a field that is filled with zeros.
fn identifier(field: &[u8]) -> Option<&[u8]> {
    let length = field.iter().position(|&b| b == 0).unwrap_or(field.len());
    unfilled(field, length).filter(|name| is_identifier(name))
}

/// The first `length` octets, if all others are zero.
fn unfilled(field: &[u8], length: usize) -> Option<&[u8]> {
    let (used, filler) = field.split_at(length);
    filler.iter().all(|&b| b == 0).then_some(used)
}

/// A lowercase letter, then letters, digits and single hyphens, no hyphen last.
fn is_identifier(name: &[u8]) -> bool {
    name.first().is_some_and(u8::is_ascii_lowercase)
        && name.iter().all(|&b| b.is_ascii_alphanumeric() || b == b'-')
        && !name.ends_with(b"-")
        && !name.windows(2).any(|pair| pair == b"--")
}

fn names_differ(members: &[Member]) -> bool {
    members.iter().enumerate().all(|(i, m)| members[..i].iter().all(|other| other.name != m.name))
}

/// Names differ, and so do numbers.
fn is_bit_list(names: &[BitName]) -> bool {
    let differ = |one: &BitName, other: &BitName| one.name != other.name && one.bit != other.bit;
    names.iter().enumerate().all(|(i, own)| names[..i].iter().all(|other| differ(own, other)))
}

fn is_choice(members: &[Member]) -> bool {
    let mut seen = Tags::NONE;
    names_differ(members)
        && members.iter().all(|m| {
            let clash = seen.meets(m.starts);
            seen = seen.or(m.starts);
            !clash && m.presence == Presence::Mandatory
        })
}

/// Tags differ in a run of optional or default members and the mandatory one after it.
fn is_sequence(members: &[Member]) -> bool {
    let mut run = Tags::NONE;
    names_differ(members)
        && members.iter().all(|m| {
            let clash = run.meets(m.starts);
            run = if m.presence == Presence::Mandatory { Tags::NONE } else { run.or(m.starts) };
            !clash
        })
}
