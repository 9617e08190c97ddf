//! Component references (RFC 3687 section 3.1): reading one against a type, and the walk along it.

use crate::der::Element;
use crate::refusal;
use crate::table::{Form, Member, Presence, Type};
use crate::value::member_element;

/// The size of a listing's reference in octets is at most this.
pub const MAX_SIZE: usize = 2048;

/// One component identifier, with the part of the type that it is read on.
#[derive(Clone, Copy, Debug)]
enum Step<'t> {
    /// A member of a SEQUENCE, and the members before it.
    Member(&'t Member<'t>, &'t [Member<'t>]),
    /// An alternative of a CHOICE.
    Alternative(&'t Member<'t>),
    /// An element by its position, counted from 0.
    FromBeginning(&'t Type<'t>, usize),
    /// An element by its position from the end, counted from 0.
    FromEnd(&'t Type<'t>, usize),
    All(&'t Type<'t>),
    Count,
}

/// A reference that is allowed by the type it was read against.
#[derive(Debug)]
pub struct Reference<'t> {
    steps: Vec<Step<'t>>,
    root: &'t Type<'t>,
    pub target: Target<'t>,
}

/// The type of what a reference names.
#[derive(Clone, Copy, Debug)]
pub enum Target<'t> {
    Type(&'t Type<'t>),
    Count,
}

/// A value that a reference names.
#[derive(Clone, Copy, Debug)]
pub enum Named<'t> {
    Stored(Element),
    /// The default of an absent member of the SEQUENCE at `place`.
    Default {
        place: usize,
        row: usize,
        contents: &'t [u8],
    },
    /// The number of elements of the list at `place`.
    Count {
        place: usize,
        elements: usize,
    },
}

impl Named<'_> {
    /// Source, place and number.
    pub fn numbers(&self) -> [u64; 3] {
        match *self {
            Named::Stored(e) => [0, e.place as u64, (e.end - e.place) as u64],
            Named::Default { place, row, .. } => [1, place as u64, row as u64],
            Named::Count { place, elements } => [2, place as u64, elements as u64],
        }
    }
}

impl<'t> Reference<'t> {
    /// Reads a reference on a type, a missing one as the whole value; `None` if it is malformed or not
    /// allowed.
    pub fn resolve(root: &'t Type<'t>, text: Option<&[u8]>) -> Option<Reference<'t>> {
        let mut steps = Vec::new();
        let mut target = Target::Type(root);
        if let Some(text) = text {
            for identifier in text.split(|&b| b == b'.') {
                let Target::Type(ty) = target else { return None };
                let (step, next) = resolve_step(ty, identifier)?;
                steps.push(step);
                target = next;
            }
        }
        Some(Reference { steps, root, target })
    }

    /// Walks a checked value and visits each named value, from the left, until `visit` breaks off.
    pub fn walk<B: From<u8>>(
        &self,
        octets: &[u8],
        defaults: bool,
        visit: &mut impl FnMut(Named<'t>) -> Result<(), B>,
    ) -> Result<(), B> {
        let whole = Element::read(octets, 0, octets.len());
        let whole = fitting(whole, self.root)?;
        Walk { octets, defaults, visit }.along(&self.steps, whole)
    }
}

fn resolve_step<'t>(ty: &'t Type<'t>, identifier: &[u8]) -> Option<(Step<'t>, Target<'t>)> {
    let find = |members: &[Member]| members.iter().position(|m| m.name == identifier);
    match &ty.form {
        Form::Basic(_) | Form::NamedBits(_) | Form::RdnSequence | Form::Rdn => None,
        Form::Sequence(members) => {
            let at = find(members)?;
            let member = &members[at];
            Some((Step::Member(member, &members[..at]), Target::Type(&member.ty)))
        }
        Form::Choice(members) => {
            let member = &members[find(members)?];
            Some((Step::Alternative(member), Target::Type(&member.ty)))
        }
        Form::SequenceOf(inner) | Form::SetOf(inner) => {
            let step = match identifier {
                b"0" => return Some((Step::Count, Target::Count)),
                b"*" => Step::All(inner),
                [b'-', digits @ ..] => Step::FromEnd(inner, position(digits)?),
                digits => Step::FromBeginning(inner, position(digits)?),
            };
            Some((step, Target::Type(inner)))
        }
    }
}

/// A positive number without leading zeros, less one. One that is too large for the machine is beyond
/// the end of every list, as the largest number is.
fn position(digits: &[u8]) -> Option<usize> {
    if !matches!(digits.first(), Some(b'1'..=b'9')) {
        return None;
    }
    let mut number = 0usize;
    for &digit in digits {
        if !digit.is_ascii_digit() {
            return None;
        }
        number = number.saturating_mul(10).saturating_add(usize::from(digit - b'0'));
    }
    Some(number - 1)
}

/// The element, if there is one and its tag fits the type.
fn fitting(element: Option<Element>, ty: &Type) -> Result<Element, u8> {
    element.filter(|e| ty.starts.contains(e.tag)).ok_or(refusal::WALK)
}

struct Walk<'v, F> {
    octets: &'v [u8],
    defaults: bool,
    visit: F,
}

impl<F> Walk<'_, &mut F> {
    /// Goes on from a held value along the steps that are left.
    fn along<'t, B: From<u8>>(&mut self, steps: &[Step<'t>], held: Element) -> Result<(), B>
    where
        F: FnMut(Named<'t>) -> Result<(), B>,
    {
        let Some((step, rest)) = steps.split_first() else {
            return (self.visit)(Named::Stored(held));
        };
        match *step {
            Step::Member(member, before) => {
                let mut place = held.start;
                for skipped in before {
                    if self.is_present(skipped, place, held.end) {
                        let element = Element::read(self.octets, place, held.end).ok_or(refusal::WALK)?;
                        place = element.end;
                    } else if skipped.presence == Presence::Mandatory {
                        return Err(refusal::WALK.into());
                    }
                }
                if self.is_present(member, place, held.end) {
                    return self.enter(member, place, held.end, rest);
                }
                match member.presence {
                    Presence::Mandatory => Err(refusal::WALK.into()),
                    Presence::Default(contents) if self.defaults => {
                        (self.visit)(Named::Default { place: held.place, row: member.row, contents })
                    }
                    Presence::Optional | Presence::Default(_) => Ok(()),
                }
            }
            Step::Alternative(member) if member.starts.contains(held.tag) => {
                self.enter(member, held.place, held.end, rest)
            }
            Step::Alternative(_) => Ok(()),
            Step::FromBeginning(inner, position) => {
                for (i, element) in held.children(self.octets).enumerate() {
                    let element = fitting(element, inner)?;
                    if i == position {
                        return self.along(rest, element);
                    }
                }
                Ok(())
            }
            Step::FromEnd(inner, position) => {
                let count = self.count(held)?;
                match count.checked_sub(position).and_then(|left| left.checked_sub(1)) {
                    Some(at) => {
                        let element = held.children(self.octets).nth(at).flatten();
                        self.along(rest, fitting(element, inner)?)
                    }
                    None => Ok(()),
                }
            }
            Step::All(inner) => {
                for element in held.children(self.octets) {
                    self.along(rest, fitting(element, inner)?)?;
                }
                Ok(())
            }
            Step::Count => {
                let elements = self.count(held)?;
                (self.visit)(Named::Count { place: held.place, elements })
            }
        }
    }

    fn is_present(&self, member: &Member, place: usize, limit: usize) -> bool {
        place < limit && self.octets.get(place).is_some_and(|&tag| member.starts.contains(tag))
    }

    fn enter<'t, B: From<u8>>(
        &mut self,
        member: &Member,
        place: usize,
        limit: usize,
        rest: &[Step<'t>],
    ) -> Result<(), B>
    where
        F: FnMut(Named<'t>) -> Result<(), B>,
    {
        let own = member_element(self.octets, member, place, limit).ok_or(refusal::WALK)?;
        self.along(rest, own)
    }

    fn count(&self, held: Element) -> Result<usize, u8> {
        held.children(self.octets).try_fold(0, |n, e| e.map(|_| n + 1)).ok_or(refusal::WALK)
    }
}
