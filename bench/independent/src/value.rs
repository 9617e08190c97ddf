//! The check of a stored value against its type.

use crate::der::{self, Element};
use crate::names;
use crate::table::{Form, Member, Presence, Tagging, Type};

/// The size of a value in octets.
pub const SIZES: std::ops::RangeInclusive<usize> = 2..=4096;

/// Whether the octets, from the first to the last, are a value of the type.
pub fn is_value(octets: &[u8], ty: &Type) -> bool {
    Checker { octets }.value(ty, None, 0, octets.len()) == Some(octets.len())
}

struct Checker<'v> {
    octets: &'v [u8],
}

impl Checker<'_> {
    /// The end of the value of a type at `place`, with another tag octet if it is tagged implicitly.
    fn value(&self, ty: &Type, tag: Option<u8>, place: usize, limit: usize) -> Option<usize> {
        let element = Element::read(self.octets, place, limit)?;
        if let Form::Choice(alternatives) = &ty.form {
            let chosen = alternatives.iter().find(|m| m.starts.contains(element.tag))?;
            return self.member(chosen, place, limit);
        }
        if Some(element.tag) != tag.or(ty.form.tag()) {
            return None;
        }
        let good = match &ty.form {
            Form::Basic(basic) => basic.admits(element.contents(self.octets)),
            Form::NamedBits(_) => der::is_bit_string_without_trailing_zeros(element.contents(self.octets)),
            Form::Sequence(members) => self.sequence(members, element),
            Form::SequenceOf(inner) => self.list(inner, element, false),
            Form::SetOf(inner) => self.list(inner, element, true),
            Form::RdnSequence => names::is_rdn_sequence(element.contents(self.octets)),
            Form::Rdn => names::is_rdn(element.contents(self.octets)),
            Form::Choice(_) => false,
        };
        good.then_some(element.end)
    }

    /// The end of a member, with its tags, at `place`.
    fn member(&self, member: &Member, place: usize, limit: usize) -> Option<usize> {
        match member.tagging {
            Tagging::None => self.value(&member.ty, None, place, limit),
            Tagging::Implicit(tag) => self.value(&member.ty, Some(tag), place, limit),
            Tagging::Explicit(tag) => {
                let wrapper = Element::read(self.octets, place, limit).filter(|w| w.tag == tag)?;
                let end = self.value(&member.ty, None, wrapper.start, wrapper.end)?;
                (end == wrapper.end).then_some(end)
            }
        }
    }

    // Most members are checked from here: a call for each SEQUENCE would cost some percent more.
    #[inline(always)]
    fn sequence(&self, members: &[Member], outer: Element) -> bool {
        let mut place = outer.start;
        for member in members {
            let present = place < outer.end && member.starts.contains(self.octets[place]);
            if present {
                let Some(end) = self.member(member, place, outer.end) else { return false };
                if self.stores_default(member, place) {
                    return false;
                }
                place = end;
            } else if member.presence == Presence::Mandatory {
                return false;
            }
        }
        place == outer.end
    }

    /// Whether a checked member at `place` has its default as contents.
    fn stores_default(&self, member: &Member, place: usize) -> bool {
        let Presence::Default(default) = member.presence else { return false };
        let own = member_element(self.octets, member, place, self.octets.len());
        own.is_some_and(|e| e.contents(self.octets) == default)
    }

    fn list(&self, inner: &Type, outer: Element, ordered: bool) -> bool {
        let mut place = outer.start;
        let mut last: &[u8] = &[];
        while place < outer.end {
            let Some(end) = self.value(inner, None, place, outer.end) else { return false };
            // No encoding begins with another one, so that padding with zeros wouldn't change the order.
            let encoding = &self.octets[place..end];
            if ordered && last > encoding {
                return false;
            }
            last = encoding;
            place = end;
        }
        true
    }
}

/// The member's own element, inside an explicit wrapper, in an encoding that starts at `place`.
pub fn member_element(octets: &[u8], member: &Member, place: usize, limit: usize) -> Option<Element> {
    let outer = Element::read(octets, place, limit)?;
    match member.tagging {
        Tagging::Explicit(_) => {
            let own = Element::read(octets, outer.start, outer.end)?;
            (member.ty.starts.contains(own.tag) && own.end == outer.end).then_some(own)
        }
        Tagging::None | Tagging::Implicit(_) => Some(outer),
    }
}
