use core::iter::FusedIterator;
use core::slice::ChunksExact;

/// A value that a reference names. A place is an octet's number in the stored value, from 0.
#[derive(Clone, Copy, Debug, PartialEq, Eq, Hash)]
pub enum Component {
    /// A stored value: where its own tag octet stands, and its whole length. [`part`](crate::part) gives its
    /// octets.
    Stored {
        /// Where the value's own tag octet stands.
        place: usize,
        /// The value's octets, tag and length with them.
        length: usize,
    },
    /// The default of an absent member: where the own tag octet of the SEQUENCE that lacks it stands, and the
    /// member's row.
    Default {
        /// Where the own tag octet of the SEQUENCE stands.
        place: usize,
        /// The member's row in the table.
        row: usize,
    },
    /// The number of elements of a list: the list's place, and that number.
    Count {
        /// Where the list's own tag octet stands.
        place: usize,
        /// The number of its elements.
        elements: usize,
    },
}

impl Component {
    /// Where it stands.
    ///
    /// ```
    /// use tezqulom::Component;
    ///
    /// assert_eq!(Component::Count { place: 6, elements: 2 }.place(), 6);
    /// ```
    pub const fn place(self) -> usize {
        match self {
            Component::Stored { place, .. }
            | Component::Default { place, .. }
            | Component::Count { place, .. } => place,
        }
    }

    /// The component of document 01's three numbers: source, place, number.
    fn of(numbers: &[u64]) -> Component {
        let (place, number) = (numbers[1] as usize, numbers[2] as usize);
        match numbers[0] {
            0 => Component::Stored { place, length: number },
            1 => Component::Default { place, row: number },
            2 => Component::Count { place, elements: number },
            source => panic!("the engine listed a source {source}"),
        }
    }
}

/// The components of a listing, by rising place, read from the lent room.
///
/// ```
/// use tezqulom::{list_into, Component};
///
/// let (table, value) = ([0x0E, 0x00, 0x01, 0x02], [0x30, 0x06, 0x02, 0x01, 0x07, 0x02, 0x01, 0x05]);
/// let mut room = [0; 6];
/// let elements = list_into(&table, &value, Some(b"*"), true, &mut room)?;
/// assert_eq!(elements.len(), 2);
/// assert!(elements.map(Component::place).eq([2, 5]));
/// # Ok::<(), tezqulom::Refusal>(())
/// ```
#[derive(Clone, Debug)]
pub struct Components<'r>(ChunksExact<'r, u64>);

impl<'r> Components<'r> {
    /// `numbers` are three for each component.
    pub(crate) fn of(numbers: &'r [u64]) -> Components<'r> {
        Components(numbers.chunks_exact(3))
    }
}

impl Iterator for Components<'_> {
    type Item = Component;

    fn next(&mut self) -> Option<Component> {
        self.0.next().map(Component::of)
    }

    fn size_hint(&self) -> (usize, Option<usize>) {
        self.0.size_hint()
    }
}

impl ExactSizeIterator for Components<'_> {}

impl FusedIterator for Components<'_> {}
