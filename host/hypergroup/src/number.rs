use core::fmt;

/// An element of a group: its number in the numbering of its table. The identity is 0.
#[derive(Clone, Copy, Debug, Default, PartialEq, Eq, PartialOrd, Ord, Hash)]
#[repr(transparent)]
pub struct Element(pub u32);

impl Element {
    /// The identity, which is the solved state.
    pub const IDENTITY: Element = Element(0);
}

/// A generator of a group, which is one turn of a puzzle.
///
/// It is no element: the element that a generator leads to from the identity is `generator(..)` of a factor or product.
#[derive(Clone, Copy, Debug, Default, PartialEq, Eq, PartialOrd, Ord, Hash)]
#[repr(transparent)]
pub struct Generator(pub u8);

impl fmt::Display for Element {
    fn fmt(&self, f: &mut fmt::Formatter<'_>) -> fmt::Result {
        self.0.fmt(f)
    }
}

impl fmt::Display for Generator {
    fn fmt(&self, f: &mut fmt::Formatter<'_>) -> fmt::Result {
        self.0.fmt(f)
    }
}
