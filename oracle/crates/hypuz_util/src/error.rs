//! Stand-in for hypuz_util's errors: each keeps the name of the index type.
use std::fmt;

use crate::ti::TypedIndex;

/// An index that its type cannot hold (or, for elements, beyond the room).
#[derive(Debug, Clone, Copy, PartialEq, Eq)]
pub struct IndexOverflow(pub &'static str);
impl IndexOverflow {
    pub fn new<I: TypedIndex>() -> Self {
        Self(I::TYPE_NAME)
    }
}
impl fmt::Display for IndexOverflow {
    fn fmt(&self, f: &mut fmt::Formatter<'_>) -> fmt::Result {
        write!(f, "IndexOverflow({})", self.0)
    }
}
impl std::error::Error for IndexOverflow {}

/// An index beyond the end of a collection.
#[derive(Debug, Clone, Copy, PartialEq, Eq)]
pub struct IndexOutOfRange(pub &'static str);
impl IndexOutOfRange {
    pub fn new<I: TypedIndex>() -> Self {
        Self(I::TYPE_NAME)
    }
}
