//! Stand-in for ti/mod.rs: typed indices. vec.rs beside it is the original.
mod vec;

use std::fmt;
use std::hash::Hash;
use std::marker::PhantomData;

pub use crate::error::{IndexOutOfRange, IndexOverflow};
pub use vec::TiVec;

/// A number used as an index into one kind of collection.
pub trait TypedIndex: 'static + fmt::Debug + Copy + Eq + Ord + Hash {
    const MAX: Self;
    const MAX_INDEX: usize;
    const TYPE_NAME: &'static str;

    fn to_index(self) -> usize;

    /// The index, if the type can hold it.
    fn from_index(index: usize) -> Result<Self, IndexOverflow>;

    /// Indices from here on are refused. The original knows no bound but the
    /// type's own; the oracle lowers it for elements, to give them a room.
    fn room() -> usize {
        usize::MAX
    }

    /// The index, if it is within the room and the type can hold it. The
    /// sources call this whenever they make a new element.
    fn try_from_index(index: usize) -> Result<Self, IndexOverflow> {
        if index >= Self::room() {
            return Err(IndexOverflow::new::<Self>());
        }
        Self::from_index(index)
    }

    /// One more. Not bounded by the room: the sources step past the last
    /// element to end a loop.
    fn next(self) -> Result<Self, IndexOverflow> {
        Self::from_index(self.to_index() + 1)
    }

    fn iter(count: usize) -> TypedIndexIter<Self> {
        TypedIndexIter {
            lo: 0,
            hi: count.min(Self::MAX_INDEX.saturating_add(1)),
            _phantom: PhantomData,
        }
    }

    fn try_iter(count: usize) -> Result<TypedIndexIter<Self>, IndexOverflow> {
        if count > 0 {
            Self::from_index(count - 1)?;
        }
        Ok(Self::iter(count))
    }
}

/// The indices from `lo` up to, but not including, `hi`.
#[derive(Debug)]
pub struct TypedIndexIter<I> {
    lo: usize,
    hi: usize,
    _phantom: PhantomData<I>,
}
impl<I> Clone for TypedIndexIter<I> {
    fn clone(&self) -> Self {
        Self { lo: self.lo, hi: self.hi, _phantom: PhantomData }
    }
}
impl<I: TypedIndex> Iterator for TypedIndexIter<I> {
    type Item = I;

    fn next(&mut self) -> Option<I> {
        if self.lo == self.hi {
            return None;
        }
        self.lo += 1;
        I::from_index(self.lo - 1).ok()
    }

    fn size_hint(&self) -> (usize, Option<usize>) {
        (self.hi - self.lo, Some(self.hi - self.lo))
    }
}
impl<I: TypedIndex> ExactSizeIterator for TypedIndexIter<I> {}
impl<I: TypedIndex> DoubleEndedIterator for TypedIndexIter<I> {
    fn next_back(&mut self) -> Option<I> {
        if self.lo == self.hi {
            return None;
        }
        self.hi -= 1;
        I::from_index(self.hi).ok()
    }
}

/// Makes an index type over an unsigned number, with its room if it has one.
#[macro_export]
macro_rules! typed_index_struct {
    ($vis:vis struct $name:ident($inner:ty) $(, room = $room:expr)?) => {
        #[derive(Debug, Default, Copy, Clone, PartialEq, Eq, PartialOrd, Ord, Hash)]
        $vis struct $name(pub $inner);
        impl std::fmt::Display for $name {
            fn fmt(&self, f: &mut std::fmt::Formatter<'_>) -> std::fmt::Result {
                write!(f, "{}", self.0)
            }
        }
        impl $crate::ti::TypedIndex for $name {
            const MAX: Self = $name(<$inner>::MAX);
            const MAX_INDEX: usize = <$inner>::MAX as usize;
            const TYPE_NAME: &'static str = stringify!($name);

            #[inline]
            fn to_index(self) -> usize {
                self.0 as usize
            }
            #[inline]
            fn from_index(index: usize) -> Result<Self, $crate::ti::IndexOverflow> {
                <$inner>::try_from(index)
                    .map($name)
                    .map_err(|_| $crate::ti::IndexOverflow::new::<Self>())
            }
            $( #[inline] fn room() -> usize { $room } )?
        }
    };
}
