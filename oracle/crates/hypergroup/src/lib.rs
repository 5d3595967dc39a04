//! Stand-in for the crate root of hypergroup, and the oracle built on it.
#![allow(dead_code)] // the originals have more than the oracle asks for

mod action; // original
mod coxeter; // stand-in; todd_coxeter.rs in it is the original
mod group; // original
mod primitives; // stand-in; all but action.rs in it are originals
mod subgroup_action; // original

mod check; // the oracle's own, as are the next two
pub mod cli;
pub(crate) mod trace;

use std::sync::atomic::{AtomicUsize, Ordering};

use hypuz_util::ti::{IndexOverflow, TiVec};

pub use action::GroupAction;
pub use coxeter::CoxeterMatrix;
pub use group::Group;
pub(crate) use primitives::{
    AbstractGroupActionLut, AbstractGroupLut, AbstractGroupLutBuilder, EggTable,
};
pub use subgroup_action::SubgroupAction;

/// `GroupElementId::try_from_index` refuses this number and those above it.
pub static ROOM: AtomicUsize = AtomicUsize::new(65_535);

hypuz_util::typed_index_struct!(pub struct GroupElementId(u32), room = ROOM.load(Ordering::Relaxed));
hypuz_util::typed_index_struct!(pub struct GeneratorId(u8));
hypuz_util::typed_index_struct!(pub struct FactorGroup(u8));
impl GroupElementId {
    pub const IDENTITY: Self = GroupElementId(0);
}
pub type PerGenerator<T> = TiVec<GeneratorId, T>;
pub type PerGroupElement<T> = TiVec<GroupElementId, T>;
pub(crate) type PerFactorGroup<T> = TiVec<FactorGroup, T>;

/// The errors that the originals here give.
#[derive(Debug, Clone)]
pub enum GroupError {
    IncompleteGroupStructure,
    BadGroupStructure,
    BadInverse(GroupElementId, GroupElementId, GroupElementId),
    BadCD,
    IndexOverflow(IndexOverflow),
}
impl From<IndexOverflow> for GroupError {
    fn from(e: IndexOverflow) -> Self {
        GroupError::IndexOverflow(e)
    }
}
pub type GroupResult<T> = Result<T, GroupError>;

/// `take_while_inclusive`, which Debian's itertools is too old to have;
/// group.rs finds it by its `use super::*`.
pub(crate) trait TakeWhileInclusive: Iterator + Sized {
    fn take_while_inclusive<F: FnMut(&Self::Item) -> bool>(
        mut self,
        mut f: F,
    ) -> impl Iterator<Item = Self::Item> {
        let mut done = false;
        std::iter::from_fn(move || {
            if done {
                return None;
            }
            let x = self.next()?;
            done = !f(&x);
            Some(x)
        })
    }
}
impl<I: Iterator> TakeWhileInclusive for I {}
