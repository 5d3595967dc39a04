//! Stand-in for the module root of primitives.
mod abstract_group; // original
mod action; // stand-in
mod builder; // original
mod egg; // original

pub(crate) use abstract_group::AbstractGroupLut;
pub(crate) use action::AbstractGroupActionLut;
pub(crate) use builder::AbstractGroupLutBuilder;
pub(crate) use egg::EggTable;
