//! Stand-in for primitives/action.rs: an action on no points. A subgroup in
//! the sources is one of a group action; points are not carried over.
use std::marker::PhantomData;
use std::sync::Arc;

use hypuz_util::ti::{TypedIndex, TypedIndexIter};

use super::AbstractGroupLut;
use crate::{GeneratorId, GroupElementId, GroupResult};

pub(crate) struct AbstractGroupActionLut<P> {
    group: Arc<AbstractGroupLut>,
    _phantom: PhantomData<P>,
}
impl<P: TypedIndex> AbstractGroupActionLut<P> {
    pub fn from_fn(
        group: Arc<AbstractGroupLut>,
        point_count: usize,
        _act: impl FnMut(GeneratorId, P) -> GroupResult<P>,
    ) -> GroupResult<Self> {
        assert_eq!(point_count, 0, "points are not carried");
        Ok(Self {
            group,
            _phantom: PhantomData,
        })
    }
    pub fn group(&self) -> &Arc<AbstractGroupLut> {
        &self.group
    }
    pub fn point_count(&self) -> usize {
        0
    }
    pub fn points(&self) -> TypedIndexIter<P> {
        P::iter(0)
    }
    pub fn act(&self, _e: GroupElementId, _p: P) -> P {
        unreachable!("points are not carried")
    }
}
