use crate::raw::{self, Handle, Name};
use crate::refusal::Said;
use crate::{Element, Factor, Generator, Naming, Refusal};
use alloc::{vec, vec::Vec};

/// Whether a stored step was new.
#[derive(Clone, Copy, Debug, PartialEq, Eq)]
pub enum Stored {
    /// No step was known at this place.
    New,
    /// A step was known there, and has been overwritten.
    Known,
}

/// A table made step by step, and checked at the end.
///
/// ```
/// use hypergroup::{Builder, Element, Generator, Stored};
///
/// let turn = Generator(0);
/// let mut builder = Builder::new(1, 3)?;
/// let one = builder.add(Element::IDENTITY, turn)?;
/// let two = builder.add(one, turn)?;
/// assert_eq!(builder.set(two, turn, Element::IDENTITY)?, Stored::New);
/// let z3 = builder.build()?;
/// assert_eq!(z3.compose(one, one)?, two);
/// # Ok::<(), hypergroup::Refusal>(())
/// ```
#[derive(Clone)]
pub struct Builder {
    table: Vec<u32>,
    handle: Handle,
    name: Name,
}

impl Builder {
    /// Begins with the identity alone, and room for so many elements, 1 to 65,535. [`Factor::named`] gives what is built a name.
    ///
    /// # Errors
    ///
    /// 1 for more than 8 generators, 4 for a room outside 1 to 65,535.
    pub fn new(generators: u8, room: u32) -> Result<Self, Refusal> {
        Naming::NONE.builder(generators, room)
    }

    /// A builder that was just begun in this table.
    pub(crate) fn begun(table: Vec<u32>, handle: Handle, name: Name) -> Self {
        Builder { table, handle, name }
    }

    /// The name that the factor is to have.
    #[must_use]
    pub fn name(&self) -> &[u8] {
        self.name.as_bytes()
    }

    /// How many elements there are so far; 0 once a refusal with 5 or 6 has ended the build.
    #[must_use]
    pub fn element_count(&self) -> u32 {
        self.handle.elements
    }

    /// How many generators there are; 0 once a refusal has ended the build.
    #[must_use]
    pub fn generator_count(&self) -> u8 {
        self.handle.generators
    }

    /// A new element, which a turn leads to from `e`.
    ///
    /// # Errors
    ///
    /// 14 where there is no such element (position 0) or generator (position 1); then nothing changes. 5 (no room) or 6 (its word would
    /// pass 4,096 turns) end the build: every call is refused with 17 from then on.
    pub fn add(&mut self, e: Element, g: Generator) -> Result<Element, Refusal> {
        let grown = raw::add(&mut self.table, self.handle, e.0, g.0);
        self.handle = grown.builder;
        grown.answer.map(Element).map_err(ended)
    }

    /// Says that a turn leads from `e` to `to`. A step that was known there is overwritten.
    ///
    /// # Errors
    ///
    /// 14 where there is no such element (position 0), generator (position 1) or element to go to (position 2); nothing changes. 17
    /// after the build has ended.
    pub fn set(&mut self, e: Element, g: Generator, to: Element) -> Result<Stored, Refusal> {
        let new = raw::set(&mut self.table, self.handle, e.0, g.0, to.0).map_err(ended)?;
        Ok(if new { Stored::New } else { Stored::Known })
    }

    /// The factor, if what was built is some group's table.
    ///
    /// # Errors
    ///
    /// 8 to 12 where no group has these steps, a step is missing, or the identity's row is not 1 to n; 6 or 7 where the steps, as they
    /// are now, give a word of more than 4,096 turns or number the elements in another order than they appear in; 17 after the build
    /// has ended.
    pub fn build(mut self) -> Result<Factor, Refusal> {
        let mut work = vec![0; raw::work_need(self.handle.generators, self.handle.room)];
        let handle = raw::build(&mut self.table, self.handle, &mut work).map_err(ended)?;
        Ok(Factor::new(&self.table, handle, self.name))
    }
}

/// A builder fits its own table until its build has ended.
fn ended(no: Refusal) -> Refusal {
    no.said(Refusal::BAD_HANDLE, Said::Ended)
}
