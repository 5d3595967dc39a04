use crate::product::Gathered;
use crate::raw::{self, Handle, Handles, Sides, SubgroupBuffers};
use crate::refusal::Said;
use crate::{Element, Factor, Generator, Product, Refusal};
use alloc::sync::Arc;
use alloc::{vec, vec::Vec};
use core::ops::Range;

/// A subgroup of a product, with a map to the overgroup and one back.
///
/// Its elements are numbered in the order in which composing with its generators meets them. Clones share its tables and maps.
///
/// ```
/// use hypergroup::{Element, Factor, Product, Subgroup};
///
/// // The rotations of a triangle, in all its symmetries.
/// let s3 = Product::from(&Factor::from_orders(2, &[3], 6)?);
/// let turns = Subgroup::new(&s3, &[Element(3)])?;
/// assert_eq!((turns.element_count(), turns.overgroup_count()), (3, 6));
/// assert_eq!(turns.to_overgroup(Element(2))?, Element(4));
/// assert_eq!(turns.to_subgroup(Element(4))?, Some(Element(2)));
/// assert_eq!(turns.to_subgroup(Element(1))?, None); // a reflection
/// # Ok::<(), hypergroup::Refusal>(())
/// ```
#[derive(Clone)]
pub struct Subgroup {
    /// The overgroup, with the factors that are multiplied on.
    whole: Product,
    /// Which of its factors the maps speak of; those before them are the faster digits.
    within: Range<usize>,
    factor: Factor,
    inward: Arc<[u32]>,
    outward: Arc<[u32]>,
    sides: Sides,
    elements: u32,
    generators: u8,
}

impl Subgroup {
    /// The subgroup that these elements generate.
    ///
    /// # Errors
    ///
    /// 14 for an element that the overgroup does not have, at its position in the list, 15 if the overgroup has more than 65,535
    /// elements, 1 for more than 8 generators, 6 where a word would pass 4,096 generators, 9 if one of them is the identity and 11 if
    /// one is listed twice.
    pub fn new(over: &Product, generators: &[Element]) -> Result<Self, Refusal> {
        Self::new_with_room(over, generators, largest(over))
    }

    /// The same in no more than so much room, 1 to 65,535, so that it takes no more memory.
    ///
    /// # Errors
    ///
    /// As [`Subgroup::new`], with 4 for a room outside 1 to 65,535, and 5 where it is not enough.
    pub fn new_with_room(over: &Product, generators: &[Element], room: u32) -> Result<Self, Refusal> {
        let listed: Vec<u32> = generators.iter().map(|e| e.0).collect();
        let count = generators.len().min(255) as u8;
        Self::built(over, count, room, |from, handles, lent| raw::subgroup(from, handles, &listed, lent, 0, room))
    }

    /// The subgroup that the elements generate of which a predicate is true: exactly these, where they are a subgroup.
    ///
    /// Its generators are chosen in the order of the elements, each one that is not yet reached.
    ///
    /// # Errors
    ///
    /// 15 if the overgroup has more than 65,535 elements or a ninth generator is needed, and 6 where a word would pass 4,096 generators.
    ///
    /// ```
    /// use hypergroup::{Element, Factor, Generator, Product, Subgroup};
    /// let s3 = Product::from(&Factor::from_orders(2, &[3], 6)?);
    /// let turns = Subgroup::from_predicate(&s3, |e| s3.word_length(e).unwrap() % 2 == 0)?;
    /// assert_eq!((turns.element_count(), turns.generator(Generator(0))?), (3, Element(3)));
    /// # Ok::<(), hypergroup::Refusal>(())
    /// ```
    pub fn from_predicate(over: &Product, member: impl FnMut(Element) -> bool) -> Result<Self, Refusal> {
        Self::from_predicate_with_room(over, member, largest(over))
    }

    /// The same in no more than so much room, 1 to 65,535, so that it takes no more memory.
    ///
    /// # Errors
    ///
    /// As [`Subgroup::from_predicate`], with 4 for a room outside 1 to 65,535, and 5 where it is not enough.
    pub fn from_predicate_with_room(over: &Product, mut member: impl FnMut(Element) -> bool, room: u32) -> Result<Self, Refusal> {
        // An overgroup or a room that is to be refused has nothing asked.
        let right = over.element_count() <= 65_535 && (1..=65_535).contains(&room);
        let members: Vec<u8> = over.elements().take_while(|_| right).map(|e| member(e).into()).collect();
        Self::built(over, 8, room, |from, handles, lent| raw::subgroup_predicate(from, handles, &members, lent, 0, room))
    }

    /// Lends buffers for so many generators, and calls.
    fn built(
        over: &Product,
        generators: u8,
        room: u32,
        call: impl FnOnce(&[u32], &Handles, SubgroupBuffers<'_>) -> Result<Handle, Refusal>,
    ) -> Result<Self, Refusal> {
        let (from, handles) = over.asked();
        // An overgroup that is too large is refused before the buffers are looked at.
        let fits = over.element_count() <= 65_535;
        let (mut table, mut work) = if fits { raw::lent(generators, room) } else { (vec![], vec![]) };
        let (mapped, kept) = if fits { (over.element_count(), room.min(65_535)) } else { (0, 0) };
        let (mut inward, mut outward) = (vec![0; mapped as usize], vec![0; kept as usize]);
        let lent = SubgroupBuffers { table: &mut table, work: &mut work, inward: &mut inward, outward: &mut outward };
        let said = if fits { Said::Ninth } else { Said::Overgroup };
        let handle = call(from, handles, lent).map_err(|no| no.said(4, Said::Room).said(15, said))?;
        // As the factor is cut to its elements, so is the map from it, which has a place for each of its room.
        let outward = &outward[..handle.elements as usize];
        Self::of(over.clone(), 0..over.factor_count(), Factor::unnamed(&table, handle), inward.into(), outward.into())
    }

    fn of(whole: Product, within: Range<usize>, factor: Factor, inward: Arc<[u32]>, outward: Arc<[u32]>) -> Result<Self, Refusal> {
        let handles: Vec<Handle> = whole.parts().map(|(_, handle, _)| handle).collect();
        let sides = sides(&factor, &handles, &within);
        let generators = raw::subgroup_generators(whole.asked().0, factor.table(), &sides)? as u8;
        let beside = handles[..within.start].iter().chain(&handles[within.end..]);
        let elements = beside.map(|h| h.elements).product::<u32>() * factor.element_count();
        Ok(Subgroup { whole, within, factor, inward, outward, sides, elements, generators })
    }

    /// The factor that the generators made, with its own numbers and no name. What is multiplied on is no part of it.
    #[must_use]
    pub fn factor(&self) -> &Factor {
        &self.factor
    }

    /// How many elements the subgroup has, with what is multiplied on.
    #[must_use]
    pub fn element_count(&self) -> u32 {
        self.elements
    }

    /// All elements of the subgroup, with what is multiplied on, the identity first.
    pub fn elements(&self) -> impl DoubleEndedIterator<Item = Element> + use<> {
        (0..self.elements).map(Element)
    }

    /// How many elements the overgroup has, with what is multiplied on.
    #[must_use]
    pub fn overgroup_count(&self) -> u32 {
        self.whole.element_count()
    }

    /// How many generators the subgroup has, with what is multiplied on.
    #[must_use]
    pub fn generator_count(&self) -> u8 {
        self.generators
    }

    /// All generators of the subgroup, with what is multiplied on; [`Self::generator`] has each as an element of the overgroup.
    pub fn generators(&self) -> impl ExactSizeIterator<Item = Generator> + DoubleEndedIterator + use<> {
        (0..self.generators).map(Generator)
    }

    /// The group that this is a subgroup of, with what is multiplied on; its factors have their names.
    #[must_use]
    pub fn overgroup(&self) -> &Product {
        &self.whole
    }

    /// The element of the overgroup that an element of the subgroup is.
    ///
    /// # Errors
    ///
    /// 14 where the subgroup has no such element.
    #[inline]
    pub fn to_overgroup(&self, e: Element) -> Result<Element, Refusal> {
        raw::subgroup_over(self.from(), self.factor.table(), &self.sides, &self.outward, e.0).map(Element)
    }

    /// The element of the subgroup that an element of the overgroup is, if it is in it.
    ///
    /// # Errors
    ///
    /// 14 where the overgroup has no such element.
    #[inline]
    pub fn to_subgroup(&self, x: Element) -> Result<Option<Element>, Refusal> {
        let e = raw::subgroup_back(self.from(), self.factor.table(), &self.sides, &self.inward, x.0)?;
        Ok((e != u32::MAX).then_some(Element(e)))
    }

    /// The element of the overgroup that a generator of the subgroup is.
    ///
    /// # Errors
    ///
    /// 14 where the subgroup has no such generator.
    #[inline]
    pub fn generator(&self, g: Generator) -> Result<Element, Refusal> {
        raw::subgroup_generator(self.from(), self.factor.table(), &self.sides, &self.outward, g.0).map(Element)
    }

    /// The same subgroup in a product with more factors, all of which it has: these are the faster digits on both sides.
    ///
    /// # Errors
    ///
    /// 15 for more than 8 factors, or more than 4,294,967,295 elements.
    pub fn multiplied_left(&self, factors: &Product) -> Result<Self, Refusal> {
        let all = Gathered::new(factors.parts().chain(self.whole.parts()));
        let sides = sides(&self.factor, &all.factors[factors.factor_count()..], &self.within);
        let more = all.factors[..factors.factor_count()].iter().copied().collect();
        raw::subgroup_left(&all.table, self.factor.table(), &more, &sides).map_err(|no| too_large(no, &all.factors))?;
        let within = self.within.start + factors.factor_count()..self.within.end + factors.factor_count();
        self.between(all, within)
    }

    /// The same with the slower digits.
    ///
    /// # Errors
    ///
    /// 15 for more than 8 factors, or more than 4,294,967,295 elements.
    pub fn multiplied_right(&self, factors: &Product) -> Result<Self, Refusal> {
        let all = Gathered::new(self.whole.parts().chain(factors.parts()));
        let sides = sides(&self.factor, &all.factors[..self.whole.factor_count()], &self.within);
        let more = all.factors[self.whole.factor_count()..].iter().copied().collect();
        raw::subgroup_right(&all.table, self.factor.table(), &sides, &more).map_err(|no| too_large(no, &all.factors))?;
        self.between(all, self.within.clone())
    }

    /// The table buffer of the overgroup.
    #[inline]
    fn from(&self) -> &[u32] {
        self.whole.asked().0
    }

    fn between(&self, whole: Gathered, within: Range<usize>) -> Result<Self, Refusal> {
        Self::of(Product::of(whole)?, within, self.factor.clone(), self.inward.clone(), self.outward.clone())
    }
}

/// The numbers of a subgroup with this factor, in an overgroup with these factors, of which some are those that its maps speak of.
fn sides(factor: &Factor, whole: &[Handle], within: &Range<usize>) -> Sides {
    let listed = |side: &[Handle]| side.iter().copied().collect::<Handles>();
    Sides::new(factor.handle(), &listed(&whole[..within.start]), &listed(&whole[within.clone()]), &listed(&whole[within.end..]))
}

/// The most elements that a subgroup can have.
fn largest(over: &Product) -> u32 {
    over.element_count().min(65_535)
}

fn too_large(no: Refusal, factors: &[Handle]) -> Refusal {
    no.said(Refusal::TOO_LARGE, if factors.len() > 8 { Said::Factors } else { Said::Elements })
}
