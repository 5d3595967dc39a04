use crate::ffi::{letters, numbers, numbers_mut};
use crate::lists::{alone, gathered};
use crate::raw::{self, Handle, Name};
use crate::refusal::Said;
use crate::{Element, Generator, Image, ListRefusal, Naming, Refusal};
use alloc::sync::Arc;
use alloc::{vec, vec::Vec};

/// A group given by its table: what each generator does to each element.
///
/// Elements are numbered from the identity, 0, in the order in which reading the table row by row meets them; the identity's row is
/// 1 to n. A factor owns its table, so that nothing can alter it; the table has the rows of its elements and no more, however much room
/// it was built in. Its clones share that table, and so do products of it alone. A product with other factors has a table of its own
/// with a copy of each distinct factor, and the factors that it hands out share that one.
///
/// A factor has a name of 0 to 32 bytes, any bytes, which [`Factor::named`] gives it when it is made. No question looks at it.
///
/// ```
/// use hypergroup::{Element, Factor, Generator};
///
/// // The symmetries of a triangle, from its table of composed numbers: a row for each element, a column for each generator.
/// let s3 = Factor::from_rows(2, &[1, 2, 0, 3, 4, 0, 5, 1, 2, 5, 3, 4])?;
/// assert_eq!(s3.compose(Element(1), Element(3))?, Element(2));
/// assert_eq!(s3.compose(Element(3), Element(1))?, Element(5));
/// assert_eq!(s3.conjugate(Element(1), Element(2))?, Element(5));
/// assert_eq!(s3.word(Element(5))?, [Generator(0), Generator(1), Generator(0)]);
/// // The same from the order of the product of its two generators.
/// assert_eq!(s3, Factor::from_orders(2, &[3], 6)?);
/// # Ok::<(), hypergroup::Refusal>(())
/// ```
#[derive(Clone)]
pub struct Factor {
    table: Arc<[u32]>,
    handle: Handle,
    name: Name,
}

impl Factor {
    /// What a factor with this name is made by: [`from_orders`](Naming::from_orders), [`from_rows`](Naming::from_rows),
    /// [`from_compose_fn`](Naming::from_compose_fn) and [`builder`](Naming::builder), as below; what is made without has the empty name.
    ///
    /// ```
    /// use hypergroup::Factor;
    /// let s3 = Factor::named("S3").from_orders(2, &[3], 6)?;
    /// assert_eq!(s3.name(), b"S3");
    /// // It is the group that it would be without a name.
    /// assert_eq!(s3, Factor::from_orders(2, &[3], 6)?);
    /// # Ok::<(), hypergroup::Refusal>(())
    /// ```
    pub fn named(name: &(impl AsRef<[u8]> + ?Sized)) -> Naming<'_> {
        Naming::new(name.as_ref())
    }

    /// The group with `generators` generators, each its own inverse, in which the product of each pair of them has the order listed.
    ///
    /// `orders` has one number for each pair, in the order (0,1), (0,2), (1,2), (0,3) and so on. An enumeration takes at most `room`
    /// elements, from 1 to 65,535. While it runs it has a table and work for that many, and keeps what the elements need.
    ///
    /// # Errors
    ///
    /// 1 for more than 8 generators, 2 for a list that does not have one order for each pair, 3 for an order outside 2 to 32,767, 4 for
    /// a room outside 1 to 65,535, 5 where the group has more elements than the room, and 6 where one of them has no word of at most
    /// 4,096 generators. With right arguments there is no other reason.
    ///
    /// ```
    /// use hypergroup::Factor;
    /// let cube = Factor::from_orders(3, &[4, 2, 3], 1000)?;
    /// assert_eq!(cube.element_count(), 48);
    /// assert_eq!(Factor::from_orders(3, &[4, 2, 3], 47).unwrap_err().number, 5);
    /// # Ok::<(), hypergroup::Refusal>(())
    /// ```
    pub fn from_orders(generators: u8, orders: &[u32], room: u32) -> Result<Self, Refusal> {
        Naming::NONE.from_orders(generators, orders, room)
    }

    /// The group whose right steps are listed: the number that each element, composed with each generator, comes to, by element and
    /// then generator.
    ///
    /// Rows that are never reached are not read, so that there may be too many. With no generators no row has a number, the group has
    /// one element, and nothing of the list is read.
    ///
    /// # Errors
    ///
    /// 1 for more than 8 generators; 4 where there are no rows, or the last does not have a number for each generator; 5 where a row
    /// is missing, or a 65,536th element is needed; 6, where a word would pass 4,096 generators; 7, where elements are not numbered in the order in which they appear; 8
    /// to 12 where no group has these steps, or the identity's row is not 1 to n.
    ///
    /// ```
    /// use hypergroup::{Element, Factor};
    /// let z3 = Factor::from_rows(1, &[1, 2, 0])?;
    /// assert_eq!(z3.inverse(Element(1))?, Element(2));
    /// assert_eq!(Factor::from_rows(1, &[0]).unwrap_err().number, 9);
    /// # Ok::<(), hypergroup::Refusal>(())
    /// ```
    pub fn from_rows(generators: u8, rows: &[u32]) -> Result<Self, Refusal> {
        Naming::NONE.from_rows(generators, rows)
    }

    /// The group whose right steps a function tells: the element that an element, composed with a generator, comes to.
    ///
    /// It is asked by element and then generator, as long as it answers with an element that has appeared or with the next one: for
    /// no element that nothing leads to, and no more once its answers are to be refused. At most `room` elements are taken, from 1 to
    /// 65,535; memory is used for those that appear.
    ///
    /// # Errors
    ///
    /// As [`Factor::from_rows`], but for the room: 4 where it is outside 1 to 65,535, and 5 where it is not enough.
    ///
    /// ```
    /// use hypergroup::Factor;
    /// // The numbers modulo 12, by adding 3 and 4. Elements are numbered as they appear.
    /// let mut values = vec![0];
    /// let clock = Factor::from_compose_fn(
    ///     2,
    ///     |e, g| {
    ///         let value = (values[e.0 as usize] + [3, 4][usize::from(g.0)]) % 12;
    ///         let known = values.iter().position(|&v| v == value).unwrap_or(values.len());
    ///         if known == values.len() {
    ///             values.push(value);
    ///         }
    ///         hypergroup::Element(known as u32)
    ///     },
    ///     100,
    /// )?;
    /// assert_eq!(clock.element_count(), 12);
    /// # Ok::<(), hypergroup::Refusal>(())
    /// ```
    pub fn from_compose_fn(generators: u8, compose: impl FnMut(Element, Generator) -> Element, room: u32) -> Result<Self, Refusal> {
        Naming::NONE.from_compose_fn(generators, compose, room)
    }

    /// Keeps of a table that was just built the rows of its elements, with as much room.
    ///
    /// It is the same factor. A row stands where its element's number says, whatever the room is, and a handle fits with as much room
    /// as it has elements (`fitsIn` and `stretch`, crates/egg/specs/Factor.antt); what an accepted factor is speaks of the rows of its
    /// elements alone (`Accepted`, crates/factor_laws/specs/Accepted.antt). And it is what the same call gives with that room: "more
    /// room never changes an accepted table" (`composed-roomier`, `enumeration-roomier` and so on, docs/promises).
    pub(crate) fn new(table: &[u32], handle: Handle, name: Name) -> Self {
        let rows = raw::table_need(handle.generators, handle.elements);
        let table = table[handle.start..handle.start + rows].into();
        Factor { table, handle: Handle { start: 0, room: handle.elements, ..handle }, name }
    }

    /// The same with no name.
    pub(crate) fn unnamed(table: &[u32], handle: Handle) -> Self {
        Self::new(table, handle, Name::default())
    }

    /// A factor that stands in a table buffer with others. Its handle and its name have come from an accepted one.
    pub(crate) fn within(table: Arc<[u32]>, handle: Handle, name: Name) -> Self {
        Factor { table, handle, name }
    }

    /// Its name: the bytes that it was made with, none where it was made without, read from an image, or is a flattened product or a
    /// subgroup's.
    #[must_use]
    pub fn name(&self) -> &[u8] {
        self.name.as_bytes()
    }

    /// How many elements the group has.
    #[must_use]
    pub fn element_count(&self) -> u32 {
        self.handle.elements
    }

    /// How many generators it has.
    #[must_use]
    pub fn generator_count(&self) -> u8 {
        self.handle.generators
    }

    /// All elements, the identity first.
    pub fn elements(&self) -> impl ExactSizeIterator<Item = Element> + DoubleEndedIterator + use<> {
        (0..self.handle.elements).map(Element)
    }

    /// All generators.
    pub fn generators(&self) -> impl ExactSizeIterator<Item = Generator> + DoubleEndedIterator + use<> {
        (0..self.handle.generators).map(Generator)
    }

    /// Each element with its recorded word, which is a shortest one.
    ///
    /// ```
    /// use hypergroup::Factor;
    /// let square = Factor::from_orders(2, &[4], 8)?;
    /// let longest = square.words().map(|(_, word)| word.len()).max();
    /// assert_eq!(longest, Some(4));
    /// # Ok::<(), hypergroup::Refusal>(())
    /// ```
    pub fn words(&self) -> impl Iterator<Item = (Element, Vec<Generator>)> {
        self.elements().map(|e| (e, self.word(e).expect("an accepted factor has a word for each of its elements")))
    }

    /// The element that a generator is.
    ///
    /// # Errors
    ///
    /// 14 where there is no such generator.
    #[inline]
    pub fn generator(&self, g: Generator) -> Result<Element, Refusal> {
        raw::generator(&self.table, self.handle, g.0).map(Element)
    }

    /// Where one turn leads from an element.
    ///
    /// # Errors
    ///
    /// 14 where there is no such element (position 0) or generator (position 1).
    #[inline]
    pub fn step(&self, e: Element, g: Generator) -> Result<Element, Refusal> {
        raw::step(&self.table, self.handle, e.0, g.0).map(Element)
    }

    /// Where turns lead, one after the other, from an element; with no turns, the element itself.
    ///
    /// ```
    /// use hypergroup::{Element, Factor, Generator};
    /// let s3 = Factor::from_orders(2, &[3], 6)?;
    /// assert_eq!(s3.walk(Element::IDENTITY, &[Generator(0), Generator(1), Generator(0)])?, Element(5));
    /// let refusal = s3.walk(Element::IDENTITY, &[Generator(0), Generator(1), Generator(2)]).unwrap_err();
    /// assert_eq!((refusal.number, refusal.places), (14, [3, 0, 0])); // the third turn, behind the element
    /// # Ok::<(), hypergroup::Refusal>(())
    /// ```
    ///
    /// # Errors
    ///
    /// 14 if the element or a turn is none of this puzzle's: its position, from 0, the element's first.
    #[inline]
    pub fn walk(&self, from: Element, turns: &[Generator]) -> Result<Element, Refusal> {
        raw::walk(&self.table, self.handle, from.0, letters(turns)).map(Element)
    }

    /// a·b: first the turns of `a`, then those of `b`.
    ///
    /// # Errors
    ///
    /// 14 where there is no such element: position 0 for `a`, 1 for `b`.
    #[inline]
    pub fn compose(&self, a: Element, b: Element) -> Result<Element, Refusal> {
        raw::compose(&self.table, self.handle, a.0, b.0).map(Element)
    }

    /// The element that undoes `a`.
    ///
    /// # Errors
    ///
    /// 14 where there is no such element.
    #[inline]
    pub fn inverse(&self, a: Element) -> Result<Element, Refusal> {
        raw::inverse(&self.table, self.handle, a.0).map(Element)
    }

    /// a·b·a⁻¹.
    ///
    /// # Errors
    ///
    /// 14 where there is no such element: position 0 for `a`, 1 for `b`.
    #[inline]
    pub fn conjugate(&self, a: Element, b: Element) -> Result<Element, Refusal> {
        raw::conjugate(&self.table, self.handle, a.0, b.0).map(Element)
    }

    /// The power of an element, for any exponent.
    ///
    /// # Errors
    ///
    /// 14 where there is no such element.
    ///
    /// ```
    /// use hypergroup::{Element, Factor};
    /// let s3 = Factor::from_orders(2, &[3], 6)?;
    /// assert_eq!(s3.powi(Element(3), -1)?, Element(4));
    /// assert_eq!(s3.powi(Element(3), i32::MIN)?, Element(3));
    /// # Ok::<(), hypergroup::Refusal>(())
    /// ```
    #[inline]
    pub fn powi(&self, a: Element, exponent: i32) -> Result<Element, Refusal> {
        raw::powi(&self.table, self.handle, a.0, exponent).map(Element)
    }

    /// The least power, from 1 on, of an element that is the identity.
    ///
    /// # Errors
    ///
    /// 14 where there is no such element.
    #[inline]
    pub fn period(&self, a: Element) -> Result<u32, Refusal> {
        raw::period(&self.table, self.handle, a.0)
    }

    /// a·b at each place of two lists, as [`compose`](Factor::compose) has it there: one call for all viewers of a page.
    ///
    /// # Errors
    ///
    /// 4, with no place, where the lists differ in length or have more than 4,096 places; then 14 at the first place where there is no such
    /// element, with the position 0 for `a` and 1 for `b`.
    ///
    /// ```
    /// use hypergroup::{Element, Factor};
    /// let s3 = Factor::from_orders(2, &[3], 6)?;
    /// let (a, b) = ([1, 3, 0].map(Element), [3, 1, 5].map(Element));
    /// assert_eq!(s3.compose_each(&a, &b)?, [2, 5, 5].map(Element));
    /// // Longer lists are asked for in parts.
    /// let (shown, missed) = (vec![Element(3); 10_000], vec![Element(1); 10_000]);
    /// let mut wall = vec![Element::IDENTITY; 10_000];
    /// for ((a, b), out) in shown.chunks(4096).zip(missed.chunks(4096)).zip(wall.chunks_mut(4096)) {
    ///     s3.compose_each_into(a, b, out)?;
    /// }
    /// assert_eq!(wall, vec![Element(5); 10_000]);
    /// # Ok::<(), hypergroup::Refusal>(())
    /// ```
    pub fn compose_each(&self, a: &[Element], b: &[Element]) -> Result<Vec<Element>, ListRefusal> {
        gathered(a.len(), |out| self.compose_each_into(a, b, out))
    }

    /// The same into a lent list, which is as long as the others. Where it is refused the list is as it was.
    ///
    /// # Errors
    ///
    /// As [`compose_each`](Factor::compose_each).
    #[inline]
    pub fn compose_each_into(&self, a: &[Element], b: &[Element], out: &mut [Element]) -> Result<(), ListRefusal> {
        if let ([a], [b], [out]) = (a, b, &mut *out) {
            return alone(self.compose(*a, *b), out);
        }
        raw::compose_each(&self.table, self.handle, numbers(a), numbers(b), numbers_mut(out))
    }

    /// The inverse of the element at each place.
    ///
    /// # Errors
    ///
    /// 4, with no place, where the list has more than 4,096 places; then 14 at the first place where there is no such element.
    ///
    /// ```
    /// use hypergroup::{Element, Factor};
    /// let s3 = Factor::from_orders(2, &[3], 6)?;
    /// assert_eq!(s3.inverse_each(&[0, 3, 4, 5].map(Element))?, [0, 4, 3, 5].map(Element));
    /// # Ok::<(), hypergroup::Refusal>(())
    /// ```
    pub fn inverse_each(&self, a: &[Element]) -> Result<Vec<Element>, ListRefusal> {
        gathered(a.len(), |out| self.inverse_each_into(a, out))
    }

    /// The same into a lent list, which is as long. Where it is refused the list is as it was.
    ///
    /// # Errors
    ///
    /// As [`inverse_each`](Factor::inverse_each), with 4 also where the lists differ in length.
    #[inline]
    pub fn inverse_each_into(&self, a: &[Element], out: &mut [Element]) -> Result<(), ListRefusal> {
        if let ([a], [out]) = (a, &mut *out) {
            return alone(self.inverse(*a), out);
        }
        raw::inverse_each(&self.table, self.handle, numbers(a), numbers_mut(out))
    }

    /// The power of the element at each place by the exponent there, for any exponents.
    ///
    /// # Errors
    ///
    /// 4, with no place, where the lists differ in length or have more than 4,096 places; then 14 at the first place where there is no such
    /// element.
    ///
    /// ```
    /// use hypergroup::{Element, Factor};
    /// let s3 = Factor::from_orders(2, &[3], 6)?;
    /// assert_eq!(s3.powi_each(&[Element(3); 4], &[-1, 0, 2, i32::MIN])?, [4, 0, 4, 3].map(Element));
    /// # Ok::<(), hypergroup::Refusal>(())
    /// ```
    pub fn powi_each(&self, a: &[Element], exponents: &[i32]) -> Result<Vec<Element>, ListRefusal> {
        gathered(a.len(), |out| self.powi_each_into(a, exponents, out))
    }

    /// The same into a lent list, which is as long as the others. Where it is refused the list is as it was.
    ///
    /// # Errors
    ///
    /// As [`powi_each`](Factor::powi_each).
    #[inline]
    pub fn powi_each_into(&self, a: &[Element], exponents: &[i32], out: &mut [Element]) -> Result<(), ListRefusal> {
        if let ([a], [i], [out]) = (a, exponents, &mut *out) {
            return alone(self.powi(*a, *i), out);
        }
        raw::powi_each(&self.table, self.handle, numbers(a), exponents, numbers_mut(out))
    }

    /// How long the recorded word of an element is.
    ///
    /// # Errors
    ///
    /// 14 where there is no such element.
    #[inline]
    pub fn word_length(&self, e: Element) -> Result<u32, Refusal> {
        raw::length(&self.table, self.handle, e.0)
    }

    /// The recorded word of an element: turns that lead to it from the identity, as few as there can be.
    ///
    /// # Errors
    ///
    /// 14 where there is no such element.
    pub fn word(&self, e: Element) -> Result<Vec<Generator>, Refusal> {
        let mut letters = vec![0; self.word_length(e)? as usize];
        raw::word(&self.table, self.handle, e.0, &mut letters)?;
        Ok(letters.into_iter().map(Generator).collect())
    }

    /// Checks that the relations of these pair orders hold in this group, and that each generator is its own inverse.
    ///
    /// # Errors
    ///
    /// 2 for a list that does not have one order for each pair, 3 for an order outside 2 to 32,767, and 13 for the first relation that
    /// fails.
    ///
    /// ```
    /// use hypergroup::Factor;
    /// let z3 = Factor::from_rows(1, &[1, 2, 0])?;
    /// let refusal = z3.check(&[]).unwrap_err();
    /// assert_eq!((refusal.number, refusal.places), (13, [0, 0, 0])); // its generator is not its own inverse
    /// # Ok::<(), hypergroup::Refusal>(())
    /// ```
    pub fn check(&self, orders: &[u32]) -> Result<(), Refusal> {
        raw::check(&self.table, self.handle, orders)
    }

    /// The bytes that store this table. [`Image::check`] takes them back.
    ///
    /// # Errors
    ///
    /// None that is known: a factor fits its own table, and the bytes are as many as it needs.
    pub fn to_image(&self) -> Result<Vec<u8>, Refusal> {
        let size = 8 + 2 * usize::from(self.handle.generators) * self.handle.elements as usize;
        let mut bytes = vec![0; size];
        raw::image_write(&self.table, self.handle, &mut bytes)?;
        Ok(bytes)
    }

    /// The factor that an image stores; refused as [`Image::check`] refuses it, with the places of what is wrong.
    ///
    /// # Errors
    ///
    /// Those of [`Image::check`].
    ///
    /// ```
    /// use hypergroup::Factor;
    /// let z2 = Factor::from_image(&[0, 0, 0, 8, 1, 1, 0, 2, 0, 1, 0, 0])?;
    /// assert_eq!(z2.element_count(), 2);
    /// # Ok::<(), hypergroup::Refusal>(())
    /// ```
    pub fn from_image(bytes: &[u8]) -> Result<Self, Refusal> {
        // What the head alone excludes is refused before any buffer is made.
        raw::image_need(bytes)?;
        let (n, count) = Image::head(bytes);
        let (mut table, mut work) = raw::lent(n, count);
        let handle = raw::image_read(bytes, &mut table, 0, &mut work).map_err(|no| no.said(5, Said::Image))?;
        Ok(Factor::unnamed(&table, handle))
    }

    /// The table buffer that this factor stands in.
    pub(crate) fn table(&self) -> &Arc<[u32]> {
        &self.table
    }

    /// Where it stands there.
    pub(crate) fn handle(&self) -> Handle {
        self.handle
    }

    /// Its name as it is kept.
    pub(crate) fn kept_name(&self) -> Name {
        self.name
    }

    /// The rows of its elements.
    fn rows(&self) -> &[u32] {
        let start = self.handle.start;
        &self.table[start..start + raw::table_need(self.handle.generators, self.handle.elements)]
    }
}

/// Two factors are equal where their rows are: as many generators and elements, the same steps, and so the same words and inverses. Their
/// names are not looked at: two factors that differ in name alone are one group, and answer every question alike.
impl PartialEq for Factor {
    fn eq(&self, other: &Self) -> bool {
        let (a, b) = (self.handle, other.handle);
        (a.generators, a.elements) == (b.generators, b.elements) && self.rows() == other.rows()
    }
}

impl Eq for Factor {}
