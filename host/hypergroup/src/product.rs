use crate::ffi::{letters, numbers, numbers_mut};
use crate::lists::{alone, gathered};
use crate::raw::{self, Handle, Handles, Name};
use crate::refusal::Said;
use crate::{Element, Factor, Generator, ListRefusal, Refusal};
use alloc::sync::Arc;
use alloc::{vec, vec::Vec};
use core::ops::Mul;

/// The direct product of up to eight factors.
///
/// An element is a number with a digit for each factor, the first factor's the fastest; generators are the factors' one after the other.
/// Its name is the factors' names, joined.
///
/// ```
/// use hypergroup::{Element, Factor, Generator, Product};
///
/// let s3 = Factor::from_orders(2, &[3], 6)?;
/// let z2 = Factor::from_rows(1, &[1, 0])?;
/// let both = Product::new([&s3, &z2])?;
/// assert_eq!(both.element_count(), 12);
/// assert_eq!(both.split(Element(9))?, [Element(3), Element(1)]);
/// assert_eq!(both.word(Element(9))?, [Generator(0), Generator(1), Generator(2)]);
/// assert_eq!(both.compose(Element(9), Element(7))?, Element(5));
/// assert_eq!(both.inverse(Element(9))?, Element(10));
/// assert_eq!(both.period(Element(9))?, 6);
///
/// // A product of products has the factors of all of them.
/// let four = (&both * &both)?;
/// assert_eq!((four.factor_count(), four.element_count()), (4, 144));
/// # Ok::<(), hypergroup::Refusal>(())
/// ```
#[derive(Clone)]
pub struct Product {
    table: Arc<[u32]>,
    factors: Vec<Handle>,
    handles: Handles,
    /// Beside the handles, by which everything but the joined name is asked.
    names: Vec<Name>,
    elements: u32,
    generators: u8,
}

impl Product {
    /// The product of these factors, the fastest digit first; of none, the group of one element.
    ///
    /// A factor that is there more than once is kept once, and where all stand in one table, as the clones of a factor do and the
    /// factors of a product, that table is shared.
    ///
    /// # Errors
    ///
    /// 15 for more than 8 factors, or more than 4,294,967,295 elements.
    pub fn new<'a>(factors: impl IntoIterator<Item = &'a Factor>) -> Result<Self, Refusal> {
        // Nine are as many too many as any more.
        Self::of(Gathered::new(factors.into_iter().take(9).map(|f| (f.table(), f.handle(), f.kept_name()))))
    }

    /// The product of these products: of all their factors, one after the other.
    ///
    /// # Errors
    ///
    /// 15 for more than 8 factors, or more than 4,294,967,295 elements.
    ///
    /// ```
    /// use hypergroup::{Factor, Product};
    /// let z2 = Product::from(&Factor::from_rows(1, &[1, 0])?);
    /// let (two, four) = (Product::product([&z2, &z2])?, Product::product([&z2, &z2, &z2, &z2])?);
    /// assert_eq!((&two * &two)?.element_count(), four.element_count());
    /// # Ok::<(), hypergroup::Refusal>(())
    /// ```
    #[allow(clippy::self_named_constructors)] // It is the original's name.
    pub fn product<'a>(products: impl IntoIterator<Item = &'a Product>) -> Result<Self, Refusal> {
        Self::of(Gathered::new(products.into_iter().flat_map(Self::parts).take(9)))
    }

    /// The product of factors that stand in one table buffer.
    pub(crate) fn of(Gathered { table, factors, names }: Gathered) -> Result<Self, Refusal> {
        let handles: Handles = factors.iter().copied().collect();
        let said = if factors.len() > 8 { Said::Factors } else { Said::Elements };
        let elements = raw::product_count(&table, &handles).map_err(|no| no.said(15, said))?;
        let generators = raw::product_generators(&table, &handles)? as u8;
        Ok(Product { table, factors, handles, names, elements, generators })
    }

    /// The table buffer, and the list of the factors in it.
    pub(crate) fn asked(&self) -> (&Arc<[u32]>, &Handles) {
        (&self.table, &self.handles)
    }

    /// The handles of the factors, each with the table buffer and the name.
    pub(crate) fn parts(&self) -> impl Iterator<Item = (&Arc<[u32]>, Handle, Name)> + Clone {
        self.factors.iter().zip(&self.names).map(|(&h, &name)| (&self.table, h, name))
    }

    /// Its factors, the fastest digit first. They share its table.
    ///
    /// ```
    /// use hypergroup::{Factor, Product};
    /// let (s3, z2) = (Factor::from_orders(2, &[3], 6)?, Factor::from_rows(1, &[1, 0])?);
    /// let both = Product::new([&s3, &z2])?;
    /// assert!(both.factors().eq([s3, z2]));
    /// # Ok::<(), hypergroup::Refusal>(())
    /// ```
    #[must_use]
    pub fn factors(&self) -> impl ExactSizeIterator<Item = Factor> + DoubleEndedIterator {
        self.factors.iter().zip(&self.names).map(|(&h, &name)| Factor::within(self.table.clone(), h, name))
    }

    /// The names of its factors in their order, with " x " between each two, an empty one too; of no factors, no byte.
    ///
    /// ```
    /// use hypergroup::{Factor, Product};
    /// let s3 = Factor::named("S3").from_orders(2, &[3], 6)?;
    /// let plain = Factor::from_orders(1, &[], 2)?;
    /// assert_eq!(Product::new([&s3, &plain, &s3])?.name(), b"S3 x  x S3");
    /// assert_eq!(Product::default().name(), b"");
    /// # Ok::<(), hypergroup::Refusal>(())
    /// ```
    #[must_use]
    pub fn name(&self) -> Vec<u8> {
        let mut out = [0; raw::LONGEST_JOINED];
        let length = self.write_name(&mut out).expect("the longest joined name has room in this buffer");
        out[..length].to_vec()
    }

    /// Writes the same to the start of a buffer; how many bytes it is. What is behind it stays.
    ///
    /// # Errors
    ///
    /// 18 where the buffer is shorter than the joined name, of which it has then no byte.
    ///
    /// ```
    /// use hypergroup::{Factor, Product, Refusal};
    /// let z2 = Factor::named("Z2").from_orders(1, &[], 2)?;
    /// let mut caption = *b"........";
    /// assert_eq!((&z2 * &z2)?.write_name(&mut caption), Ok(7));
    /// assert_eq!(&caption, b"Z2 x Z2.");
    /// assert_eq!((&z2 * &z2)?.write_name(&mut caption[..6]).unwrap_err().number, Refusal::NAME_TOO_LONG);
    /// # Ok::<(), hypergroup::Refusal>(())
    /// ```
    pub fn write_name(&self, out: &mut [u8]) -> Result<usize, Refusal> {
        let length = raw::joined(&self.table, &self.handles, &self.names, out).map_err(|no| no.said(18, Said::Joined))?;
        Ok(length as usize)
    }

    /// How many elements the product has.
    #[must_use]
    pub fn element_count(&self) -> u32 {
        self.elements
    }

    /// How many generators it has: at most 64.
    #[must_use]
    pub fn generator_count(&self) -> u8 {
        self.generators
    }

    /// How many factors it has.
    #[must_use]
    pub fn factor_count(&self) -> usize {
        self.handles.count.into()
    }

    /// All elements, the identity first.
    pub fn elements(&self) -> impl DoubleEndedIterator<Item = Element> + use<> {
        (0..self.elements).map(Element)
    }

    /// All generators.
    pub fn generators(&self) -> impl ExactSizeIterator<Item = Generator> + DoubleEndedIterator + use<> {
        (0..self.generators).map(Generator)
    }

    /// Each element with its recorded word.
    pub fn words(&self) -> impl Iterator<Item = (Element, Vec<Generator>)> {
        self.elements().map(|e| (e, self.word(e).expect("a product of accepted factors has a word for each of its elements")))
    }

    /// The element that a generator is.
    ///
    /// # Errors
    ///
    /// 14 where there is no such generator.
    #[inline]
    pub fn generator(&self, g: Generator) -> Result<Element, Refusal> {
        raw::product_generator(&self.table, &self.handles, g.0).map(Element)
    }

    /// Where one turn leads from an element.
    ///
    /// # Errors
    ///
    /// 14 where there is no such element (position 0) or generator (position 1).
    #[inline]
    pub fn step(&self, e: Element, g: Generator) -> Result<Element, Refusal> {
        raw::product_step(&self.table, &self.handles, e.0, g.0).map(Element)
    }

    /// Where turns lead, one after the other, from an element; with no turns, the element itself.
    ///
    /// ```
    /// use hypergroup::{Element, Factor, Generator, Product};
    /// let s3 = Factor::from_orders(2, &[3], 6)?;
    /// let pair = Product::new([&s3, &Factor::from_orders(1, &[], 2)?])?;
    /// assert_eq!(pair.walk(Element::IDENTITY, &[Generator(0), Generator(2), Generator(1)])?, Element(9));
    /// let refusal = pair.walk(Element(12), &[]).unwrap_err();
    /// assert_eq!((refusal.number, refusal.places), (14, [0, 0, 0])); // there are 12 elements, 0 to 11
    /// # Ok::<(), hypergroup::Refusal>(())
    /// ```
    ///
    /// # Errors
    ///
    /// 14 if the element or a turn is none of this puzzle's: its position, from 0, the element's first.
    #[inline]
    pub fn walk(&self, from: Element, turns: &[Generator]) -> Result<Element, Refusal> {
        raw::product_walk(&self.table, &self.handles, from.0, letters(turns)).map(Element)
    }

    /// a·b: first the turns of `a`, then those of `b`.
    ///
    /// # Errors
    ///
    /// 14 where there is no such element: position 0 for `a`, 1 for `b`.
    #[inline]
    pub fn compose(&self, a: Element, b: Element) -> Result<Element, Refusal> {
        raw::product_compose(&self.table, &self.handles, a.0, b.0).map(Element)
    }

    /// The element that undoes `a`.
    ///
    /// # Errors
    ///
    /// 14 where there is no such element.
    #[inline]
    pub fn inverse(&self, a: Element) -> Result<Element, Refusal> {
        raw::product_inverse(&self.table, &self.handles, a.0).map(Element)
    }

    /// a·b·a⁻¹.
    ///
    /// # Errors
    ///
    /// 14 where there is no such element: position 0 for `a`, 1 for `b`.
    #[inline]
    pub fn conjugate(&self, a: Element, b: Element) -> Result<Element, Refusal> {
        raw::product_conjugate(&self.table, &self.handles, a.0, b.0).map(Element)
    }

    /// The power of an element, for any exponent.
    ///
    /// # Errors
    ///
    /// 14 where there is no such element.
    ///
    /// ```
    /// use hypergroup::{Element, Factor, Product};
    /// let s3 = Product::new([&Factor::from_orders(2, &[3], 6)?])?;
    /// assert_eq!(s3.powi(Element(3), -1)?, Element(4));
    /// assert_eq!(s3.powi(Element(3), i32::MIN)?, Element(3));
    /// # Ok::<(), hypergroup::Refusal>(())
    /// ```
    #[inline]
    pub fn powi(&self, a: Element, exponent: i32) -> Result<Element, Refusal> {
        raw::product_powi(&self.table, &self.handles, a.0, exponent).map(Element)
    }

    /// The least power, from 1 on, of an element that is the identity.
    ///
    /// # Errors
    ///
    /// 14 where there is no such element.
    #[inline]
    pub fn period(&self, a: Element) -> Result<u32, Refusal> {
        raw::product_period(&self.table, &self.handles, a.0)
    }

    /// a·b at each place of two lists, as [`compose`](Product::compose) has it there: one call for all viewers of a page.
    ///
    /// # Errors
    ///
    /// 4, with no place, where the lists differ in length or have more than 4,096 places; then 14 at the first place where there is no such
    /// element, with the position 0 for `a` and 1 for `b`.
    ///
    /// ```
    /// use hypergroup::{Element, Factor, Product};
    /// let s3 = Factor::from_orders(2, &[3], 6)?;
    /// let pair = Product::new([&s3, &s3])?;
    /// let (shown, missed) = ([7, 35, 0].map(Element), [3, 20, 6].map(Element));
    /// let wall = pair.compose_each(&shown, &missed)?;
    /// for i in 0..3 {
    ///     assert_eq!(wall[i], pair.compose(shown[i], missed[i])?);
    /// }
    /// # Ok::<(), hypergroup::Refusal>(())
    /// ```
    pub fn compose_each(&self, a: &[Element], b: &[Element]) -> Result<Vec<Element>, ListRefusal> {
        gathered(a.len(), |out| self.compose_each_into(a, b, out))
    }

    /// The same into a lent list, which is as long as the others. Where it is refused the list is as it was.
    ///
    /// # Errors
    ///
    /// As [`compose_each`](Product::compose_each).
    #[inline]
    pub fn compose_each_into(&self, a: &[Element], b: &[Element], out: &mut [Element]) -> Result<(), ListRefusal> {
        if let ([a], [b], [out]) = (a, b, &mut *out) {
            return alone(self.compose(*a, *b), out);
        }
        raw::product_compose_each(&self.table, &self.handles, numbers(a), numbers(b), numbers_mut(out))
    }

    /// The inverse of the element at each place.
    ///
    /// # Errors
    ///
    /// 4, with no place, where the list has more than 4,096 places; then 14 at the first place where there is no such element.
    ///
    /// ```
    /// use hypergroup::{Element, Factor, Product};
    /// let s3 = Factor::from_orders(2, &[3], 6)?;
    /// let pair = Product::new([&s3, &s3])?;
    /// assert_eq!(pair.inverse_each(&[3, 18].map(Element))?, [4, 24].map(Element));
    /// # Ok::<(), hypergroup::Refusal>(())
    /// ```
    pub fn inverse_each(&self, a: &[Element]) -> Result<Vec<Element>, ListRefusal> {
        gathered(a.len(), |out| self.inverse_each_into(a, out))
    }

    /// The same into a lent list, which is as long. Where it is refused the list is as it was.
    ///
    /// # Errors
    ///
    /// As [`inverse_each`](Product::inverse_each), with 4 also where the lists differ in length.
    #[inline]
    pub fn inverse_each_into(&self, a: &[Element], out: &mut [Element]) -> Result<(), ListRefusal> {
        if let ([a], [out]) = (a, &mut *out) {
            return alone(self.inverse(*a), out);
        }
        raw::product_inverse_each(&self.table, &self.handles, numbers(a), numbers_mut(out))
    }

    /// The power of the element at each place by the exponent there, for any exponents.
    ///
    /// # Errors
    ///
    /// 4, with no place, where the lists differ in length or have more than 4,096 places; then 14 at the first place where there is no such
    /// element.
    ///
    /// ```
    /// use hypergroup::{Element, Factor, Product};
    /// let s3 = Factor::from_orders(2, &[3], 6)?;
    /// let pair = Product::new([&s3, &s3])?;
    /// assert_eq!(pair.powi_each(&[3, 21, 21].map(Element), &[-1, 2, i32::MAX])?, [4, 28, 21].map(Element));
    /// # Ok::<(), hypergroup::Refusal>(())
    /// ```
    pub fn powi_each(&self, a: &[Element], exponents: &[i32]) -> Result<Vec<Element>, ListRefusal> {
        gathered(a.len(), |out| self.powi_each_into(a, exponents, out))
    }

    /// The same into a lent list, which is as long as the others. Where it is refused the list is as it was.
    ///
    /// # Errors
    ///
    /// As [`powi_each`](Product::powi_each).
    #[inline]
    pub fn powi_each_into(&self, a: &[Element], exponents: &[i32], out: &mut [Element]) -> Result<(), ListRefusal> {
        if let ([a], [i], [out]) = (a, exponents, &mut *out) {
            return alone(self.powi(*a, *i), out);
        }
        raw::product_powi_each(&self.table, &self.handles, numbers(a), exponents, numbers_mut(out))
    }

    /// The element of each factor that `e` is made of.
    ///
    /// # Errors
    ///
    /// 14 where there is no such element.
    pub fn split(&self, e: Element) -> Result<Vec<Element>, Refusal> {
        let mut digits = [0; 8];
        let count = raw::product_split(&self.table, &self.handles, e.0, &mut digits)?;
        Ok(digits[..count as usize].iter().map(|&d| Element(d)).collect())
    }

    /// The element that is made of these, one for each factor. Of a longer list the rest is not looked at.
    ///
    /// # Errors
    ///
    /// 14 where a factor has no such element, at its position in the list; then 4 for a list that is too short.
    pub fn join(&self, digits: &[Element]) -> Result<Element, Refusal> {
        let digits: Vec<u32> = digits.iter().map(|e| e.0).collect();
        raw::product_join(&self.table, &self.handles, &digits).map(Element).map_err(|no| no.said(4, Said::Digits))
    }

    /// The element of one factor that `e` has there.
    ///
    /// # Errors
    ///
    /// 14 where there is no such factor (position 0) or element (position 1).
    #[inline]
    pub fn project(&self, factor: u8, e: Element) -> Result<Element, Refusal> {
        raw::product_project(&self.table, &self.handles, factor, e.0).map(Element)
    }

    /// The element that is `x` in one factor and the identity in the others.
    ///
    /// # Errors
    ///
    /// 14 where there is no such factor (position 0), or the factor has no such element (position 1).
    #[inline]
    pub fn inject(&self, factor: u8, x: Element) -> Result<Element, Refusal> {
        raw::product_inject(&self.table, &self.handles, factor, x.0).map(Element)
    }

    /// How long the recorded word of an element is.
    ///
    /// # Errors
    ///
    /// 14 where there is no such element.
    #[inline]
    pub fn word_length(&self, e: Element) -> Result<u32, Refusal> {
        raw::product_length(&self.table, &self.handles, e.0)
    }

    /// The recorded word of an element: the words of its digits, one after the other.
    ///
    /// # Errors
    ///
    /// 14 where there is no such element.
    pub fn word(&self, e: Element) -> Result<Vec<Generator>, Refusal> {
        let mut letters = vec![0; self.word_length(e)? as usize];
        raw::product_word(&self.table, &self.handles, e.0, &mut letters)?;
        Ok(letters.into_iter().map(Generator).collect())
    }

    /// One factor that is this product, with the same numbers, where these follow the numbering rule. It has no name.
    ///
    /// # Errors
    ///
    /// 1 for more than 8 generators; 7 where the numbers do not follow the rule, as those of most products with two large factors do
    /// not; 5 for more than 65,535 elements; 6 where a word would pass 4,096 generators.
    ///
    /// ```
    /// use hypergroup::{Factor, Product};
    /// let z2 = Factor::from_rows(1, &[1, 0])?;
    /// let square = Product::new([&z2, &z2])?.flatten()?;
    /// assert_eq!(square, Factor::from_orders(2, &[2], 4)?);
    /// # Ok::<(), hypergroup::Refusal>(())
    /// ```
    pub fn flatten(&self) -> Result<Factor, Refusal> {
        self.flatten_with_room(self.elements.min(65_535)).map_err(|no| no.said(5, Said::Elements))
    }

    /// The same in no more than so much room, so that it takes no more memory: of a large product the numbers mostly skip ahead soon.
    ///
    /// # Errors
    ///
    /// As [`Product::flatten`], with 4 for a room outside 1 to 65,535, and 5 where it is not enough.
    pub fn flatten_with_room(&self, room: u32) -> Result<Factor, Refusal> {
        let (mut table, mut work) = raw::lent(self.generators, room);
        let made = raw::product_flatten(&self.table, &self.handles, self.generators, &mut table, 0, &mut work, room);
        Ok(Factor::unnamed(&table, made.map_err(|no| no.said(4, Said::Room))?))
    }
}

/// One table buffer with factors in it, their handles there, and their names.
///
/// The library reads the factors of a product in one buffer. Where they stand in one already it is shared; else each is copied once. A
/// stretch holds no address, so that it is the same factor wherever it stands.
pub(crate) struct Gathered {
    pub(crate) table: Arc<[u32]>,
    pub(crate) factors: Vec<Handle>,
    pub(crate) names: Vec<Name>,
}

impl Gathered {
    pub(crate) fn new<'a>(parts: impl Iterator<Item = (&'a Arc<[u32]>, Handle, Name)>) -> Self {
        let parts: Vec<_> = parts.collect();
        let names = parts.iter().map(|&(_, _, name)| name).collect();
        if let Some((shared, ..)) = parts.first().filter(|(shared, ..)| parts.iter().all(|(table, ..)| Arc::ptr_eq(table, shared))) {
            let factors = parts.iter().map(|&(_, handle, _)| handle).collect();
            return Gathered { table: Arc::clone(shared), factors, names };
        }
        let (mut all, mut moved) = (vec![], Vec::<Handle>::new());
        for (k, &(table, handle, _)) in parts.iter().enumerate() {
            let earlier = parts[..k].iter().position(|&(t, h, _)| Arc::ptr_eq(t, table) && h == handle);
            moved.push(earlier.map_or(handle.at(all.len()), |i| moved[i]));
            if earlier.is_none() {
                let rows = raw::table_need(handle.generators, handle.room);
                all.extend_from_slice(&table[handle.start..handle.start + rows]);
            }
        }
        Gathered { table: all.into(), factors: moved, names }
    }
}

/// The group of one element: the product of no factors.
impl Default for Product {
    fn default() -> Self {
        Product { table: Arc::from([]), factors: vec![], handles: Handles::default(), names: vec![], elements: 1, generators: 0 }
    }
}

/// The product of one factor, which shares its table.
impl From<&Factor> for Product {
    fn from(factor: &Factor) -> Self {
        Product::new([factor]).expect("one accepted factor is a product")
    }
}

/// The product of two products; refused as [`Product::product`].
impl Mul for &Product {
    type Output = Result<Product, Refusal>;

    fn mul(self, other: Self) -> Self::Output {
        Product::product([self, other])
    }
}

/// The product of two factors; refused as [`Product::new`].
impl Mul for &Factor {
    type Output = Result<Product, Refusal>;

    fn mul(self, other: Self) -> Self::Output {
        Product::new([self, other])
    }
}
