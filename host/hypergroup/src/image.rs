use crate::ffi::letters;
use crate::refusal::Said;
use crate::{Element, Factor, Generator, Refusal, raw};
use alloc::vec;

/// A stored table that has been checked: its bytes, and what may be asked of them with no table built.
///
/// ```
/// use hypergroup::{Element, Generator, Image};
///
/// // A puzzle with one turn, of order 2.
/// let sent = [0, 0, 0, 8, 1, 1, 0, 2, 0, 1, 0, 0];
/// let image = Image::check(&sent)?;
/// assert_eq!(image.walk(Element::IDENTITY, &[Generator(0); 3])?, Element(1));
///
/// // The same with one byte damaged is refused, before any state is shown.
/// let damaged = [0, 0, 0, 8, 1, 1, 0, 2, 0, 1, 0, 1];
/// assert_eq!(Image::check(&damaged).unwrap_err().number, 8);
/// # Ok::<(), hypergroup::Refusal>(())
/// ```
#[derive(Clone, Copy, PartialEq, Eq)]
pub struct Image<'a> {
    bytes: &'a [u8],
}

impl<'a> Image<'a> {
    /// Checks that these bytes store a table that some group has, and that all its elements are reached.
    ///
    /// A check makes N(32n²+100) bytes of work for N elements and n generators, which is at most 135 times as many as the image has, and
    /// 141 MB for the largest; where the head alone excludes the image, none. A group's image with 65,472 elements and 8 generators takes
    /// some hundredths of a second. Of one that no group has all words may have to be walked, letter by letter: the dearest that is known,
    /// of 262 KB, takes 3 to 5 s. So bytes that come from anyone are better given to a [`Checker`](crate::Checker), which has a limit:
    /// the time grows with the elements times their longest word.
    ///
    /// # Errors
    ///
    /// 16 where the head is malformed or the length is not what it says, or fewer elements are reached than it says; 1 for more than 8
    /// generators; 5 and 7, where a number is beyond the elements or they are not numbered in the order in which they appear; 6, where
    /// a word would pass 4,096 generators; 8 to 12 where no group has these steps, or the identity's row is not 1 to n.
    pub fn check(bytes: &'a [u8]) -> Result<Self, Refusal> {
        // What the head alone excludes is refused before any work is made.
        let need = raw::image_need(bytes)?;
        Self::in_work(bytes, &mut vec![0; need as usize])
    }

    /// The same in lent work, as much as is needed.
    pub(crate) fn in_work(bytes: &'a [u8], work: &mut [u8]) -> Result<Self, Refusal> {
        raw::image_verdict(bytes, work).map_err(|no| no.said(5, Said::Image))?;
        Ok(Image { bytes })
    }

    /// The generators and elements that a head says there are; 0 of what it does not reach to.
    pub(crate) fn head(bytes: &[u8]) -> (u8, u32) {
        let at = |i| bytes.get(i).copied().unwrap_or(0);
        (at(5), u16::from_be_bytes([at(6), at(7)]).into())
    }

    /// The image over bytes that have been checked.
    pub(crate) fn checked(bytes: &'a [u8]) -> Self {
        Image { bytes }
    }

    /// The bytes.
    #[must_use]
    pub fn bytes(&self) -> &'a [u8] {
        self.bytes
    }

    /// How many elements the group has.
    #[must_use]
    pub fn element_count(&self) -> u32 {
        Self::head(self.bytes).1
    }

    /// How many generators it has.
    #[must_use]
    pub fn generator_count(&self) -> u8 {
        Self::head(self.bytes).0
    }

    /// Where turns lead, one after the other, from an element.
    ///
    /// # Errors
    ///
    /// 14 if the element or a turn is none of this puzzle's: its position, from 0, the element's first.
    pub fn walk(&self, from: Element, turns: &[Generator]) -> Result<Element, Refusal> {
        match raw::image_walk(self.bytes, from.0, letters(turns)) {
            reached @ 0..65_536 => Ok(Element(reached)),
            refused => Err(Refusal::new(refused - 65_536, [self.first_beyond(from, turns), 0, 0])),
        }
    }

    /// The position of the first argument of a walk that is out of range; 0 where none is.
    fn first_beyond(&self, from: Element, turns: &[Generator]) -> u32 {
        let beyond = turns.iter().position(|g| g.0 >= self.generator_count());
        if from.0 >= self.element_count() { 0 } else { beyond.map_or(0, |i| (i as u32).saturating_add(1)) }
    }

    /// The factor that is stored.
    ///
    /// # Errors
    ///
    /// None that is known: what was checked can be read.
    pub fn read(&self) -> Result<Factor, Refusal> {
        Factor::from_image(self.bytes)
    }
}
