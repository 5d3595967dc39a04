use crate::{Image, OwnedImage, Refusal, raw};
use alloc::sync::Arc;
use alloc::vec::Vec;
use core::fmt;

/// Checks images from anyone, one after the other: for a server. It has a limit on their elements, and one work buffer that is used
/// again.
///
/// ```
/// use hypergroup::{Checker, Unchecked};
///
/// // No puzzle of this server has more than 10,000 states.
/// let mut checker = Checker::new(10_000);
/// let z2 = [0, 0, 0, 8, 1, 1, 0, 2, 0, 1, 0, 0];
/// assert_eq!(checker.check(&z2)?.element_count(), 2);
///
/// // One whose head says 65,535 elements is not looked at any further, and nothing is allocated.
/// let mut large = vec![0; 8 + 2 * 65_535];
/// large[..8].copy_from_slice(&[0, 2, 0, 2, 1, 1, 255, 255]);
/// assert_eq!(checker.check(&large).unwrap_err(), Unchecked::TooLarge { elements: 65_535, most: 10_000 });
/// # Ok::<(), hypergroup::Unchecked>(())
/// ```
pub struct Checker {
    most: u32,
    work: Vec<u8>,
}

/// Why a [`Checker`] did not take an image.
#[derive(Clone, Copy, Debug, PartialEq, Eq, Hash)]
#[non_exhaustive]
pub enum Unchecked {
    /// The head is right, and says more elements than the checker takes. The rest was not looked at.
    TooLarge {
        /// How many elements the head says.
        elements: u32,
        /// How many the checker takes.
        most: u32,
    },
    /// It is no image of a group.
    Refused(Refusal),
}

impl Checker {
    /// A checker of images with at most so many elements; 65,535 is no limit. It allocates nothing before its first image.
    #[must_use]
    pub const fn new(most: u32) -> Self {
        Checker { most, work: Vec::new() }
    }

    /// Checks as [`Image::check`] does. The work buffer grows to what the largest image has needed, N(32n²+100) bytes for N elements and
    /// n generators, and so to no more than 2,148 bytes for each element of the limit.
    ///
    /// The time of a check grows with the elements times their longest word, which has at most 4,096 letters, so that the limit is one on
    /// time too; [`Image::check`] says what the dearest image takes.
    ///
    /// # Errors
    ///
    /// A [`Refusal`] where [`Image::check`] has one, or [`Unchecked::TooLarge`] where the head is right and says more elements than this
    /// checker takes.
    pub fn check<'a>(&mut self, bytes: &'a [u8]) -> Result<Image<'a>, Unchecked> {
        let need = raw::image_need(bytes)? as usize;
        let (elements, most) = (Image::head(bytes).1, self.most);
        if elements > most {
            return Err(Unchecked::TooLarge { elements, most });
        }
        if self.work.len() < need {
            // What the old buffer holds is of no use, so that it is not copied into the new one.
            self.work = Vec::new();
            self.work.resize(need, 0);
        }
        Ok(Image::in_work(bytes, &mut self.work[..need])?)
    }

    /// The same, of an image that is to be kept: its bytes are shared, and not copied.
    ///
    /// # Errors
    ///
    /// Those of [`Checker::check`].
    pub fn check_owned(&mut self, bytes: Arc<[u8]>) -> Result<OwnedImage, Unchecked> {
        self.check(&bytes)?;
        Ok(OwnedImage::checked(bytes))
    }

    /// How many elements an image may have.
    #[must_use]
    pub const fn most(&self) -> u32 {
        self.most
    }

    /// How many bytes the work buffer holds now.
    #[must_use]
    pub fn work(&self) -> usize {
        self.work.len()
    }
}

impl fmt::Debug for Checker {
    fn fmt(&self, f: &mut fmt::Formatter<'_>) -> fmt::Result {
        f.debug_struct("Checker").field("most", &self.most).field("work", &self.work.len()).finish()
    }
}

impl From<Refusal> for Unchecked {
    fn from(refusal: Refusal) -> Self {
        Unchecked::Refused(refusal)
    }
}

impl fmt::Display for Unchecked {
    fn fmt(&self, f: &mut fmt::Formatter<'_>) -> fmt::Result {
        match self {
            Unchecked::TooLarge { elements, most } => write!(f, "the image has {elements} elements, and {most} are taken"),
            Unchecked::Refused(refusal) => refusal.fmt(f),
        }
    }
}

impl core::error::Error for Unchecked {}
