use crate::{Element, Factor, Generator, Image, Refusal};
use alloc::sync::Arc;
use alloc::vec::Vec;

/// A checked image that owns its bytes: for a server, which keeps it, clones it at no cost and asks it from many threads.
///
/// ```
/// use hypergroup::{Element, Generator, OwnedImage};
/// use std::thread;
///
/// // A puzzle with one turn, of order 2, as it came from somewhere.
/// let received = vec![0, 0, 0, 8, 1, 1, 0, 2, 0, 1, 0, 0];
/// let image = OwnedImage::try_from(received)?;
/// let viewers = [1, 2, 3].map(|turns| {
///     let image = image.clone();
///     thread::spawn(move || image.walk(Element::IDENTITY, &vec![Generator(0); turns]))
/// });
/// let states = viewers.map(|viewer| viewer.join().unwrap());
/// assert_eq!(states, [Ok(Element(1)), Ok(Element(0)), Ok(Element(1))]);
/// # Ok::<(), hypergroup::Refusal>(())
/// ```
#[derive(Clone, PartialEq, Eq, Hash)]
pub struct OwnedImage {
    bytes: Arc<[u8]>,
}

impl OwnedImage {
    /// Checks that these bytes store a table that some group has, and that all its elements are reached.
    ///
    /// An `Arc` is shared; other bytes are copied into one first, also where they are refused then. `try_from` of a slice or a `Vec` copies
    /// them once they are checked, and [`Checker::check_owned`](crate::Checker::check_owned) has a limit.
    ///
    /// # Errors
    ///
    /// Those of [`Image::check`].
    pub fn check(bytes: impl Into<Arc<[u8]>>) -> Result<Self, Refusal> {
        let bytes = bytes.into();
        Image::check(&bytes)?;
        Ok(OwnedImage { bytes })
    }

    /// The image that owns bytes that have been checked.
    pub(crate) fn checked(bytes: Arc<[u8]>) -> Self {
        OwnedImage { bytes }
    }

    /// The image over these bytes; nothing is checked again.
    #[must_use]
    pub fn image(&self) -> Image<'_> {
        Image::checked(&self.bytes)
    }

    /// The bytes.
    #[must_use]
    pub fn bytes(&self) -> &[u8] {
        &self.bytes
    }

    /// How many elements the group has.
    #[must_use]
    pub fn element_count(&self) -> u32 {
        self.image().element_count()
    }

    /// How many generators it has.
    #[must_use]
    pub fn generator_count(&self) -> u8 {
        self.image().generator_count()
    }

    /// Where turns lead, one after the other, from an element.
    ///
    /// # Errors
    ///
    /// 14 if the element or a turn is none of this puzzle's: its position, from 0, the element's first.
    pub fn walk(&self, from: Element, turns: &[Generator]) -> Result<Element, Refusal> {
        self.image().walk(from, turns)
    }

    /// The factor that is stored.
    ///
    /// # Errors
    ///
    /// None that is known: what was checked can be read.
    pub fn read(&self) -> Result<Factor, Refusal> {
        self.image().read()
    }
}

/// The bytes are shared, and not copied.
impl TryFrom<Arc<[u8]>> for OwnedImage {
    type Error = Refusal;

    fn try_from(bytes: Arc<[u8]>) -> Result<Self, Refusal> {
        Self::check(bytes)
    }
}

impl TryFrom<Vec<u8>> for OwnedImage {
    type Error = Refusal;

    fn try_from(bytes: Vec<u8>) -> Result<Self, Refusal> {
        Self::try_from(&bytes[..])
    }
}

/// The bytes are copied once they are checked.
impl TryFrom<&[u8]> for OwnedImage {
    type Error = Refusal;

    fn try_from(bytes: &[u8]) -> Result<Self, Refusal> {
        Image::check(bytes).map(Self::from)
    }
}

/// A copy of the bytes; nothing is checked again.
impl From<Image<'_>> for OwnedImage {
    fn from(image: Image<'_>) -> Self {
        OwnedImage { bytes: image.bytes().into() }
    }
}

impl AsRef<[u8]> for OwnedImage {
    fn as_ref(&self) -> &[u8] {
        &self.bytes
    }
}
