use crate::raw::MOST_PLACES;
use crate::refusal::Said;
use crate::{Element, Refusal};
use alloc::{vec, vec::Vec};
use core::fmt;

/// Why a question over lists was refused: the first place at which the single call is refused, with what it says there; or the lists
/// themselves, before any place is looked at. The output list is as it was.
///
/// ```
/// use hypergroup::{Element, Factor, Refusal};
/// let s3 = Factor::from_orders(2, &[3], 6)?;
/// let no = s3.inverse_each(&[Element(3), Element(6), Element(7)]).unwrap_err();
/// assert_eq!((no.place, no.refusal), (Some(1), s3.inverse(Element(6)).unwrap_err()));
/// assert_eq!(no.to_string(), "at place 1: refused (14): the argument at position 0, counted from 0, is out of range");
/// let no = s3.compose_each(&[Element(1)], &[]).unwrap_err();
/// assert_eq!((no.place, no.refusal.number), (None, Refusal::BAD_ROOM));
/// assert_eq!(no.to_string(), "refused (4): the lists differ in length or have more than 4,096 places");
/// # Ok::<(), hypergroup::Refusal>(())
/// ```
#[derive(Clone, Copy, Debug, PartialEq, Eq, Hash)]
#[non_exhaustive]
pub struct ListRefusal {
    /// The place of the lists, from 0; none where the lists themselves are refused, with 4.
    pub place: Option<usize>,
    /// What the single call says there; of refused lists, 4.
    pub refusal: Refusal,
}

impl ListRefusal {
    /// What the five numbers tell. No single call is refused with 4, so that this number is the lists' own (`factor-places`
    /// and `product-places`, docs/promises/lists.md).
    pub(crate) fn told([number, a, b, c, place]: [u32; 5]) -> Self {
        let refusal = Refusal::new(number, [a, b, c]).said(4, Said::Lists);
        ListRefusal { place: (number != 4).then_some(place as usize), refusal }
    }
}

impl fmt::Display for ListRefusal {
    fn fmt(&self, f: &mut fmt::Formatter<'_>) -> fmt::Result {
        if let Some(place) = self.place {
            write!(f, "at place {place}: ")?;
        }
        self.refusal.fmt(f)
    }
}

impl core::error::Error for ListRefusal {}

/// The refusal without its place, for a function that is refused for other reasons too.
impl From<ListRefusal> for Refusal {
    fn from(no: ListRefusal) -> Self {
        no.refusal
    }
}

/// The output of a call whose first list has so many places. Lists that are too long are refused, and get no output of their length.
pub(crate) fn gathered(places: usize, call: impl FnOnce(&mut [Element]) -> Result<(), ListRefusal>) -> Result<Vec<Element>, ListRefusal> {
    let mut out = vec![Element::IDENTITY; places.min(MOST_PLACES + 1)];
    call(&mut out)?;
    Ok(out)
}

/// What a list of one place is answered with, which is the single call, and costs no more than that.
#[inline]
pub(crate) fn alone(said: Result<Element, Refusal>, out: &mut Element) -> Result<(), ListRefusal> {
    *out = said.map_err(|refusal| ListRefusal { place: Some(0), refusal })?;
    Ok(())
}
