use core::fmt;
use core::hash::{Hash, Hasher};

/// Why a call was refused: one of the scope document's numbers, 1 to 17, or 18, which came with names; and its three places.
///
/// A place that the number does not use is 0. Each number has a constant here; there may be more of them one day, so that a `match`
/// ends with `_`. Two refusals are equal where their numbers and places are, whichever calls gave them.
///
/// ```
/// use hypergroup::{Factor, Refusal};
/// let refusal = Factor::from_rows(1, &[1, 1]).unwrap_err();
/// assert_eq!((refusal.number, refusal.places), (Refusal::MISSING_STEP, [0, 0, 0]));
/// assert_eq!(refusal.to_string(), "refused (8): a successor or predecessor is missing at element 0, generator 0");
/// // What a program does about it, by the number.
/// let again = match Factor::from_orders(3, &[5, 2, 3], 100).unwrap_err().number {
///     Refusal::BEYOND_ROOM | Refusal::WORD_TOO_LONG => "too large",
///     Refusal::BAD_ORDER => "not an order",
///     _ => "wrong",
/// };
/// assert_eq!(again, "too large");
/// ```
#[derive(Clone, Copy)]
#[non_exhaustive]
pub struct Refusal {
    /// The number of the refusal.
    pub number: u32,
    /// Where it was met: elements, generators, a number or a position, as its sentence says.
    pub places: [u32; 3],
    said: Said,
}

/// What the call that was refused knows of a number that has several reasons.
#[derive(Clone, Copy)]
pub(crate) enum Said {
    /// No more than the number.
    Number,
    /// 4: nothing but the room can be wrong.
    Room,
    /// 4 and 5: the room is the number of rows.
    Rows,
    /// 5: there are more rows than elements may be.
    Most,
    /// 5: the room is the number of elements that the image says.
    Image,
    /// 4: the last row is not whole.
    PartOfRow,
    /// 4: the list of digits is short.
    Digits,
    /// 4: lists of different lengths, or too long.
    Lists,
    /// 15: there are more than 8 factors.
    Factors,
    /// 5 and 15: there are too many elements.
    Elements,
    /// 15: the overgroup has too many elements.
    Overgroup,
    /// 15: a ninth generator is needed.
    Ninth,
    /// 17: the build has ended.
    Ended,
    /// 18: the name is too long.
    Name,
    /// 18: the buffer is too short.
    Joined,
}

impl Refusal {
    /// More than 8 generators; the place is how many.
    pub const TOO_MANY_GENERATORS: u32 = 1;
    /// The list of pair orders does not have one for each pair.
    pub const ORDER_COUNT: u32 = 2;
    /// A pair order outside 2 to 32,767; the place is its index in the list.
    pub const BAD_ORDER: u32 = 3;
    /// A room of 0 or above 65,535, or a list that is too short; of a question over lists, that they differ in length or have more than
    /// 4,096 places.
    pub const BAD_ROOM: u32 = 4;
    /// An element is needed beyond the room, the rows, or the elements that an image has; the places are the element and the generator
    /// that lead to it.
    pub const BEYOND_ROOM: u32 = 5;
    /// A word would pass 4,096 generators; the places are the element and the generator that lead to its element.
    pub const WORD_TOO_LONG: u32 = 6;
    /// A number skips ahead of the elements that have appeared; the places are the element, the generator and the number.
    pub const SKIPS_AHEAD: u32 = 7;
    /// No step leads on from an element by a generator, or none to it; the places are these two.
    pub const MISSING_STEP: u32 = 8;
    /// A generator that moves nothing at an element, or a wrong row: the places are the element and the generator. Or a wrong count: the
    /// places are the element and how many generators there are.
    pub const FIXED_POINT: u32 = 9;
    /// The inverse of an inverse differs; the places are the element, its inverse and that one's.
    pub const BAD_INVERSE: u32 = 10;
    /// The identity's row is not 1 to n; the place is the first generator that is out of place.
    pub const IDENTITY_ROW: u32 = 11;
    /// No group has these right steps.
    pub const NO_GROUP: u32 = 12;
    /// A relation fails; the places are the element and the pair of generators.
    pub const RELATION_FAILS: u32 = 13;
    /// An element, a generator or a factor that is not there; the place is the argument's position, from 0.
    pub const OUT_OF_RANGE: u32 = 14;
    /// More than 8 factors, a product or an overgroup that is too large, or a ninth generator.
    pub const TOO_LARGE: u32 = 15;
    /// The image is malformed.
    pub const BAD_IMAGE: u32 = 16;
    /// The handle does not fit its buffer, or a number read from it is out of range; from the safe types only of a
    /// [`Builder`](crate::Builder) whose build has ended.
    pub const BAD_HANDLE: u32 = 17;
    /// A name of more than 32 bytes, or a joined name that is longer than its buffer.
    pub const NAME_TOO_LONG: u32 = 18;

    #[inline]
    pub(crate) const fn new(number: u32, places: [u32; 3]) -> Self {
        Refusal { number, places, said: Said::Number }
    }

    /// The same, with what the call knows of it where it has this number.
    pub(crate) fn said(self, number: u32, said: Said) -> Self {
        if self.number == number { Refusal { said, ..self } } else { self }
    }
}

impl PartialEq for Refusal {
    fn eq(&self, other: &Self) -> bool {
        (self.number, self.places) == (other.number, other.places)
    }
}

impl Eq for Refusal {}

impl Hash for Refusal {
    fn hash<H: Hasher>(&self, state: &mut H) {
        (self.number, self.places).hash(state);
    }
}

impl fmt::Debug for Refusal {
    fn fmt(&self, f: &mut fmt::Formatter<'_>) -> fmt::Result {
        f.debug_struct("Refusal").field("number", &self.number).field("places", &self.places).finish()
    }
}

impl fmt::Display for Refusal {
    fn fmt(&self, f: &mut fmt::Formatter<'_>) -> fmt::Result {
        let [a, b, c] = self.places;
        write!(f, "refused ({}): ", self.number)?;
        match (self.number, self.said) {
            (1, _) => write!(f, "{a} generators, and at most 8 are taken"),
            (2, _) => write!(f, "the list of pair orders does not have one for each pair of generators"),
            (3, _) => write!(f, "the pair order at index {a} is not from 2 to 32,767"),
            (4, Said::Room) => write!(f, "the room is 0 or above 65,535"),
            (4, Said::Rows) => write!(f, "there are no rows"),
            (4, Said::PartOfRow) => write!(f, "the last row does not have a number for each generator"),
            (4, Said::Digits) => write!(f, "there are fewer digits than factors"),
            (4, Said::Lists) => write!(f, "the lists differ in length or have more than 4,096 places"),
            (4, _) => write!(f, "the room is 0 or above 65,535, or a lent buffer is short"),
            (5, Said::Rows) => write!(f, "there is no row for the element that element {a}, generator {b} leads to"),
            (5, Said::Most) => write!(f, "element {a}, generator {b} leads to one element more than the 65,535 that there may be"),
            (5, Said::Image) => write!(f, "element {a}, generator {b} leads to one element more than the image has"),
            (5, Said::Elements) => write!(f, "the product has more than 65,535 elements"),
            (5, _) => write!(f, "an element beyond the room is needed at element {a}, generator {b}"),
            (6, _) => write!(f, "the word of the element after element {a}, generator {b} would pass 4,096 generators"),
            (7, _) => write!(f, "the number {c} at element {a}, generator {b} skips ahead"),
            (8, _) => write!(f, "a successor or predecessor is missing at element {a}, generator {b}"),
            (9, _) => {
                write!(f, "a fixed point or a wrong row at element {a}, generator {b} (or a wrong count there, of {b} generators)")
            }
            (10, _) => write!(f, "the inverse of {a} is {b}, and the inverse of {b} is {c}"),
            (11, _) => write!(f, "the identity's row is not 1 to n: generator {a} is out of place"),
            (12, _) => write!(f, "no group has these right steps"),
            (13, _) => write!(f, "a relation fails at element {a}, generators {b} and {c}"),
            (14, _) => write!(f, "the argument at position {a}, counted from 0, is out of range"),
            (15, Said::Factors) => write!(f, "there are more than 8 factors"),
            (15, Said::Elements) => write!(f, "the product has more than 4,294,967,295 elements"),
            (15, Said::Overgroup) => write!(f, "the overgroup has more than 65,535 elements"),
            (15, Said::Ninth) => write!(f, "the members of the subgroup need a ninth generator"),
            (15, _) => write!(f, "more than 8 factors, a product or overgroup that is too large, or a ninth generator"),
            (16, _) => write!(f, "the image is malformed"),
            (17, Said::Ended) => write!(f, "an earlier refusal has ended this build"),
            (17, _) => write!(f, "the handle does not fit its buffer, or a number read from it is out of range"),
            (18, Said::Name) => write!(f, "the name has more than 32 bytes"),
            (18, Said::Joined) => write!(f, "the joined name is longer than the buffer"),
            (18, _) => write!(f, "a name of more than 32 bytes, or a joined name that is longer than its buffer"),
            _ => write!(f, "places {a}, {b}, {c}"),
        }
    }
}

impl core::error::Error for Refusal {}
