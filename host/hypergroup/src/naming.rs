use crate::raw;
use crate::refusal::Said;
use crate::{Builder, Element, Factor, Generator, Refusal};
use alloc::{vec, vec::Vec};

/// The name of a factor that is to be made: [`Factor::named`] takes it, and each call here makes a factor with it.
///
/// Any 0 to 32 bytes are a name. Each call is the one of [`Factor`] or [`Builder`] that it is named as, and makes the same; beside what that
/// one is refused with a longer name is 18, after 1 to 4 and before anything is built.
///
/// ```
/// use hypergroup::{Factor, Product, Refusal};
/// let s3 = Factor::named("S3").from_rows(2, &[1, 2, 0, 3, 4, 0, 5, 1, 2, 5, 3, 4])?;
/// let flip = Factor::named("Z\u{2082}").from_orders(1, &[], 2)?;
/// assert_eq!(Product::new([&s3, &flip])?.name(), "S3 x Z\u{2082}".as_bytes());
///
/// let refusal = Factor::named(&[b'x'; 33]).from_orders(1, &[], 2).unwrap_err();
/// assert_eq!(refusal.number, Refusal::NAME_TOO_LONG);
/// # Ok::<(), hypergroup::Refusal>(())
/// ```
#[derive(Clone, Copy, Debug)]
#[must_use]
pub struct Naming<'a> {
    name: &'a [u8],
}

impl<'a> Naming<'a> {
    /// No name.
    pub(crate) const NONE: Naming<'static> = Naming { name: &[] };

    pub(crate) fn new(name: &'a [u8]) -> Self {
        Naming { name }
    }

    /// As [`Factor::from_orders`].
    ///
    /// # Errors
    ///
    /// As there; and, where there would be 5 or 6 or a factor, 18 for a name of more than 32 bytes.
    pub fn from_orders(self, generators: u8, orders: &[u32], room: u32) -> Result<Factor, Refusal> {
        let (mut table, mut work) = raw::lent(generators, room);
        let made = raw::enumerate_named(&mut table, 0, &mut work, orders, generators, room, self.name);
        let (handle, name) = made.map_err(|no| no.said(4, Said::Room).said(18, Said::Name))?;
        Ok(Factor::new(&table, handle, name))
    }

    /// As [`Factor::from_rows`].
    ///
    /// # Errors
    ///
    /// As there; and, where there would be 5 to 12 or a factor, 18 for a name of more than 32 bytes.
    pub fn from_rows(self, generators: u8, rows: &[u32]) -> Result<Factor, Refusal> {
        let n = usize::from(generators);
        let (room, part) = (rows.len().checked_div(n).unwrap_or(1), rows.len().checked_rem(n).unwrap_or(0));
        // A list that ends within a row is lent as none, so that the library refuses it as too short.
        let (lent, said) = if part == 0 { (rows, Said::Rows) } else { (&[][..], Said::PartOfRow) };
        let beyond = if room > 65_535 { Said::Most } else { Said::Rows };
        self.composed(generators, lent, room.min(65_535) as u32).map_err(|no| no.said(4, said).said(5, beyond))
    }

    /// As [`Factor::from_compose_fn`]; a name that is too long has nothing asked.
    ///
    /// # Errors
    ///
    /// As there; and, where there would be 5 to 12 or a factor, 18 for a name of more than 32 bytes.
    pub fn from_compose_fn(self, generators: u8, compose: impl FnMut(Element, Generator) -> Element, room: u32) -> Result<Factor, Refusal> {
        let right = generators <= 8 && (1..=65_535).contains(&room);
        let (rows, needed) = match right {
            // Arguments that are to be refused have nothing asked.
            false => (vec![], room),
            // One row, whatever is in it, so that it is the name that is refused.
            true if self.name.len() > 32 => (vec![0; generators.into()], 1),
            true => asked(generators, compose, room),
        };
        self.composed(generators, &rows, needed).map_err(|no| no.said(4, Said::Room))
    }

    /// As [`Builder::new`]; the factor that is built has the name.
    ///
    /// # Errors
    ///
    /// As there; then 18 for a name of more than 32 bytes.
    ///
    /// ```
    /// use hypergroup::{Element, Factor, Generator};
    /// let mut builder = Factor::named("Z2").builder(1, 2)?;
    /// let one = builder.add(Element::IDENTITY, Generator(0))?;
    /// builder.set(one, Generator(0), Element::IDENTITY)?;
    /// assert_eq!(builder.build()?.name(), b"Z2");
    /// # Ok::<(), hypergroup::Refusal>(())
    /// ```
    pub fn builder(self, generators: u8, room: u32) -> Result<Builder, Refusal> {
        let mut table = raw::lent_table(generators, room);
        let begun = raw::begin_named(&mut table, 0, room, generators, self.name);
        let (handle, name) = begun.map_err(|no| no.said(4, Said::Room).said(18, Said::Name))?;
        Ok(Builder::begun(table, handle, name))
    }

    fn composed(self, generators: u8, rows: &[u32], room: u32) -> Result<Factor, Refusal> {
        let (mut table, mut work) = raw::lent(generators, room);
        let made = raw::composed_named(&mut table, 0, &mut work, rows, generators, room, self.name);
        let (handle, name) = made.map_err(|no| no.said(18, Said::Name))?;
        Ok(Factor::new(&table, handle, name))
    }
}

/// The rows that a function tells, asked in order, with how much room they need: zeros where there was no need to ask.
///
/// It is asked no more where the library will refuse: at a number that skips ahead, beyond the room, and at a word of more than 4,096.
fn asked(generators: u8, mut compose: impl FnMut(Element, Generator) -> Element, room: u32) -> (Vec<u32>, u32) {
    let n = usize::from(generators);
    let (mut rows, mut lengths) = (vec![], vec![0]);
    let mut e = 0;
    while e < lengths.len() {
        for g in 0..generators {
            let to = compose(Element(e as u32), Generator(g)).0;
            rows.push(to);
            let count = lengths.len() as u32;
            if to > count || to == count && (count == room || lengths[e] == 4096) {
                // With one row more, where there may be one, the refusal is the one that comes with all of the room.
                let needed = room.min(count + 1);
                rows.resize(needed as usize * n, 0);
                return (rows, needed);
            }
            if to == count {
                lengths.push(lengths[e] + 1);
            }
        }
        e += 1;
    }
    (rows, lengths.len() as u32)
}
