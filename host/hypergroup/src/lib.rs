//! Group tables for twisty puzzles, each checked before anything is asked of it.
//!
//! A live viewer of a match gets each turn as a generator; a viewer who is behind gets one element, the product of the turns missed.
//! Both land on one state exactly when the table of moves is a group's. Whatever this crate hands out has been checked by a library
//! in which every function is proved to meet its contract: a table is accepted exactly when it is numbered in order of first
//! appearance, no recorded word passes 4,096 generators, and some group has it as its right steps; everything else comes back as a
//! [`Refusal`] with its number, its places and a sentence.
//!
//! | | |
//! |---|---|
//! | [`Factor`] | a group from pair orders, from composed rows or a function that tells them, from an image, or step by step by a [`Builder`] |
//! | [`Naming`] | the same with a name, for captions; no question looks at it |
//! | [`Product`] | the direct product of up to eight factors, also of products; its name is theirs, joined |
//! | [`Subgroup`] | a subgroup of a product, with its maps |
//! | [`Image`], [`OwnedImage`] | a stored table: checked, walked, read back; over lent bytes, or its own |
//! | [`Checker`] | checks images from anyone, for a server: with a limit, in one buffer |
//! | [`ListRefusal`] | at which place of its lists a question over lists is refused, and why |
//! | [`raw`] | the library's calls on lent buffers and plain numbers |
//!
//! ```
//! use hypergroup::{Element, Factor, Generator, Image};
//!
//! // The symmetries of a triangle: two turns, each its own inverse, whose product has order 3.
//! let triangle = Factor::from_orders(2, &[3], 100)?;
//! assert_eq!(triangle.element_count(), 6);
//!
//! // What is sent to the viewers, and what each of them makes of it.
//! let sent: Vec<u8> = triangle.to_image()?;
//! let image = Image::check(&sent)?;
//! let turns = [Generator(0), Generator(1), Generator(0)];
//! let live = image.walk(Element(2), &turns)?;
//! let missed = image.walk(Element::IDENTITY, &turns)?;
//! assert_eq!(live, image.read()?.compose(Element(2), missed)?);
//! # Ok::<(), hypergroup::Refusal>(())
//! ```
//!
//! A factor may be given a name, of at most 32 bytes, when it is made, and a product has the names of its factors, joined:
//!
//! ```
//! use hypergroup::{Factor, Product};
//!
//! let cube = Factor::named("cube").from_orders(3, &[4, 2, 3], 48)?;
//! let triangle = Factor::named("triangle").from_orders(2, &[3], 6)?;
//! let both = Product::new([&cube, &triangle])?;
//! assert_eq!(both.name(), b"cube x triangle");
//! # Ok::<(), hypergroup::Refusal>(())
//! ```
//!
//! A page with many viewers asks for all of them in one call, with a list for each argument, of up to 4,096 places: `compose_each`,
//! `inverse_each` and `powi_each` of a factor and of a product, and with `_into` the same into a lent list.
//!
//! ```
//! use hypergroup::{Element, Factor};
//!
//! let puzzle = Factor::from_orders(3, &[4, 2, 3], 48)?;
//! // What each tile of the wall shows, and what its viewer has missed.
//! let shown = [Element(3), Element(0), Element(3)];
//! let missed = [Element(7), Element(11), Element(0)];
//! let mut wall = [Element::IDENTITY; 3];
//! puzzle.compose_each_into(&shown, &missed, &mut wall)?;
//! assert_eq!(wall[0], puzzle.compose(shown[0], missed[0])?);
//! // An element that the puzzle does not have: its place is told, and the wall stays as it was.
//! let no = puzzle.compose_each_into(&shown, &[Element(7), Element(48), Element(99)], &mut wall).unwrap_err();
//! assert_eq!((no.place, no.refusal.number), (Some(1), 14));
//! # Ok::<(), hypergroup::Refusal>(())
//! ```
//!
//! Whatever is refused says so by a [`Refusal`]; the numbers that a call can have stand in its documentation under "Errors". Clones of
//! every type share their tables, but for a [`Builder`]'s, and every type is `Send` and `Sync`. The crate needs no `std`, only `alloc`.
//!
//! # Building
//!
//! The crate links the proved library, `libhypergroup.a`, which lies outside of the package, so that it is named by its path:
//!
//! ```toml
//! [dependencies]
//! hypergroup = { path = "../hypergroup-proved/host/hypergroup" }
//! ```
//!
//! First `./archives`, in the top folder of that repository, proves the library and compiles it, in ten minutes or so the first time; it
//! needs the Rattle toolchain. Where there is none, the environment variable `HYPERGROUP_ARCHIVES` names a folder that has the archive
//! already, by an absolute path. The library that is shipped is for x86-64 Linux. On 64-bit Arm Linux `./archives` makes one for that
//! processor too, of the same proved modules compiled by another back end, and a build there says so. Elsewhere nothing can be linked;
//! `cargo check`, `doc` and `clippy` work on any machine, without an archive.
#![no_std]
#![warn(missing_docs, clippy::missing_errors_doc, clippy::must_use_candidate)]

extern crate alloc;

mod builder;
mod checker;
mod factor;
#[allow(clippy::missing_errors_doc)]
mod ffi;
mod image;
mod lists;
mod naming;
mod number;
mod owned_image;
mod product;
mod refusal;
mod short_debug;
mod subgroup;

pub use builder::{Builder, Stored};
pub use checker::{Checker, Unchecked};
pub use factor::Factor;
pub use image::Image;
pub use lists::ListRefusal;
pub use naming::Naming;
pub use number::{Element, Generator};
pub use owned_image::OwnedImage;
pub use product::Product;
pub use refusal::Refusal;
pub use subgroup::Subgroup;

/// The library's calls as they are: on lent buffers, handles and plain numbers. Each is safe, whatever it is given.
///
/// A refused question writes nothing. Arguments that are refused touch no buffer; a refusal once a build has started leaves the
/// stretches that it needs zero. How much a build needs is [`table_need`](raw::table_need) and [`work_need`](raw::work_need).
///
/// # Errors
///
/// Beside the refusals that the same call of a safe type has: 4 where a lent buffer is short, and 17 where a handle does not fit its
/// buffer or a number that is read there is out of range. Over a table that no call accepted a build from it may be refused by any of
/// 5 to 12.
///
/// ```
/// use hypergroup::raw;
/// let (mut table, mut work) = (vec![0; raw::table_need(1, 2)], vec![0; raw::work_need(1, 2)]);
/// let handle = raw::composed(&mut table, 0, &mut work, &[1, 0], 1, 2)?;
/// assert_eq!(raw::step(&table, handle, 1, 0), Ok(0));
/// // A handle that does not fit its buffer is refused, with 17.
/// assert_eq!(raw::step(&table[1..], handle, 1, 0).unwrap_err().number, 17);
/// # Ok::<(), hypergroup::Refusal>(())
/// ```
pub mod raw {
    pub use crate::ffi::*;
    use alloc::{vec, vec::Vec};

    /// The numbers of table that a build with so many generators and so much room needs.
    #[must_use]
    pub fn table_need(generators: u8, room: u32) -> usize {
        room as usize * (2 * usize::from(generators) + 4)
    }

    /// The numbers of work that it needs.
    #[must_use]
    pub fn work_need(generators: u8, room: u32) -> usize {
        let n = usize::from(generators);
        room as usize * (6 * n * n + 4 * n)
    }

    /// Whether a build with these is to be refused whatever it is lent.
    fn beyond(generators: u8, room: u32) -> bool {
        generators > 8 || room > 65_535
    }

    /// A zeroed table for a build; an empty one where the generators or the room are to be refused anyway.
    pub(crate) fn lent_table(generators: u8, room: u32) -> Vec<u32> {
        if beyond(generators, room) { vec![] } else { vec![0; table_need(generators, room)] }
    }

    /// Zeroed table and work for a build, or nothing, in the same way.
    pub(crate) fn lent(generators: u8, room: u32) -> (Vec<u32>, Vec<u32>) {
        let work = if beyond(generators, room) { vec![] } else { vec![0; work_need(generators, room)] };
        (lent_table(generators, room), work)
    }
}
