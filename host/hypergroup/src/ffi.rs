//! The exported functions, and a safe call for each. All unsafe code of the crate is here.
//!
//! Why the calls are sound, whatever is passed: a list is handed over as the pointer and the length of a Rust slice, so all of it
//! may be read, and written where it is `&mut`; lists that are written overlap no other, since `&mut` does not; an empty slice has a
//! pointer that is not null. Every other argument is a number, and the library, which is proved, answers or refuses any.
use crate::{Element, Generator, ListRefusal, Refusal};
use alloc::vec::Vec;

/// The answer of a call.
pub type Answer<T> = Result<T, Refusal>;

/// The handle of a factor, or of a builder, in a table buffer: plain numbers, which may be anything.
///
/// There may be more of them one day; [`Handle::new`] makes one of those that there are, and fields can be set.
#[derive(Clone, Copy, Debug, PartialEq, Eq)]
#[non_exhaustive]
pub struct Handle {
    /// Where its stretch starts.
    pub start: usize,
    /// The room of its stretch, in elements.
    pub room: u32,
    /// How many generators it has.
    pub generators: u8,
    /// How many elements it has.
    pub elements: u32,
}

impl Handle {
    /// A handle with these numbers.
    #[must_use]
    pub const fn new(start: usize, room: u32, generators: u8, elements: u32) -> Self {
        Handle { start, room, generators, elements }
    }

    /// The same handle for a stretch that starts elsewhere.
    #[must_use]
    pub const fn at(self, start: usize) -> Self {
        Handle { start, ..self }
    }

    fn numbers(self) -> [u32; 5] {
        let start = self.start as u64;
        [start as u32, (start >> 32) as u32, self.room, self.generators.into(), self.elements]
    }
}

/// The factors of a product: five numbers for each, as [`Handles::push`] writes them, and how many of them count.
#[derive(Clone, Debug, Default, PartialEq, Eq)]
#[non_exhaustive]
pub struct Handles {
    /// The numbers. What a list that is too short does not tell is 0.
    pub numbers: Vec<u32>,
    /// How many factors there are; more than 8 is refused.
    pub count: u8,
}

impl Handles {
    /// Adds a factor. From the 255th on the count stays.
    pub fn push(&mut self, h: Handle) {
        self.numbers.extend(h.numbers());
        self.count = self.count.saturating_add(1);
    }
}

impl FromIterator<Handle> for Handles {
    fn from_iter<I: IntoIterator<Item = Handle>>(handles: I) -> Self {
        let mut all = Handles::default();
        handles.into_iter().for_each(|h| all.push(h));
        all
    }
}

/// The name of a factor as it is kept beside its handle: 32 bytes and how many of them are the name, which may be anything. As the library
/// writes it, the bytes behind the name are 0.
///
/// Every question but [`joined`] is asked by handles alone, so that none can look at a name.
#[derive(Clone, Copy, Debug, Default, PartialEq, Eq, Hash)]
#[repr(C)]
pub struct Name {
    /// The bytes of the name, and those behind it.
    pub bytes: [u8; 32],
    /// How many are the name; more than 32 is refused.
    pub length: u8,
}

/// It is handed over as its bytes, of which there are none but those of its fields.
const _: () = assert!(size_of::<Name>() == 33);

/// How long a joined name can be: eight names of 32 bytes, and three between each two (`joined-most`, crates/promises_names/proofs/Left.antt).
pub const LONGEST_JOINED: usize = 277;

/// How many places the lists of one question may have.
pub const MOST_PLACES: usize = 4096;

impl Name {
    /// The bytes that are the name: at most 32, whatever the length says.
    #[must_use]
    pub fn as_bytes(&self) -> &[u8] {
        &self.bytes[..usize::from(self.length).min(32)]
    }
}

/// A subgroup: the handle of its factor, and the factors of the overgroup in which it is (`over`), those multiplied on below them
/// (`below`), which are the faster digits, and those above.
#[derive(Clone, Debug, Default, PartialEq, Eq)]
#[non_exhaustive]
pub struct Sides {
    /// 128 numbers: the factor's five, how many are below, over and above, and 40 for each of these.
    pub numbers: Vec<u32>,
}

impl Sides {
    /// The numbers of a subgroup. Of more than eight factors the first eight are told, and how many they are.
    #[must_use]
    pub fn new(factor: Handle, below: &Handles, over: &Handles, above: &Handles) -> Self {
        let mut numbers = factor.numbers().to_vec();
        numbers.extend([below, over, above].map(|side| u32::from(side.count)));
        for side in [below, over, above] {
            let end = numbers.len() + 40;
            numbers.extend(side.numbers.iter().take(40));
            numbers.resize(end, 0);
        }
        Sides { numbers }
    }
}

/// What adding an element answers, and the builder that goes on: one with no elements, which fits no buffer, where the build ended.
#[derive(Clone, Copy, Debug, PartialEq, Eq)]
#[non_exhaustive]
#[must_use]
pub struct Grown {
    /// The new element.
    pub answer: Answer<u32>,
    /// The builder that goes on.
    pub builder: Handle,
}

type In = *const u32;
type Out = *mut u32;

unsafe extern "C" {
    fn hg_composed(t: Out, tn: usize, start: usize, w: Out, wn: usize, r: In, rn: usize, n: u8, room: u32, o: Out, on: usize) -> u32;
    fn hg_enumerate(t: Out, tn: usize, start: usize, w: Out, wn: usize, m: In, mn: usize, n: u8, room: u32, o: Out, on: usize) -> u32;
    fn hg_begin(t: Out, tn: usize, start: usize, room: u32, n: u8, o: Out, on: usize) -> u32;
    fn hg_add(t: Out, tn: usize, start: usize, room: u32, n: u8, count: u32, e: u32, g: u8, o: Out, on: usize) -> u32;
    fn hg_set(t: Out, tn: usize, start: usize, room: u32, n: u8, count: u32, e: u32, g: u8, x: u32) -> u64;
    fn hg_build(t: Out, tn: usize, start: usize, room: u32, n: u8, count: u32, w: Out, wn: usize, o: Out, on: usize) -> u32;
    fn hg_image_write(t: In, tn: usize, start: usize, room: u32, n: u8, count: u32, o: *mut u8, on: usize) -> u64;
    fn hg_image_read(i: *const u8, len: usize, t: Out, tn: usize, start: usize, w: Out, wn: usize, o: Out, on: usize) -> u32;
    fn hg_image_check(i: *const u8, len: usize, w: *mut u8, wn: usize) -> u32;
    fn hg_image_need(i: *const u8, len: usize) -> u64;
    fn hg_image_verdict(i: *const u8, len: usize, w: *mut u8, wn: usize, o: Out, on: usize) -> u32;
    fn hg_image_walk(i: *const u8, len: usize, start: u32, w: *const u8, wn: usize) -> u32;

    fn hg_count(t: In, tn: usize, start: usize, room: u32, n: u8, count: u32) -> u64;
    fn hg_step(t: In, tn: usize, start: usize, room: u32, n: u8, count: u32, e: u32, g: u8) -> u64;
    #[rustfmt::skip]
    fn hg_walk(t: In, tn: usize, start: usize, room: u32, n: u8, count: u32, e: u32, w: *const u8, wn: usize) -> u64;
    fn hg_compose(t: In, tn: usize, start: usize, room: u32, n: u8, count: u32, a: u32, b: u32) -> u64;
    fn hg_conjugate(t: In, tn: usize, start: usize, room: u32, n: u8, count: u32, a: u32, b: u32) -> u64;
    fn hg_inverse(t: In, tn: usize, start: usize, room: u32, n: u8, count: u32, a: u32) -> u64;
    fn hg_generator(t: In, tn: usize, start: usize, room: u32, n: u8, count: u32, g: u8) -> u64;
    fn hg_length(t: In, tn: usize, start: usize, room: u32, n: u8, count: u32, e: u32) -> u64;
    fn hg_word(t: In, tn: usize, start: usize, room: u32, n: u8, count: u32, e: u32, o: *mut u8, on: usize) -> u64;
    fn hg_part(t: In, tn: usize, start: usize, room: u32, n: u8, count: u32, e: u32, k: usize) -> u64;
    fn hg_check(t: In, tn: usize, start: usize, room: u32, n: u8, count: u32, m: In, mn: usize, o: Out, on: usize) -> u32;

    fn hg_product(t: In, tn: usize, a: In, an: usize, ac: u8, b: In, bn: usize, bc: u8, o: Out, on: usize) -> u32;
    fn hg_product_count(t: In, tn: usize, h: In, hn: usize, count: u8) -> u64;
    fn hg_product_generators(t: In, tn: usize, h: In, hn: usize, count: u8) -> u64;
    fn hg_product_generator(t: In, tn: usize, h: In, hn: usize, count: u8, g: u8) -> u64;
    fn hg_product_step(t: In, tn: usize, h: In, hn: usize, count: u8, e: u32, g: u8) -> u64;
    fn hg_product_walk(t: In, tn: usize, h: In, hn: usize, count: u8, e: u32, w: *const u8, wn: usize) -> u64;
    fn hg_product_project(t: In, tn: usize, h: In, hn: usize, count: u8, f: u8, e: u32) -> u64;
    fn hg_product_inject(t: In, tn: usize, h: In, hn: usize, count: u8, f: u8, e: u32) -> u64;
    fn hg_product_compose(t: In, tn: usize, h: In, hn: usize, count: u8, a: u32, b: u32) -> u64;
    fn hg_product_inverse(t: In, tn: usize, h: In, hn: usize, count: u8, a: u32) -> u64;
    fn hg_product_conjugate(t: In, tn: usize, h: In, hn: usize, count: u8, a: u32, b: u32) -> u64;
    fn hg_product_powi(t: In, tn: usize, h: In, hn: usize, count: u8, a: u32, i: i32) -> u64;
    fn hg_product_period(t: In, tn: usize, h: In, hn: usize, count: u8, a: u32) -> u64;
    fn hg_product_length(t: In, tn: usize, h: In, hn: usize, count: u8, e: u32) -> u64;
    fn hg_product_split(t: In, tn: usize, h: In, hn: usize, count: u8, e: u32, o: Out, on: usize) -> u64;
    fn hg_product_join(t: In, tn: usize, h: In, hn: usize, count: u8, d: In, dn: usize) -> u64;
    fn hg_product_word(t: In, tn: usize, h: In, hn: usize, count: u8, e: u32, o: *mut u8, on: usize) -> u64;
    #[rustfmt::skip]
    fn hg_product_flatten(
        f: In,
        fl: usize,
        h: In,
        hn: usize,
        count: u8,
        t: Out,
        tn: usize,
        start: usize,
        w: Out,
        wn: usize,
        room: u32,
        o: Out,
        on: usize,
    ) -> u32;
}

#[rustfmt::skip]
unsafe extern "C" {
    fn hg_composed_named(t: Out, tn: usize, start: usize, w: Out, wn: usize, r: In, rn: usize, n: u8, room: u32, m: *const u8, mn: usize, o: Out, on: usize, k: *mut u8, kn: usize) -> u32;
    fn hg_enumerate_named(t: Out, tn: usize, start: usize, w: Out, wn: usize, p: In, pn: usize, n: u8, room: u32, m: *const u8, mn: usize, o: Out, on: usize, k: *mut u8, kn: usize) -> u32;
    fn hg_begin_named(t: Out, tn: usize, start: usize, room: u32, n: u8, m: *const u8, mn: usize, o: Out, on: usize, k: *mut u8, kn: usize) -> u32;
    fn hg_joined(t: In, tn: usize, h: In, hn: usize, count: u8, m: *const u8, mn: usize, o: *mut u8, on: usize) -> u64;
    fn hg_joined_part(t: In, tn: usize, h: In, hn: usize, count: u8, m: *const u8, mn: usize, k: usize) -> u64;
}

#[rustfmt::skip]
unsafe extern "C" {
    fn hg_compose_each(t: In, tn: usize, start: usize, room: u32, n: u8, count: u32, a: In, an: usize, b: In, bn: usize, o: Out, on: usize, told: Out, len: usize) -> u32;
    fn hg_inverse_each(t: In, tn: usize, start: usize, room: u32, n: u8, count: u32, a: In, an: usize, o: Out, on: usize, told: Out, len: usize) -> u32;
    fn hg_powi_each(t: In, tn: usize, start: usize, room: u32, n: u8, count: u32, a: In, an: usize, i: *const i32, il: usize, o: Out, on: usize, told: Out, len: usize) -> u32;
    fn hg_product_compose_each(t: In, tn: usize, h: In, hn: usize, count: u8, a: In, an: usize, b: In, bn: usize, o: Out, on: usize, told: Out, len: usize) -> u32;
    fn hg_product_inverse_each(t: In, tn: usize, h: In, hn: usize, count: u8, a: In, an: usize, o: Out, on: usize, told: Out, len: usize) -> u32;
    fn hg_product_powi_each(t: In, tn: usize, h: In, hn: usize, count: u8, a: In, an: usize, i: *const i32, il: usize, o: Out, on: usize, told: Out, len: usize) -> u32;
}

#[rustfmt::skip]
unsafe extern "C" {
    fn hg_subgroup(f: In, fl: usize, h: In, hn: usize, count: u8, g: In, gn: usize, t: Out, tn: usize, start: usize, w: Out, wn: usize, i: Out, il: usize, b: Out, bl: usize, room: u32, o: Out, on: usize) -> u32;
    fn hg_subgroup_predicate(f: In, fl: usize, h: In, hn: usize, count: u8, m: *const u8, mn: usize, t: Out, tn: usize, start: usize, w: Out, wn: usize, i: Out, il: usize, b: Out, bl: usize, room: u32, o: Out, on: usize) -> u32;
    fn hg_subgroup_over(f: In, fl: usize, t: In, tn: usize, s: In, sn: usize, b: In, bl: usize, e: u32) -> u64;
    fn hg_subgroup_back(f: In, fl: usize, t: In, tn: usize, s: In, sn: usize, i: In, il: usize, x: u32) -> u64;
    fn hg_subgroup_generator(f: In, fl: usize, t: In, tn: usize, s: In, sn: usize, b: In, bl: usize, g: u8) -> u64;
    fn hg_subgroup_generators(f: In, fl: usize, t: In, tn: usize, s: In, sn: usize) -> u64;
    fn hg_subgroup_left(f: In, fl: usize, t: In, tn: usize, h: In, hn: usize, count: u8, s: In, sn: usize, o: Out, on: usize) -> u32;
    fn hg_subgroup_right(f: In, fl: usize, t: In, tn: usize, s: In, sn: usize, h: In, hn: usize, count: u8, o: Out, on: usize) -> u32;
}

/// A question of a factor, in the table slice `$t` with the handle `$h`. The other arguments are numbers, or the pointer and the
/// length of a slice that lives through the call.
macro_rules! ask {
    ($call:ident, $t:expr, $h:expr $(, $x:expr)*) => {
        // SAFETY: the table's own pointer and length, and what is said at the head of this file.
        unsafe { $call($t.as_ptr(), $t.len(), $h.start, $h.room, $h.generators, $h.elements $(, $x)*) }
    };
}

/// A question of a product.
macro_rules! ask_product {
    ($call:ident, $t:expr, $p:expr $(, $x:expr)*) => {
        // SAFETY: the pointers and lengths of the table and of the handles' list, and what is said at the head of this file.
        unsafe { $call($t.as_ptr(), $t.len(), $p.numbers.as_ptr(), $p.numbers.len(), $p.count $(, $x)*) }
    };
}

/// A question of a subgroup.
macro_rules! ask_subgroup {
    ($call:ident, $from:expr, $t:expr, $s:expr $(, $x:expr)*) => {
        // SAFETY: the pointers and lengths of both tables and of the subgroup's list, and what is said at the head of this file.
        unsafe { $call($from.as_ptr(), $from.len(), $t.as_ptr(), $t.len(), $s.numbers.as_ptr(), $s.numbers.len() $(, $x)*) }
    };
}

#[inline]
fn coded(x: u64) -> Answer<u32> {
    let (number, value) = ((x >> 32) as u32, x as u32);
    if number == 0 { Ok(value) } else { Err(Refusal::new(number, [value, 0, 0])) }
}

/// The number that was returned, with the places that stand behind it in the list.
fn verdict(number: u32, out: &[u32]) -> Answer<u32> {
    if number == 0 { Ok(out[1]) } else { Err(Refusal::new(number, [out[1], out[2], out[3]])) }
}

fn made(number: u32, out: [u32; 5], start: usize, room: u32, generators: u8) -> Answer<Handle> {
    verdict(number, &out).map(|_| Handle { start, room, generators, elements: out[4] })
}

/// A factor from composed rows: `rows` has n numbers for each element of the room, element by element; those that are not reached are not read.
pub fn composed(t: &mut [u32], start: usize, w: &mut [u32], rows: &[u32], n: u8, room: u32) -> Answer<Handle> {
    let mut out = [0; 5];
    // SAFETY: pointers and lengths of slices, as said at the head of this file.
    let number = unsafe {
        hg_composed(t.as_mut_ptr(), t.len(), start, w.as_mut_ptr(), w.len(), rows.as_ptr(), rows.len(), n, room, out.as_mut_ptr(), 5)
    };
    made(number, out, start, room, n)
}

/// A factor from pair orders: n(n - 1)/2 of them, for the pairs (0,1), (0,2), (1,2), (0,3) and so on.
pub fn enumerate(t: &mut [u32], start: usize, w: &mut [u32], orders: &[u32], n: u8, room: u32) -> Answer<Handle> {
    let mut out = [0; 5];
    // SAFETY: pointers and lengths of slices, as said at the head of this file.
    let number = unsafe {
        hg_enumerate(t.as_mut_ptr(), t.len(), start, w.as_mut_ptr(), w.len(), orders.as_ptr(), orders.len(), n, room, out.as_mut_ptr(), 5)
    };
    made(number, out, start, room, n)
}

/// Begins a build.
pub fn begin(t: &mut [u32], start: usize, room: u32, n: u8) -> Answer<Handle> {
    let mut out = [0; 5];
    // SAFETY: pointers and lengths of slices, as said at the head of this file.
    let number = unsafe { hg_begin(t.as_mut_ptr(), t.len(), start, room, n, out.as_mut_ptr(), 5) };
    made(number, out, start, room, n)
}

/// What a call with a name comes to, which is lent five numbers and the 33 bytes of a name that it writes.
fn made_named(start: usize, room: u32, generators: u8, call: impl FnOnce(Out, *mut u8) -> u32) -> Answer<(Handle, Name)> {
    let (mut out, mut name) = ([0; 5], Name::default());
    let number = call(out.as_mut_ptr(), (&raw mut name).cast());
    made(number, out, start, room, generators).map(|handle| (handle, name))
}

/// As [`composed`], of a factor with a name of at most 32 bytes; a longer one is 18, after 1 and 4 and before the build.
pub fn composed_named(t: &mut [u32], start: usize, w: &mut [u32], rows: &[u32], n: u8, room: u32, name: &[u8]) -> Answer<(Handle, Name)> {
    let (t, tn, w, wn, r, rn) = (t.as_mut_ptr(), t.len(), w.as_mut_ptr(), w.len(), rows.as_ptr(), rows.len());
    let (m, mn) = (name.as_ptr(), name.len());
    // SAFETY: pointers and lengths of slices, as said at the head of this file, and of what `made_named` lends.
    made_named(start, room, n, |out, kept| unsafe { hg_composed_named(t, tn, start, w, wn, r, rn, n, room, m, mn, out, 5, kept, 33) })
}

/// As [`enumerate`], of a factor with a name of at most 32 bytes; a longer one is 18, after 1 to 4 and before the build.
pub fn enumerate_named(
    t: &mut [u32],
    start: usize,
    w: &mut [u32],
    orders: &[u32],
    n: u8,
    room: u32,
    name: &[u8],
) -> Answer<(Handle, Name)> {
    let (t, tn, w, wn, p, pn) = (t.as_mut_ptr(), t.len(), w.as_mut_ptr(), w.len(), orders.as_ptr(), orders.len());
    let (m, mn) = (name.as_ptr(), name.len());
    // SAFETY: as in `composed_named`.
    made_named(start, room, n, |out, kept| unsafe { hg_enumerate_named(t, tn, start, w, wn, p, pn, n, room, m, mn, out, 5, kept, 33) })
}

/// As [`begin`], of a factor with a name of at most 32 bytes, which is kept beside the builder; a longer one is 18, after 1 and 4.
pub fn begin_named(t: &mut [u32], start: usize, room: u32, n: u8, name: &[u8]) -> Answer<(Handle, Name)> {
    let (t, tn, m, mn) = (t.as_mut_ptr(), t.len(), name.as_ptr(), name.len());
    // SAFETY: as in `composed_named`.
    made_named(start, room, n, |out, kept| unsafe { hg_begin_named(t, tn, start, room, n, m, mn, out, 5, kept, 33) })
}

/// A new element, reached from `e` by `g`.
pub fn add(t: &mut [u32], b: Handle, e: u32, g: u8) -> Grown {
    let mut out = [0; 5];
    // SAFETY: pointers and lengths of slices, as said at the head of this file.
    let number = unsafe { hg_add(t.as_mut_ptr(), t.len(), b.start, b.room, b.generators, b.elements, e, g, out.as_mut_ptr(), 5) };
    let none = Handle { start: 0, room: 0, generators: 0, elements: 0 };
    Grown { answer: verdict(number, &out), builder: if out[4] == 0 { none } else { Handle { elements: out[4], ..b } } }
}

/// Stores the step from `e` by `g` to `x`; whether the place was new.
#[inline]
pub fn set(t: &mut [u32], b: Handle, e: u32, g: u8, x: u32) -> Answer<bool> {
    // SAFETY: pointers and lengths of slices, as said at the head of this file.
    coded(unsafe { hg_set(t.as_mut_ptr(), t.len(), b.start, b.room, b.generators, b.elements, e, g, x) }).map(|new| new == 1)
}

/// Checks what was built, and makes it a factor.
pub fn build(t: &mut [u32], b: Handle, w: &mut [u32]) -> Answer<Handle> {
    let mut out = [0; 5];
    // SAFETY: pointers and lengths of slices, as said at the head of this file.
    let number = unsafe {
        hg_build(t.as_mut_ptr(), t.len(), b.start, b.room, b.generators, b.elements, w.as_mut_ptr(), w.len(), out.as_mut_ptr(), 5)
    };
    made(number, out, b.start, b.room, b.generators)
}

/// Writes the image of a factor to the start of a buffer; its length.
pub fn image_write(t: &[u32], h: Handle, out: &mut [u8]) -> Answer<u32> {
    coded(ask!(hg_image_write, t, h, out.as_mut_ptr(), out.len()))
}

/// Builds the factor that an image stores. Its generators and its room are those of the image's head.
pub fn image_read(image: &[u8], t: &mut [u32], start: usize, w: &mut [u32]) -> Answer<Handle> {
    let mut out = [0; 5];
    // SAFETY: pointers and lengths of slices, as said at the head of this file.
    let number =
        unsafe { hg_image_read(image.as_ptr(), image.len(), t.as_mut_ptr(), t.len(), start, w.as_mut_ptr(), w.len(), out.as_mut_ptr(), 5) };
    let n = image.get(5).copied().unwrap_or(0);
    made(number, out, start, out[4], n)
}

/// Checks an image in lent bytes: the refusal's number, or 0. [`image_need`] tells how many bytes of work it needs.
#[must_use]
pub fn image_check(image: &[u8], work: &mut [u8]) -> u32 {
    // SAFETY: pointers and lengths of slices, as said at the head of this file.
    unsafe { hg_image_check(image.as_ptr(), image.len(), work.as_mut_ptr(), work.len()) }
}

/// How many bytes of work a check of the image needs. Refused with 16 or 1 where the head is wrong, and with 16 where it says no generator and more than one
/// element: no work makes the check accept such an image.
pub fn image_need(image: &[u8]) -> Answer<u32> {
    // SAFETY: the pointer and the length of a slice, as said at the head of this file.
    coded(unsafe { hg_image_need(image.as_ptr(), image.len()) })
}

/// Checks an image in lent bytes, as [`image_check`] does, and tells the places too.
pub fn image_verdict(image: &[u8], work: &mut [u8]) -> Answer<()> {
    let mut out = [0; 4];
    // SAFETY: pointers and lengths of slices, as said at the head of this file.
    let number = unsafe { hg_image_verdict(image.as_ptr(), image.len(), work.as_mut_ptr(), work.len(), out.as_mut_ptr(), 4) };
    verdict(number, &out).map(drop)
}

/// Walks a word of generators from an element: the element reached, or 65,536 + the refusal's number.
#[inline]
#[must_use]
pub fn image_walk(image: &[u8], start: u32, word: &[u8]) -> u32 {
    // SAFETY: pointers and lengths of slices, as said at the head of this file.
    unsafe { hg_image_walk(image.as_ptr(), image.len(), start, word.as_ptr(), word.len()) }
}

/// How many elements the factor has.
#[inline]
pub fn count(t: &[u32], h: Handle) -> Answer<u32> {
    coded(ask!(hg_count, t, h))
}

/// The step from `e` by `g`.
#[inline]
pub fn step(t: &[u32], h: Handle, e: u32, g: u8) -> Answer<u32> {
    coded(ask!(hg_step, t, h, e, g))
}

/// Where the generators of `word` lead from `from`, one after another. The start has position 0 in a refusal 14, the generator at i has i + 1.
#[inline]
pub fn walk(t: &[u32], h: Handle, from: u32, word: &[u8]) -> Answer<u32> {
    coded(ask!(hg_walk, t, h, from, word.as_ptr(), word.len()))
}

/// The product of two elements.
#[inline]
pub fn compose(t: &[u32], h: Handle, a: u32, b: u32) -> Answer<u32> {
    coded(ask!(hg_compose, t, h, a, b))
}

/// a·b·a⁻¹.
#[inline]
pub fn conjugate(t: &[u32], h: Handle, a: u32, b: u32) -> Answer<u32> {
    coded(ask!(hg_conjugate, t, h, a, b))
}

/// The inverse of an element.
#[inline]
pub fn inverse(t: &[u32], h: Handle, a: u32) -> Answer<u32> {
    coded(ask!(hg_inverse, t, h, a))
}

/// The element of a generator.
#[inline]
pub fn generator(t: &[u32], h: Handle, g: u8) -> Answer<u32> {
    coded(ask!(hg_generator, t, h, g))
}

/// How long the recorded word of an element is.
#[inline]
pub fn length(t: &[u32], h: Handle, e: u32) -> Answer<u32> {
    coded(ask!(hg_length, t, h, e))
}

/// Writes the recorded word of an element to the start of a buffer; its length.
#[inline]
pub fn word(t: &[u32], h: Handle, e: u32, out: &mut [u8]) -> Answer<u32> {
    coded(ask!(hg_word, t, h, e, out.as_mut_ptr(), out.len()))
}

/// The same word by the call that hands back the filled part of its buffer; empty where `word` refuses.
#[must_use]
pub fn part(t: &[u32], h: Handle, e: u32) -> Vec<u8> {
    let letter = |k: usize| u8::try_from(ask!(hg_part, t, h, e, k)).ok();
    (0..).map_while(letter).collect()
}

/// One handle as the list of a product.
struct One {
    numbers: [u32; 5],
    count: u8,
}

impl One {
    fn of(h: Handle) -> Self {
        One { numbers: h.numbers(), count: 1 }
    }
}

/// The power of an element of one factor, which is a product's of that factor alone.
#[inline]
pub fn powi(t: &[u32], h: Handle, a: u32, i: i32) -> Answer<u32> {
    let one = One::of(h);
    coded(ask_product!(hg_product_powi, t, one, a, i))
}

/// The least power, from 1 on, of an element of one factor that is the identity.
#[inline]
pub fn period(t: &[u32], h: Handle, a: u32) -> Answer<u32> {
    let one = One::of(h);
    coded(ask_product!(hg_product_period, t, one, a))
}

/// What a question over lists answers, which is lent the five numbers of its verdict.
#[inline]
fn listed(call: impl FnOnce(Out) -> u32) -> Result<(), ListRefusal> {
    let mut told = [0; 5];
    let number = call(told.as_mut_ptr());
    if number == 0 { Ok(()) } else { Err(ListRefusal::told(told)) }
}

/// Writes the product of the elements of `a` and `b` at each place to that of `out`. The three lists are of one length, of at most
/// [`MOST_PLACES`]: else 4, before anything else is looked at. Then the first place that [`compose`] refuses is told, and `out` is as it was.
#[inline]
pub fn compose_each(t: &[u32], h: Handle, a: &[u32], b: &[u32], out: &mut [u32]) -> Result<(), ListRefusal> {
    let (a, an, b, bn, o, on) = (a.as_ptr(), a.len(), b.as_ptr(), b.len(), out.as_mut_ptr(), out.len());
    listed(|told| ask!(hg_compose_each, t, h, a, an, b, bn, o, on, told, 5))
}

/// The inverse of the element at each place, in the same way.
#[inline]
pub fn inverse_each(t: &[u32], h: Handle, a: &[u32], out: &mut [u32]) -> Result<(), ListRefusal> {
    let (a, an, o, on) = (a.as_ptr(), a.len(), out.as_mut_ptr(), out.len());
    listed(|told| ask!(hg_inverse_each, t, h, a, an, o, on, told, 5))
}

/// The power of the element at each place by the exponent there, in the same way.
#[inline]
pub fn powi_each(t: &[u32], h: Handle, a: &[u32], exponents: &[i32], out: &mut [u32]) -> Result<(), ListRefusal> {
    let (a, an, i, il, o, on) = (a.as_ptr(), a.len(), exponents.as_ptr(), exponents.len(), out.as_mut_ptr(), out.len());
    listed(|told| ask!(hg_powi_each, t, h, a, an, i, il, o, on, told, 5))
}

/// As [`compose_each`], in a product.
#[inline]
pub fn product_compose_each(t: &[u32], p: &Handles, a: &[u32], b: &[u32], out: &mut [u32]) -> Result<(), ListRefusal> {
    let (a, an, b, bn, o, on) = (a.as_ptr(), a.len(), b.as_ptr(), b.len(), out.as_mut_ptr(), out.len());
    listed(|told| ask_product!(hg_product_compose_each, t, p, a, an, b, bn, o, on, told, 5))
}

/// As [`inverse_each`], in a product.
#[inline]
pub fn product_inverse_each(t: &[u32], p: &Handles, a: &[u32], out: &mut [u32]) -> Result<(), ListRefusal> {
    let (a, an, o, on) = (a.as_ptr(), a.len(), out.as_mut_ptr(), out.len());
    listed(|told| ask_product!(hg_product_inverse_each, t, p, a, an, o, on, told, 5))
}

/// As [`powi_each`], in a product.
#[inline]
pub fn product_powi_each(t: &[u32], p: &Handles, a: &[u32], exponents: &[i32], out: &mut [u32]) -> Result<(), ListRefusal> {
    let (a, an, i, il, o, on) = (a.as_ptr(), a.len(), exponents.as_ptr(), exponents.len(), out.as_mut_ptr(), out.len());
    listed(|told| ask_product!(hg_product_powi_each, t, p, a, an, i, il, o, on, told, 5))
}

/// Checks a factor against pair orders.
pub fn check(t: &[u32], h: Handle, orders: &[u32]) -> Answer<()> {
    let mut out = [0; 4];
    let number = ask!(hg_check, t, h, orders.as_ptr(), orders.len(), out.as_mut_ptr(), 4);
    verdict(number, &out).map(drop)
}

/// The product of two products, whose factors stand one after the other in both lists; how many factors it has.
pub fn product(t: &[u32], a: &Handles, b: &Handles) -> Answer<u32> {
    let mut out = [0; 5];
    let (second, len) = (b.numbers.as_ptr(), b.numbers.len());
    let number = ask_product!(hg_product, t, a, second, len, b.count, out.as_mut_ptr(), 5);
    verdict(number, &out).map(|_| out[4])
}

/// How many elements a product has.
#[inline]
pub fn product_count(t: &[u32], p: &Handles) -> Answer<u32> {
    coded(ask_product!(hg_product_count, t, p))
}

/// How many generators a product has.
#[inline]
pub fn product_generators(t: &[u32], p: &Handles) -> Answer<u32> {
    coded(ask_product!(hg_product_generators, t, p))
}

/// The element of a generator of a product.
#[inline]
pub fn product_generator(t: &[u32], p: &Handles, g: u8) -> Answer<u32> {
    coded(ask_product!(hg_product_generator, t, p, g))
}

/// The step from `e` by `g` in a product.
#[inline]
pub fn product_step(t: &[u32], p: &Handles, e: u32, g: u8) -> Answer<u32> {
    coded(ask_product!(hg_product_step, t, p, e, g))
}

/// Where the generators of `word` lead from `from` in a product, one after another. Positions are as for [`walk`].
#[inline]
pub fn product_walk(t: &[u32], p: &Handles, from: u32, word: &[u8]) -> Answer<u32> {
    coded(ask_product!(hg_product_walk, t, p, from, word.as_ptr(), word.len()))
}

/// The digit of `e` for the factor `f`.
#[inline]
pub fn product_project(t: &[u32], p: &Handles, f: u8, e: u32) -> Answer<u32> {
    coded(ask_product!(hg_product_project, t, p, f, e))
}

/// The element that is `e` in the factor `f` and the identity in the others.
#[inline]
pub fn product_inject(t: &[u32], p: &Handles, f: u8, e: u32) -> Answer<u32> {
    coded(ask_product!(hg_product_inject, t, p, f, e))
}

/// The product of two elements of a product.
#[inline]
pub fn product_compose(t: &[u32], p: &Handles, a: u32, b: u32) -> Answer<u32> {
    coded(ask_product!(hg_product_compose, t, p, a, b))
}

/// The inverse of an element of a product.
#[inline]
pub fn product_inverse(t: &[u32], p: &Handles, a: u32) -> Answer<u32> {
    coded(ask_product!(hg_product_inverse, t, p, a))
}

/// a·b·a⁻¹ in a product.
#[inline]
pub fn product_conjugate(t: &[u32], p: &Handles, a: u32, b: u32) -> Answer<u32> {
    coded(ask_product!(hg_product_conjugate, t, p, a, b))
}

/// The power of an element of a product.
#[inline]
pub fn product_powi(t: &[u32], p: &Handles, a: u32, i: i32) -> Answer<u32> {
    coded(ask_product!(hg_product_powi, t, p, a, i))
}

/// The least power of an element that is the identity, from 1 on.
#[inline]
pub fn product_period(t: &[u32], p: &Handles, a: u32) -> Answer<u32> {
    coded(ask_product!(hg_product_period, t, p, a))
}

/// How long the recorded word of an element of a product is.
#[inline]
pub fn product_length(t: &[u32], p: &Handles, e: u32) -> Answer<u32> {
    coded(ask_product!(hg_product_length, t, p, e))
}

/// The digits of an element, written to the start of a list; how many they are.
#[inline]
pub fn product_split(t: &[u32], p: &Handles, e: u32, out: &mut [u32]) -> Answer<u32> {
    coded(ask_product!(hg_product_split, t, p, e, out.as_mut_ptr(), out.len()))
}

/// The element with the digits that a list starts with.
#[inline]
pub fn product_join(t: &[u32], p: &Handles, digits: &[u32]) -> Answer<u32> {
    coded(ask_product!(hg_product_join, t, p, digits.as_ptr(), digits.len()))
}

/// Writes the recorded word of an element of a product to the start of a buffer; its length.
#[inline]
pub fn product_word(t: &[u32], p: &Handles, e: u32, out: &mut [u8]) -> Answer<u32> {
    coded(ask_product!(hg_product_word, t, p, e, out.as_mut_ptr(), out.len()))
}

/// Writes the joined name of a product, the names of its factors in order with " x " between each two, to the start of a buffer; its length.
/// What a handle that does not fit is refused with, 17, is a name whose length is above 32 too, and a list of names that does not have one
/// for each factor; then 15; then 18 for a buffer that is shorter than the joined name.
#[inline]
pub fn joined(t: &[u32], p: &Handles, names: &[Name], out: &mut [u8]) -> Answer<u32> {
    let (m, mn) = bytes_of(names);
    coded(ask_product!(hg_joined, t, p, m, mn, out.as_mut_ptr(), out.len()))
}

/// The same joined name by the call that hands back the filled part of a buffer, which is as long as any; empty where `joined` refuses
/// with 17 or 15.
#[must_use]
pub fn joined_part(t: &[u32], p: &Handles, names: &[Name]) -> Vec<u8> {
    let (m, mn) = bytes_of(names);
    let byte = |k: usize| u8::try_from(ask_product!(hg_joined_part, t, p, m, mn, k)).ok();
    (0..).map_while(byte).collect()
}

/// Names as the bytes that they are: 33 for each.
fn bytes_of(names: &[Name]) -> (*const u8, usize) {
    (names.as_ptr().cast(), size_of_val(names))
}

/// One factor that is the product, with its numbers. It has as many generators as `generators` says the product has.
pub fn product_flatten(from: &[u32], p: &Handles, generators: u8, t: &mut [u32], start: usize, w: &mut [u32], room: u32) -> Answer<Handle> {
    let mut out = [0; 5];
    let (table, tn, work, wn) = (t.as_mut_ptr(), t.len(), w.as_mut_ptr(), w.len());
    let number = ask_product!(hg_product_flatten, from, p, table, tn, start, work, wn, room, out.as_mut_ptr(), 5);
    made(number, out, start, room, generators)
}

/// The lent buffers of a subgroup, which are told apart by their names.
#[derive(Debug)]
pub struct SubgroupBuffers<'a> {
    /// Where its factor is built: `start` and [`table_need`](crate::raw::table_need) numbers.
    pub table: &'a mut [u32],
    /// The work of that build: [`work_need`](crate::raw::work_need) numbers.
    pub work: &'a mut [u32],
    /// The map from the overgroup to it: as many numbers as the overgroup has elements.
    pub inward: &'a mut [u32],
    /// The map back: as many numbers as the room.
    pub outward: &'a mut [u32],
}

/// The pointers and lengths of these, in the order of the exported functions.
macro_rules! ask_buffers {
    ($call:ident, $from:expr, $over:expr, $list:expr, $lent:expr, $start:expr, $room:expr) => {{
        let mut out = [0; 6];
        let SubgroupBuffers { table: t, work: w, inward: i, outward: b } = $lent;
        let (t, tn, w, wn) = (t.as_mut_ptr(), t.len(), w.as_mut_ptr(), w.len());
        let (i, il, b, bl) = (i.as_mut_ptr(), i.len(), b.as_mut_ptr(), b.len());
        let (list, len) = ($list.as_ptr(), $list.len());
        let number = ask_product!($call, $from, $over, list, len, t, tn, $start, w, wn, i, il, b, bl, $room, out.as_mut_ptr(), 6);
        verdict(number, &out).map(|_| Handle { start: $start, room: $room, generators: out[5] as u8, elements: out[4] })
    }};
}

/// The subgroup that elements of a product generate, built into the stretch of the table that starts at `start`. It has a generator for each number of
/// `generators`, and table and work are for so many.
pub fn subgroup(from: &[u32], over: &Handles, generators: &[u32], lent: SubgroupBuffers<'_>, start: usize, room: u32) -> Answer<Handle> {
    ask_buffers!(hg_subgroup, from, over, generators, lent, start, room)
}

/// The same from `members`, a byte for each element of the product, not 0 for a member; table and work are as for eight generators.
pub fn subgroup_predicate(
    from: &[u32],
    over: &Handles,
    members: &[u8],
    lent: SubgroupBuffers<'_>,
    start: usize,
    room: u32,
) -> Answer<Handle> {
    ask_buffers!(hg_subgroup_predicate, from, over, members, lent, start, room)
}

/// The element of the overgroup that the subgroup's `e` is.
#[inline]
pub fn subgroup_over(from: &[u32], table: &[u32], s: &Sides, outward: &[u32], e: u32) -> Answer<u32> {
    coded(ask_subgroup!(hg_subgroup_over, from, table, s, outward.as_ptr(), outward.len(), e))
}

/// The element of the subgroup that the overgroup's `x` is; 4,294,967,295 where it is not in it.
#[inline]
pub fn subgroup_back(from: &[u32], table: &[u32], s: &Sides, inward: &[u32], x: u32) -> Answer<u32> {
    coded(ask_subgroup!(hg_subgroup_back, from, table, s, inward.as_ptr(), inward.len(), x))
}

/// The element of the overgroup that a generator of the subgroup is.
#[inline]
pub fn subgroup_generator(from: &[u32], table: &[u32], s: &Sides, outward: &[u32], g: u8) -> Answer<u32> {
    coded(ask_subgroup!(hg_subgroup_generator, from, table, s, outward.as_ptr(), outward.len(), g))
}

/// How many generators the subgroup has, with those of what is multiplied on.
pub fn subgroup_generators(from: &[u32], table: &[u32], s: &Sides) -> Answer<u32> {
    coded(ask_subgroup!(hg_subgroup_generators, from, table, s))
}

/// Whether the factors of `g`, which stand where the overgroup's do, can be multiplied on below the subgroup.
pub fn subgroup_left(from: &[u32], table: &[u32], g: &Handles, s: &Sides) -> Answer<()> {
    let mut out = [0; 4];
    let (h, hn, sides, sn) = (g.numbers.as_ptr(), g.numbers.len(), s.numbers.as_ptr(), s.numbers.len());
    // SAFETY: pointers and lengths of slices, as said at the head of this file.
    let number =
        unsafe { hg_subgroup_left(from.as_ptr(), from.len(), table.as_ptr(), table.len(), h, hn, g.count, sides, sn, out.as_mut_ptr(), 4) };
    verdict(number, &out).map(drop)
}

/// Whether they can be multiplied on above it.
pub fn subgroup_right(from: &[u32], table: &[u32], s: &Sides, g: &Handles) -> Answer<()> {
    let mut out = [0; 4];
    let (h, hn) = (g.numbers.as_ptr(), g.numbers.len());
    let number = ask_subgroup!(hg_subgroup_right, from, table, s, h, hn, g.count, out.as_mut_ptr(), 4);
    verdict(number, &out).map(drop)
}

/// Elements as the numbers that a question over lists takes.
#[inline]
pub(crate) fn numbers(list: &[Element]) -> &[u32] {
    // SAFETY: `Element` is `repr(transparent)` over `u32`, so the same memory is as many numbers.
    unsafe { core::slice::from_raw_parts(list.as_ptr().cast(), list.len()) }
}

/// The same of a list that is written.
#[inline]
pub(crate) fn numbers_mut(list: &mut [Element]) -> &mut [u32] {
    // SAFETY: as in `numbers`, and every number is an `Element`.
    unsafe { core::slice::from_raw_parts_mut(list.as_mut_ptr().cast(), list.len()) }
}

/// Generators as the bytes that a walk takes.
pub(crate) fn letters(word: &[Generator]) -> &[u8] {
    // SAFETY: `Generator` is `repr(transparent)` over `u8`, so the same bytes are as many letters.
    unsafe { core::slice::from_raw_parts(word.as_ptr().cast(), word.len()) }
}
