//! The crate's safe types beside its calls on lent buffers: what was made of right arguments is made both ways, and both must answer the
//! same, refusals included. Where a buffer was altered or lent short, or a handle forged, the calls alone can answer.
use super::*;
pub(crate) use hypergroup::{Builder, Checker, Element, Factor, Generator, Image, OwnedImage, Product, Stored, Subgroup, Unchecked};
use std::sync::atomic::{AtomicUsize, Ordering::Relaxed};

/// How many answers of safe types were compared.
static COMPARED: AtomicUsize = AtomicUsize::new(0);

pub(crate) fn compared() -> usize {
    COMPARED.load(Relaxed)
}

/// An answer of the calls, and that of a safe type.
fn hold<T: PartialEq + std::fmt::Debug>(answer: &T, other: &T) {
    COMPARED.fetch_add(1, Relaxed);
    assert_eq!(answer, other, "a safe type answers otherwise than the calls on buffers");
}

/// The answer of the calls, which a safe type must have given too where one was asked.
pub(crate) fn same<A: PartialEq + std::fmt::Debug>(answer: A, other: Option<A>) -> A {
    if let Some(other) = other {
        hold(&answer, &other);
    }
    answer
}

/// An element's number.
pub(crate) fn reached(answer: Answer<Element>) -> Answer<u32> {
    answer.map(|e| e.0)
}

/// A word's letters.
pub(crate) fn spelled(answer: Answer<Vec<Generator>>) -> Answer<Vec<u8>> {
    answer.map(|word| word.iter().map(|g| g.0).collect())
}

/// What was made both ways: it has as many generators and elements, or is refused the same.
pub(crate) fn made(answer: &Answer<Handle>, other: Answer<Factor>) -> Option<Factor> {
    let counts = other.as_ref().map(|f| (f.generator_count(), f.element_count())).map_err(|no| *no);
    hold(&answer.map(|h| (h.generators, h.elements)), &counts);
    other.ok()
}

/// The same with a name, which both have.
pub(crate) fn made_named(answer: &Answer<(Handle, Name)>, other: Answer<Factor>) -> Option<Factor> {
    let factor = made(&answer.map(|(handle, _)| handle), other);
    with_name(answer.as_ref().map_or(b"", |(_, name)| name.as_bytes()), factor)
}

/// A factor that must have this name.
pub(crate) fn with_name(name: &[u8], factor: Option<Factor>) -> Option<Factor> {
    if let Some(f) = &factor {
        hold(&name, &f.name());
    }
    factor
}

/// Composed rows, by a function that tells them, and as a list where its length says the room.
pub(crate) fn composed(answer: &Answer<(Handle, Name)>, n: u8, rows: &[u32], room: u32, name: &[u8]) -> Option<Factor> {
    let needed = room as usize * usize::from(n);
    if rows.len() < needed {
        return None;
    }
    let mut next = 0;
    let told = Factor::named(name).from_compose_fn(
        n,
        |e, g| {
            // Each place once, in order.
            let place = e.0 as usize * usize::from(n) + usize::from(g.0);
            assert_eq!(place, next, "a function was asked out of order");
            next += 1;
            Element(rows[place])
        },
        room,
    );
    let factor = made_named(answer, told);
    if n > 0 && (1..=65_535).contains(&room) {
        let listed = made_named(answer, Factor::named(name).from_rows(n, &rows[..needed]));
        assert_eq!(listed, factor, "rows told and rows listed make two factors");
    }
    factor
}

/// All that is printed of an element: its inverse, its word and its steps.
pub(crate) fn held_element(f: &Factor, e: u32, inverse: u32, word: &[u8], steps: &[u32]) {
    let told = f.generators().map(|g| reached(f.step(Element(e), g))).collect::<Answer<Vec<_>>>();
    hold(&Ok(inverse), &reached(f.inverse(Element(e))));
    hold(&Ok(word), &spelled(f.word(Element(e))).as_deref());
    hold(&Ok(steps), &told.as_deref());
}

/// The product of these factors: of all at once, and of two products of them.
pub(crate) fn product(counted: Answer<(u32, u32)>, factors: &[Option<Factor>]) -> Option<Product> {
    let factors: Vec<&Factor> = factors.iter().map(Option::as_ref).collect::<Option<_>>()?;
    let (first, rest) = factors.split_at(factors.len() / 2);
    let half = |part: &[&Factor]| Product::new(part.iter().copied());
    let joined = half(first).and_then(|first| &first * &half(rest)?);
    let whole = half(&factors);
    for made in [&whole, &joined] {
        let counts = made.as_ref().map(|p| (p.generator_count().into(), p.element_count())).map_err(|no| *no);
        hold(&counted, &counts);
    }
    assert!(whole.iter().all(|p| p.factors().eq(factors.iter().map(|&f| f.clone()))), "a product has other factors than it was made of");
    joined.ok()
}

impl super::Product {
    /// The one factor, where there is one.
    fn one(&self) -> Option<Factor> {
        self.safe.as_ref().filter(|p| p.factor_count() == 1).and_then(|p| p.factors().next())
    }

    /// An answer that the safe product must have given too, and its factor where it has one alone.
    pub(crate) fn agreed<A: PartialEq + std::fmt::Debug>(
        &self,
        answer: A,
        whole: impl FnOnce(&Product) -> A,
        one: impl FnOnce(&Factor) -> A,
    ) -> A {
        let answer = same(answer, self.safe.as_ref().map(whole));
        same(answer, self.one().as_ref().map(one))
    }
}

/// The same question to a product and to a factor.
macro_rules! both_safe {
    ($p:expr, $answer:expr, $x:ident => $asked:expr) => {
        $p.agreed($answer, |$x| $asked, |$x| $asked)
    };
}
pub(crate) use both_safe;

/// The number of an image's check, and of the owned one's.
pub(crate) fn held_check(image: &[u8], number: u32) {
    for checked in [Image::check(image).map(drop), OwnedImage::try_from(image).map(drop), OwnedImage::check(image).map(drop)] {
        hold(&number, &checked.err().map_or(0, |no| no.number));
    }
}

/// The verdict of an image's check, and of a checker without a limit and of one with the limit that just takes it.
pub(crate) fn held_verdict(image: &[u8], verdict: Result<(), Refusal>) {
    hold(&verdict, &Image::check(image).map(drop));
    for most in [super::image::head(image).1, u32::MAX] {
        hold(&verdict.map_err(Unchecked::Refused), &Checker::new(most).check(image).map(drop));
    }
}

/// The number of a walk over an image that the check takes.
pub(crate) fn held_walk(image: &[u8], start: u32, word: &[u8], number: u32) {
    let turns: Vec<Generator> = word.iter().copied().map(Generator).collect();
    let Ok(image) = Image::check(image) else { return };
    for walked in [image.walk(Element(start), &turns), OwnedImage::from(image).walk(Element(start), &turns)] {
        hold(&number, &walked.map_or_else(|no| 65_536 + no.number, |e| e.0));
    }
}
