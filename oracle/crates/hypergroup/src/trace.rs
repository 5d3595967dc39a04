//! What the traced copy of todd_coxeter.rs and the reading of a table tell
//! about where they were.
use std::cell::Cell;

/// The words that document 01 still records.
const WORD_LIMIT: usize = 4096;

thread_local! {
    /// The last (element, generator) asked for.
    static PLACE: Cell<(u32, u8)> = const { Cell::new((0, 0)) };
    /// The first place at which the new element's word passes the limit, with
    /// the elements there were by then.
    static LONG: Cell<Option<(u32, u8, usize)>> = const { Cell::new(None) };
}

pub fn reset() {
    PLACE.set((0, 0));
    LONG.set(None);
}
/// A number is read at a place.
pub fn read(e: u32, g: u8) {
    PLACE.set((e, g));
}
/// A new element is asked for at a place; `word` is the length of e's word.
pub fn ask(e: u32, g: u8, word: usize, count: usize) {
    PLACE.set((e, g));
    if word >= WORD_LIMIT && LONG.get().is_none() {
        LONG.set(Some((e, g, count)));
    }
}
pub fn place() -> (u32, u8) {
    PLACE.get()
}
pub fn long() -> Option<(u32, u8, usize)> {
    LONG.get()
}
