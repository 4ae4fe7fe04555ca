//! The services on packages in safe Rust, made for speed.
//!
//! The library's methods, on letters where the library has packed words: terms stay where they lie in the package's
//! bytes (the library packs them into a table), the working formula has 560 places of 72 letters and a list that says
//! which place each term has, a word's place is found by binary search, and the leftmost leading word by an index of
//! masks. What is tuned: texts are read in one pass, letters are copied and compared in blocks, and no word is built or
//! looked for twice.

#![forbid(unsafe_code)]

mod block;
mod check;
mod field;
mod formula;
mod leads;
mod number;
mod package;
mod pairs;
mod reader;
mod services;
mod steps;
mod sums;
mod terms;
mod working;

pub use services::{check, list_overlaps, member, short_form, Answer};

/// A refusal: its number, 1 to 19, and its place.
#[derive(Clone, Copy, Debug)]
pub(crate) struct Refusal {
    number: u32,
    place: usize,
}

#[cold]
pub(crate) fn refuse<T>(number: u32, place: usize) -> Result<T, Refusal> {
    Err(Refusal { number, place })
}
