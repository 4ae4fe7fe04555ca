//! A word that is packed: the oracle's answer beside that of the trial archive, and the ways to answer.

use crate::ways::Ways;
use oracle::packing::{pack, Packed, LONGEST};

/// The ways to answer.
enum Way {
    Empty,
    OneNumber,
    TwoNumbers,
    MoreNumbers,
    Longest,
    TooLong,
    NoLetter,
}

/// The ways in their order, as the table has them.
const NAMES: [&str; 7] = [
    "the empty word",
    "up to 12 letters",
    "up to 24 letters",
    "up to 71 letters",
    "72 letters",
    "more than 72 letters",
    "a byte that is no letter",
];

/// So many random rounds must meet every way: each has one such word for each of its inputs.
const ROUNDS: u64 = 20;

pub fn ways() -> Ways<{ NAMES.len() }> {
    Ways::new("a word packed", NAMES.map(|name| (name, ROUNDS)))
}

pub fn expect(word: &[u8]) -> Packed {
    pack(word)
}

/// Calls the trial archive, with the empty word as NULL and not, and compares. None: nothing differs.
pub fn difference(word: &[u8], expected: Packed) -> Option<String> {
    [false, true].into_iter().find_map(|null| {
        let trials::Packed { fits, blocks } = trials::pack((!null || !word.is_empty()).then_some(word));
        let answer = Packed { fits, blocks };
        let message = || {
            let answers = format!("the oracle answers {expected:?}\nthe archive answers {answer:?}");
            let (shown, length) = (word.escape_ascii(), word.len());
            format!("the word '{shown}' of {length} letters\nNULL for no letters: {null}\n{answers}\n")
        };
        (answer != expected).then(message)
    })
}

/// The way in which the answer is given, as a number.
pub fn way(word: &[u8], answer: Packed) -> usize {
    let way = match word.len() {
        length if length > LONGEST => Way::TooLong,
        _ if !answer.fits => Way::NoLetter,
        LONGEST => Way::Longest,
        0 => Way::Empty,
        1..=12 => Way::OneNumber,
        13..=24 => Way::TwoNumbers,
        _ => Way::MoreNumbers,
    };
    way as usize
}
