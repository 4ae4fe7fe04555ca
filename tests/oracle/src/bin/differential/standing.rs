//! A word at a place of another: the oracle's answer beside that of the trial archive, and the ways to answer.

use crate::ways::Ways;
use oracle::generate::places::AtPlace;
use oracle::standing::{stands_at, Stood};

/// The ways to answer.
enum Way {
    EmptyStands,
    Stands,
    OnlyLetter,
    LastLetter,
    MiddleLetter,
    FirstLetter,
    PastTheEnd,
    Past64Bits,
}

/// The ways in their order, as the table has them.
const NAMES: [&str; 8] = [
    "the empty word stands",
    "a word stands",
    "its only letter differs",
    "its last letter differs",
    "a letter in the middle differs",
    "its first letter alone differs",
    "it would run past the end",
    "it would run past 64 bits",
];

/// So many random rounds must meet every way: each has one such word for each of its inputs.
const ROUNDS: u64 = 20;

pub fn ways() -> Ways<{ NAMES.len() }> {
    Ways::new("a word at a place of another", NAMES.map(|name| (name, ROUNDS)))
}

pub fn expect(at: &AtPlace) -> Stood {
    stands_at(&at.word, &at.other, at.place)
}

/// Calls the trial archive, with empty words as NULL and not, and compares. None: nothing differs.
pub fn difference(at: &AtPlace, expected: Stood) -> Option<String> {
    [false, true].into_iter().find_map(|null| {
        let lent = |word| if null && <[u8]>::is_empty(word) { None } else { Some(word) };
        let trials::Stood { stands, compared } = trials::stands_at(lent(&at.word), lent(&at.other), at.place);
        let answer = Stood { stands, compared };
        let message = || {
            let answers = format!("the oracle answers {expected:?}\nthe archive answers {answer:?}");
            format!("{at}\nNULL for no letters: {null}\n{answers}\n")
        };
        (answer != expected).then(message)
    })
}

/// The way in which the answer is given, as a number. Without a letter compared, only the empty word stands, and a
/// word does not stand only where it would run past the end.
pub fn way(at: &AtPlace, answer: Stood) -> usize {
    let length = at.word.len();
    let way = match (answer.stands, answer.compared) {
        (true, 0) => Way::EmptyStands,
        (true, _) => Way::Stands,
        (false, 0) if at.place.checked_add(length).is_none() => Way::Past64Bits,
        (false, 0) => Way::PastTheEnd,
        (false, 1) if length == 1 => Way::OnlyLetter,
        (false, 1) => Way::LastLetter,
        (false, compared) if compared < length => Way::MiddleLetter,
        (false, _) => Way::FirstLetter,
    };
    way as usize
}
