//! A package with thousands of inclusions: 24 single words, of 1 to 24 letters a.

use crate::single_words;

/// The longest first. The word of n letters stands at every place of a longer one where it fits, and overlaps it in every
/// number of letters below n.
fn words() -> Vec<String> {
    (1..=24).rev().map(|n| "a".repeat(n)).collect()
}

pub fn package() -> Vec<u8> {
    single_words::package(1, &words())
}
