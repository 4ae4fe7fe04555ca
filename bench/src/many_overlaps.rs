//! A package with thousands of overlaps: 32 single words of 24 letters a and b.

use crate::single_words;

/// Words of 24 letters with one b, and some with two, in falling order.
fn words() -> Vec<String> {
    let one = (0..24).map(|i| "a".repeat(i) + "b" + &"a".repeat(23 - i));
    let two = (0..8).map(|i| "a".repeat(i) + "b" + &"a".repeat(14) + "b" + &"a".repeat(8 - i));
    let mut words: Vec<String> = one.chain(two).collect();
    words.sort();
    words
}

pub fn package() -> Vec<u8> {
    single_words::package(2, &words())
}
