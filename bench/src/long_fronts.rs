//! A package whose leading words share long fronts and differ at the back: 32 single words, each of 19 or 15 letters a
//! and then one of the 32 words of five letters b and c.
//!
//! None stands inside another, as all ends differ. None overlaps another or itself: letters that a word ends with are
//! without a, or are some a and its whole end; letters that a word begins with, fewer than all, are some a, or all of
//! its a and less than its end.

use crate::single_words;

/// The words in falling order: those of 24 letters, whose ends begin with b, then those of 20, whose ends begin with c.
fn words() -> Vec<String> {
    let letter = |end: usize, k: usize| if end >> (4 - k) & 1 == 0 { 'b' } else { 'c' };
    let front = |end: usize| "a".repeat(if end < 16 { 19 } else { 15 });
    (0..32).map(|end| front(end) + &(0..5).map(|k| letter(end, k)).collect::<String>()).collect()
}

pub fn package() -> Vec<u8> {
    single_words::package(3, &words())
}
