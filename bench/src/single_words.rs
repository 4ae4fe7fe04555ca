//! Packages whose relations are single words with the coefficient 1, and are the basis.
//!
//! The difference of two words' overlap is zero, so no O line is needed.

use std::fmt::Write;

/// The package of these words, at most 32, in so many letters.
pub fn package(letters: usize, words: &[String]) -> Vec<u8> {
    let n = words.len();
    let mut text = format!("p letters gens basis\n65521 {letters} {n} {n}\nkind item coef word\n");
    for kind in ['G', 'B'] {
        for (item, word) in (1..).zip(words) {
            writeln!(text, "{kind} {item} 1 {word}").unwrap();
        }
    }
    text += "kind item coef left of right\n";
    for kind in ['B', 'G'] {
        for item in 1..=n {
            writeln!(text, "{kind} {item} 1 - {item} -").unwrap();
        }
    }
    text.into_bytes()
}
