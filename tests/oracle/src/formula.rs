//! Formulas as text: reading (refusal 16) and writing.

use crate::lines::{fields, number, word, Lines};
use crate::package::{word_in_bounds, TERMS};
use crate::poly::Poly;
use crate::refusal::{refuse, Refusal};
use crate::word::Word;

const NAMES: &[u8] = b"coef word";

/// Reads a formula over the field of p in the first `letters` letters. Whatever is wrong, the first line with
/// a fault gets 16; there is no bound on the bytes.
pub fn read_formula(bytes: &[u8], p: u64, letters: u64) -> Result<Poly, Refusal> {
    let lines = Lines::of(bytes);
    if lines.get(1) != Some(NAMES) {
        return refuse(16, 1);
    }
    let mut formula = Poly::new();
    let mut line = 2;
    while let Some(text) = lines.get(line) {
        let Some((coef, word)) = term(text) else {
            return refuse(16, line);
        };
        let in_bounds = (1..p).contains(&coef) && word_in_bounds(&word, letters);
        // Words fall, so the word above is the least one so far.
        let in_order = formula.first_key_value().is_none_or(|(above, _)| word < *above);
        if !in_bounds || !in_order || formula.len() == TERMS {
            return refuse(16, line);
        }
        formula.insert(word, coef);
        line += 1;
    }
    if lines.unfinished {
        return refuse(16, line);
    }
    Ok(formula)
}

fn term(text: &[u8]) -> Option<(u64, Word)> {
    match fields(text).as_slice() {
        &[coef, letters] => Some((number(coef)?, word(letters)?)),
        _ => None,
    }
}

/// A polynomial written as a formula, greatest word first.
pub fn formula_text(f: &Poly) -> Vec<u8> {
    let mut text = NAMES.to_vec();
    text.push(10);
    for (word, coef) in f.iter().rev() {
        text.extend(format!("{coef} ").bytes());
        text.extend(word.text());
        text.push(10);
    }
    text
}
