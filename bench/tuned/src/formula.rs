//! Formulas as text: read (refusal 16) and written.

use crate::block::SHORT;
use crate::number::{digits, put_number};
use crate::reader::{Field, Reader};
use crate::terms::{Terms, TERMS};
use crate::working::Working;
use crate::{refuse, Refusal};

const NAMES: &[u8] = b"coef word\n";

/// Reads a formula into room for its terms.
pub fn read_formula(bytes: &[u8], p: u32, letters: u32, terms: &mut Terms<TERMS>) -> Result<(), Refusal> {
    let mut reader = Reader::new(bytes);
    if reader.line(NAMES).is_none() {
        return refuse(16, 1);
    }
    let mut above = Field { start: 0, len: usize::MAX, top: 0 };
    while !reader.is_done() {
        let line = terms.count() + 2;
        let mut shape = || Some((reader.number(b' ')?, reader.word(10)?));
        let Some((coef, word)) = shape() else {
            return refuse(16, line);
        };
        let in_bounds =
            coef.wrapping_sub(1) < p - 1 && word.len <= SHORT && u32::from(word.top) < 97 + letters;
        if !in_bounds || !falls(bytes, above, word) || terms.count() == TERMS {
            return refuse(16, line);
        }
        terms.push(coef, word.start, word.len);
        above = word;
    }
    Ok(())
}

/// Whether the second word is below the first.
#[inline(always)]
fn falls(bytes: &[u8], above: Field, word: Field) -> bool {
    if word.len != above.len {
        return word.len < above.len;
    }
    let letters = |field: Field| &bytes[field.start..field.start + field.len];
    letters(word) > letters(above)
}

/// How many bytes the working formula has as text.
pub fn text_len(working: &Working) -> usize {
    let line = |k| {
        let (coef, word) = working.term(k);
        digits(coef) + word.len().max(1) + 2
    };
    NAMES.len() + (0..working.len()).map(line).sum::<usize>()
}

/// Writes the working formula to a slice that it fits in.
pub fn write_text(working: &Working, out: &mut [u8]) {
    out[..NAMES.len()].copy_from_slice(NAMES);
    let mut at = NAMES.len();
    for k in 0..working.len() {
        let (coef, word) = working.term(k);
        let word = if word.is_empty() { b"-" } else { word };
        at = put_number(out, at, coef);
        out[at] = b' ';
        out[at + 1..at + 1 + word.len()].copy_from_slice(word);
        at += 1 + word.len();
        out[at] = 10;
        at += 1;
    }
}
