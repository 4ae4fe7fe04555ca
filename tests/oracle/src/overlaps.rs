//! Overlaps of leading words: source document 002, definition 3.5.1, cases (i) and (ii).

use crate::list::Entry;
use crate::poly::{lead_word, Poly};
use crate::word::Word;

/// All overlaps by first, then second, then shared, rising. A polynomial may overlap itself.
///
/// The last `shared` letters of the first leading word are the first `shared` of the second, with `shared` at least
/// 1 and below both lengths.
pub fn overlaps(basis: &[Poly]) -> Vec<Entry> {
    let mut list = Vec::new();
    for (f, first) in basis.iter().zip(1..) {
        for (g, second) in basis.iter().zip(1..) {
            let (u, v) = (lead_word(f), lead_word(g));
            for shared in 1..u.len().min(v.len()) {
                let begin = u.len() - shared;
                if u.0[begin..] == v.0[..shared] {
                    let rest = Word(v.0[shared..].to_vec());
                    let left = Word(u.0[..begin].to_vec());
                    list.push(Entry {
                        first,
                        second,
                        shared: shared as u64,
                        rest,
                        left,
                        right: Word::empty(),
                    });
                }
            }
        }
    }
    list
}
