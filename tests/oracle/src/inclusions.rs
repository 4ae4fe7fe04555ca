//! Leading words inside one another: source document 002, definition 3.5.1, cases (iii) and (iv).

use crate::list::Entry;
use crate::poly::{lead, lead_word, Poly};
use crate::word::Word;

/// Each place where another polynomial's leading word stands inside the first's, by first, second, place. Equal
/// leading words are there once, lower number first.
pub fn inclusions(basis: &[Poly]) -> Vec<Entry> {
    let mut list = Vec::new();
    for (f, first) in basis.iter().zip(1..) {
        for (g, second) in basis.iter().zip(1..) {
            let (u, v) = (lead_word(f), lead_word(g));
            if first == second || (u == v && first > second) {
                continue;
            }
            // The empty word stands at every place from 0 to the first's length.
            for at in 0..=u.len() {
                if u.0[at..].starts_with(&v.0) {
                    let left = Word(u.0[..at].to_vec());
                    let right = Word(u.0[at + v.len()..].to_vec());
                    let (shared, rest) = (v.len() as u64, Word::empty());
                    list.push(Entry { first, second, shared, rest, left, right });
                }
            }
        }
    }
    list
}

/// Whether a leading word of the basis stands inside another polynomial's. Zero polynomials have none.
pub fn is_untrimmed(basis: &[Poly]) -> bool {
    let leads: Vec<&Word> = basis.iter().filter_map(lead).map(|(word, _)| word).collect();
    leads.iter().enumerate().any(|(i, u)| leads.iter().enumerate().any(|(j, v)| i != j && u.holds(v)))
}

#[cfg(test)]
mod tests {
    use super::*;
    use crate::generate::small_words::every_basis;

    /// By the product: every way to write one leading word as left × another × right.
    #[test]
    fn inclusions_by_the_product() {
        for basis in every_basis(2, 3).chain(every_basis(3, 2)) {
            let mut wanted = Vec::new();
            for (f, first) in basis.iter().zip(1..) {
                for (g, second) in basis.iter().zip(1..) {
                    let (u, v) = (lead_word(f), lead_word(g));
                    let cuts = (0..=u.len()).flat_map(|i| (i..=u.len()).map(move |j| (i, j)));
                    for (i, j) in cuts {
                        let part = |from: usize, to: usize| Word(u.0[from..to].to_vec());
                        let (left, right) = (part(0, i), part(j, u.len()));
                        let whole = left.is_empty() && right.is_empty();
                        // Of the two orders of equal words one is left, and none of a word with itself.
                        let counted = if whole { first < second } else { first != second };
                        if counted && left.times(v).times(&right) == *u && part(i, j) == *v {
                            wanted.push((first, second, left, right));
                        }
                    }
                }
            }
            let got: Vec<(u64, u64, Word, Word)> =
                inclusions(&basis).into_iter().map(|e| (e.first, e.second, e.left, e.right)).collect();
            assert_eq!(got, wanted);
            assert_eq!(is_untrimmed(&basis), !wanted.is_empty());
        }
    }
}
