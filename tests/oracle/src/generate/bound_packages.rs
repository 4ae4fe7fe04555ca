//! Packages on both sides of the bounds on sizes.

use crate::coefficients::{add, negative, GF_256};
use crate::generate::crowded::crowded;
use crate::generate::draft::{Draft, Sum, Term};
use crate::generate::dress::add_cancelling;
use crate::generate::edits::E;
use crate::generate::families::{copies_of_e, monomials, without_overlaps};
use crate::generate::growth::{growing_sum, Lines, TARGETS};
use crate::generate::package_rows::Row;
use crate::generate::random::Random;
use crate::generate::rows_256::e_256;
use crate::generate::scale::{scale_all, scale_some};
use crate::poly::Poly;
use crate::word::Word;

pub fn bound_packages() -> Vec<Row> {
    let random = &mut Random::new(0, 0);
    let mut rows = Vec::new();
    let mut put = |package: Vec<u8>, number: u64, place: u64, overlaps: u64| {
        rows.push(Row { package, check: (number, place, overlaps) })
    };
    for p in [2, 7, 256, 65_521] {
        // 48 terms in G 1 and in B 1, one more in order, and one more that repeats a word.
        put(one_polynomial(p, 48).text(), 0, 0, 0);
        put(one_polynomial(p, 49).text(), 7, 52, 0);
        let mut repeating = one_polynomial(p, 48);
        repeating.terms.insert(48, repeating.terms[0].clone());
        put(repeating.text(), 6, 52, 0);
        let mut basis_49 = one_polynomial(p, 48);
        basis_49.terms.push(Term { kind: 'B', item: 1, coef: 1, word: Word::empty() });
        put(basis_49.text(), 7, 100, 0);
        // 512 and 513 terms in a sum for each target, also with other leading coefficients than 1. The lines stand
        // below 4 names lines and values, terms, and the sums above.
        for target in TARGETS {
            for top in [512, 513] {
                let mut draft = growing_sum(random, p, target, top, Lines::UpAndDown);
                let first = draft.sums.iter().position(|sum| sum.left == Word::new("c"));
                let line = 4 + draft.terms.len() + first.expect("a growing line") + 11;
                let (number, place, overlaps) =
                    if top == 512 { (0, 0, target.entries()) } else { (10, line as u64, 0) };
                put(draft.text(), number, place, overlaps);
                scale_all(random, &mut draft);
                put(draft.text(), number, place, overlaps);
            }
        }
        // 32 relations and 64 basis polynomials, also with other leading coefficients than 1.
        let mut copies = copies_of_e(p, 32);
        put(copies.text(), 0, 0, 64);
        scale_all(random, &mut copies);
        put(copies.text(), 0, 0, 64);
    }
    // 1,024 term lines, the 1,025th in order, the same of wrong shape, and the same out of bounds.
    let full = without_overlaps(random, 7, 32, 16).expect("no overlaps");
    put(full.text(), 0, 0, 0);
    let mut over = full.clone();
    over.terms.push(Term { kind: 'B', item: 32, coef: 1, word: Word::empty() });
    put(over.text(), 7, 1028, 0);
    let text =
        |line: &str| String::from_utf8_lossy(&over.text()).replacen("B 32 1 -\n", line, 1).into_bytes();
    put(text("B 32 1\n"), 2, 1028, 0);
    put(text("B 32 7 -\n"), 5, 1028, 0);
    put(text("B 31 1 -\n"), 6, 1028, 0);
    // 65,536 bytes, and more of a package that would be accepted.
    for p in [7, 256] {
        for bytes in [65_535, 65_536] {
            put(padded_e(p, bytes), 0, 0, 2);
        }
        for bytes in [65_537, 65_538] {
            put(padded_e(p, bytes), 1, 0, 0);
        }
        put([&padded_e(p, 65_536)[..], b"\n"].concat(), 1, 0, 0);
        let full = padded_e(p, 65_535);
        let lines = full.iter().filter(|byte| **byte == 10).count() as u64;
        put([&full[..], b"\n"].concat(), 2, lines + 1, 0);
    }
    // Many overlaps: 4,324 where the shared letters are all `a`, and 276 where they hold the `b`. The list of
    // these 24 words has 263,477 bytes.
    let words: Vec<Word> = (0..24).map(|i| one_other(i, b'b')).collect();
    let many = monomials(7, 2, &words);
    put(many.text(), 0, 0, 4600);
    let mut at_count = many.clone();
    add_cancelling(&mut at_count, 'O', 4600, 3, &Word::empty(), 1, &Word::empty());
    put(at_count.text(), 0, 0, 4600);
    let mut over_count = many;
    add_cancelling(&mut over_count, 'O', 4601, 3, &Word::empty(), 1, &Word::empty());
    let line = 4 + over_count.terms.len() + 48 + 1;
    put(over_count.text(), 15, line as u64, 0);
    // 64 basis polynomials of this kind, for the listing, which has 1,872,014 bytes: there are no relations, so the
    // first sum is wrong.
    let basis: Vec<Poly> =
        (0..64).map(|i| Poly::from([(one_other(i % 24, b'b' + i as u8 / 24), 1)])).collect();
    put(Draft::of(7, 4, &[], &basis).text(), 11, 1, 0);
    rows
}

/// A word of 24 letters, all `a` but one.
fn one_other(place: usize, letter: u8) -> Word {
    Word([vec![b'a'; place], vec![letter], vec![b'a'; 23 - place]].concat())
}

/// A package near a bound on sizes: terms in an item, term lines, basis polynomials and words, or bytes.
pub fn near_bound(random: &mut Random, p: u64) -> Vec<u8> {
    let mut draft = match random.below(4) {
        0 => one_polynomial(p, random.between(46, 50) as usize),
        1 => {
            let mut draft = without_overlaps(random, p, 32, 16).expect("no overlaps");
            // No, one or two terms over 1,024.
            for word in ["z", ""].iter().take(random.below(3) as usize) {
                draft.terms.push(Term { kind: 'B', item: 32, coef: 1, word: Word::new(word) });
            }
            draft
        }
        2 => crowded(random, p),
        _ => return padded_e(p, random.between(65_530, 65_540) as usize),
    };
    scale_some(random, &mut draft);
    draft.text()
}

/// One relation of `terms` terms over 26 letters, which is its own basis and overlaps nothing.
fn one_polynomial(p: u64, terms: usize) -> Draft {
    let lower = (b'b'..=b'd').flat_map(|x| (b'b'..=b'z').map(move |y| Word(vec![x, y])));
    let mut f: Poly = lower.take(terms - 1).map(|word| (word, p - 1)).collect();
    f.insert(Word::new("ab"), 1);
    let mut draft = Draft::of(p, 26, &[f.clone()], &[f]);
    for kind in ['B', 'G'] {
        draft.sums.push(Sum::new(kind, 1, 1, &Word::empty(), 1, &Word::empty()));
    }
    draft
}

/// E with G lines that cancel, so that it has exactly so many bytes. It is over GF(256), or else over GF(7).
fn padded_e(p: u64, bytes: usize) -> Vec<u8> {
    let (p, e) = if p == GF_256 { (p, e_256()) } else { (7, E.to_string()) };
    let (head, tail) = e.split_at(e.find("O 1 ").expect("an O line"));
    let mut text = head.to_string();
    // Two lines with coefficients 1 and minus 1 add up to 0, and three with 1, 2 and minus their sum. A line
    // with left of n letters has 11 + n bytes.
    let (minus_one, third) = (negative(p, 1), negative(p, add(p, 1, 2)));
    let mut missing = bytes - e.len();
    if missing % 2 == 1 {
        let left = "b".repeat(4);
        text += &format!("G 1 1 {left} 1 -\nG 1 2 {left} 1 -\nG 1 {third} {left} 1 -\n");
        missing -= 45;
    }
    while missing > 0 {
        // Two lines have 24 to 70 bytes, and no fewer than 24 may be left over.
        let letters = if missing <= 70 {
            missing / 2 - 11
        } else if missing <= 100 {
            1
        } else {
            1 + missing % 20
        };
        text += &format!("G 1 1 {0} 1 -\nG 1 {minus_one} {0} 1 -\n", "b".repeat(letters));
        missing -= 2 * (11 + letters);
    }
    (text + tail).into_bytes()
}

#[cfg(test)]
mod tests {
    use super::*;
    use crate::services::list_overlaps;

    #[test]
    fn rows_hold() {
        bound_packages().iter().for_each(Row::assert_holds);
    }

    #[test]
    fn sizes_are_exact() {
        for bytes in [300, 301, 1000, 1001, 65_535, 65_536] {
            assert_eq!((padded_e(7, bytes).len(), padded_e(256, bytes).len()), (bytes, bytes));
        }
        let places: Vec<u64> =
            bound_packages().iter().map(|row| list_overlaps(&row.package, 0).place).collect();
        assert!(places.contains(&263_477) && places.contains(&1_872_014));
    }
}
