//! Packages and formulas that grow to the bound of 512 terms and over it: refusals 10 and 17.

use crate::coefficients::negative;
use crate::generate::certify::certified;
use crate::generate::draft::{Draft, Sum};
use crate::generate::families::own_basis;
use crate::generate::random::Random;
use crate::poly::{add_term, Poly};
use crate::word::Word;

/// The first `count` words of two letters `c` to `z`, greatest first. None begins or ends a leading word.
pub fn tail_words(count: usize) -> Vec<Word> {
    let letters = b'c'..=b'z';
    letters.clone().flat_map(|x| letters.clone().map(move |y| Word(vec![x, y]))).take(count).collect()
}

/// A polynomial with this leading word and `terms` terms in all, the lower ones of two letters.
fn spread(random: &mut Random, p: u64, lead: &str, terms: usize) -> Poly {
    let mut f = Poly::from([(Word::new(lead), 1)]);
    for word in tail_words(terms - 1) {
        f.insert(word, random.coef(p));
    }
    f
}

/// One basis polynomial with leading word `ab`, which overlaps nothing, and `terms` terms.
pub fn spreading(random: &mut Random, p: u64, terms: usize) -> Draft {
    let f = spread(random, p, "ab", terms);
    own_basis(p, 26, &[f]).expect("no overlaps")
}

/// A formula of `terms` terms, `reducible` of them with `ab` inside, under a package of `spreading`. Each
/// step takes one word away and adds new ones, as many as the basis polynomial has below its leading word.
pub fn spreading_formula(random: &mut Random, p: u64, terms: usize, reducible: usize) -> Poly {
    let mut f = Poly::new();
    for (index, word) in tail_words(terms).into_iter().enumerate() {
        let end = if index < reducible { "ab" } else { "c" };
        f.insert(Word::new("dd").times(&word).times(&Word::new(end)), random.coef(p));
    }
    f
}

/// A formula in few words, so that what steps add often meets and cancels.
pub fn meeting_formula(random: &mut Random, p: u64, terms: u64) -> Poly {
    let mut f = Poly::new();
    for _ in 0..terms {
        let left = random.word_between(b"cdef", 0, 2);
        let right = random.word_between(b"abcdef", 0, 2);
        add_term(p, &mut f, random.coef(p), left.times(&Word::new("ab")).times(&right));
    }
    f
}

/// What a growing sum is for: a basis polynomial, a relation, an overlap or an inclusion.
#[derive(Clone, Copy, Debug, PartialEq)]
pub enum Target {
    Basis,
    Relation,
    Overlap,
    Inclusion,
}

pub const TARGETS: [Target; 4] = [Target::Basis, Target::Relation, Target::Overlap, Target::Inclusion];

impl Target {
    /// Kind and item of the sum in a package of `growing_sum`. There are 16 overlaps before the inclusion.
    fn sum(self) -> (char, u64) {
        match self {
            Target::Basis => ('B', 3),
            Target::Relation => ('G', 4),
            Target::Overlap => ('O', 1),
            Target::Inclusion => ('O', 17),
        }
    }

    /// How many entries the list of such a package has.
    pub fn entries(self) -> u64 {
        if self == Target::Inclusion {
            17
        } else {
            4
        }
    }
}

/// How the lines of a growing sum stand: grown to the top and then taken back, or mixed.
#[derive(Clone, Copy, PartialEq)]
pub enum Lines {
    UpAndDown,
    Mixed,
}

/// A valid package but for refusal 10: one sum grows to exactly `top` terms (481 to 528) after its eleventh line
/// and is then taken back.
///
/// The basis polynomials 1 with leading word `ac` and 48 terms, and 2 with leading word `ad` and as many terms
/// as are wanted, overlap nothing. 3 is the monomial `bbbbb`: it overlaps itself, the differences are zero,
/// and the overlap words are longer than any product here. For an inclusion it stands there again as 4.
pub fn growing_sum(random: &mut Random, p: u64, target: Target, top: usize, order: Lines) -> Draft {
    let none = Word::empty();
    // Target minus sum begins with the terms of the target: the zero relation and the difference have none,
    // and the basis polynomial 3 has one.
    let begin = usize::from(target == Target::Basis);
    let big = spread(random, p, "ac", 48);
    let small = spread(random, p, "ad", top - 480 - begin);
    let single = Poly::from([(Word::new("bbbbb"), 1)]);
    let relations = [big, small, single, Poly::new()];
    let numbers: &[u64] = if target == Target::Inclusion { &[1, 2, 3, 3] } else { &[1, 2, 3] };
    let basis: Vec<Poly> = numbers.iter().map(|of| relations[*of as usize - 1].clone()).collect();
    let sums: Vec<_> =
        numbers.iter().map(|of| [((none.clone(), *of, none.clone()), 1)].into_iter().collect()).collect();
    let mut draft = certified(p, 26, &relations, &basis, &sums).expect("no difference that is not zero");
    // B 3 is the sum of its own line and of lines that cancel, the others of such lines alone.
    let (kind, item) = target.sum();
    let mut lines = Vec::new();
    for of in [1; 10].into_iter().chain([2]) {
        let left = Word(vec![b'c' + lines.len() as u8]);
        lines.push(Sum::new(kind, item, random.coef(p), &left, of, &none));
    }
    let back: Vec<Sum> = lines.iter().map(|sum| Sum { coef: negative(p, sum.coef), ..sum.clone() }).collect();
    lines.extend(back);
    if order == Lines::Mixed {
        random.shuffle(&mut lines);
    }
    // The growing lines stand before the line that was there.
    lines.append(&mut draft.sums);
    draft.sums = lines;
    draft.sort_sums();
    draft
}

#[cfg(test)]
mod tests {
    use super::*;
    use crate::formula::formula_text;
    use crate::services::{check, short_form};

    #[test]
    fn sums_reach_512_terms_and_no_more() {
        for p in [2, 7, 256, 65_521] {
            for target in TARGETS {
                let random = &mut Random::new(3, p);
                let mut number =
                    |top| check(&growing_sum(random, p, target, top, Lines::UpAndDown).text()).number;
                assert_eq!((number(512), number(513)), (0, 10), "{target:?} over {p}");
            }
        }
    }

    #[test]
    fn steps_reach_512_terms_and_no_more() {
        for p in [7, 256] {
            let random = &mut Random::new(4, 0);
            let mut answer = |terms, reducible| {
                let package = spreading(random, p, terms).text();
                let formula = formula_text(&spreading_formula(random, p, 48, reducible));
                let answer = short_form(&package, &formula, 1000, 1 << 20);
                (answer.number, answer.place, answer.count)
            };
            // 48 + 16 × 29 = 512; 48 + 15 × 31 = 513; 48 + 11 × 46 = 554, document 01's example.
            assert_eq!(answer(31, 16), (0, 0, 16));
            assert_eq!(answer(31, 17), (17, 17, 0));
            assert_eq!(answer(33, 14), (0, 0, 14));
            assert_eq!(answer(33, 15), (17, 15, 0));
            assert_eq!(answer(48, 48), (17, 11, 0));
        }
    }
}
