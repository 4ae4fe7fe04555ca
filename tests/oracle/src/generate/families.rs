//! Valid packages whose basis is known without a completion.

use crate::coefficients::{inverse, negative};
use crate::generate::certify::{certified, Combination};
use crate::generate::completion::Keep;
use crate::generate::draft::{Draft, Sum};
use crate::generate::random::Random;
use crate::poly::{add_term, Poly};
use crate::word::Word;

/// No relations and no basis: every formula is its own short form.
pub fn empty(p: u64, letters: u64) -> Draft {
    Draft::of(p, letters, &[], &[])
}

/// Zero relations and no basis.
pub fn zero_relations(p: u64, letters: u64, gens: usize) -> Draft {
    Draft::of(p, letters, &vec![Poly::new(); gens], &[])
}

/// A constant relation with basis 1: every short form is zero.
pub fn constant(p: u64, letters: u64, coef: u64) -> Draft {
    let none = Word::empty();
    let relation = Poly::from([(none.clone(), coef)]);
    let mut draft = Draft::of(p, letters, &[relation], &[Poly::from([(none.clone(), 1)])]);
    draft.sums.push(Sum::new('B', 1, inverse(p, coef), &none, 1, &none));
    draft.sums.push(Sum::new('G', 1, coef, &none, 1, &none));
    draft
}

/// Basis polynomials that are the relations themselves. Their leading words must make a certified basis
/// without more.
pub fn own_basis(p: u64, letters: u64, polys: &[Poly]) -> Option<Draft> {
    let sums: Vec<Combination> = (1..=polys.len() as u64)
        .map(|of| Combination::from([((Word::empty(), of, Word::empty()), 1)]))
        .collect();
    certified(p, letters, polys, polys, &sums)
}

/// Words out of a list, none of which holds another.
pub fn trimmed(words: Vec<Word>) -> Vec<Word> {
    let mut kept: Vec<Word> = Vec::new();
    for word in words {
        if !kept.iter().any(|other| other.holds(&word) || word.holds(other)) {
            kept.push(word);
        }
    }
    kept
}

/// Relations of one term each, which are their own basis; every difference is zero.
pub fn monomials(p: u64, letters: u64, words: &[Word]) -> Draft {
    let polys: Vec<Poly> = words.iter().map(|word| Poly::from([(word.clone(), 1)])).collect();
    let mut draft = Draft::of(p, letters, &polys, &polys);
    for kind in ['B', 'G'] {
        for item in 1..=words.len() as u64 {
            draft.sums.push(Sum::new(kind, item, 1, &Word::empty(), item, &Word::empty()));
        }
    }
    draft
}

/// Monomials, of which none holds another, or any.
pub fn random_monomials(random: &mut Random, p: u64, letters: u64, alphabet: &[u8], keep: Keep) -> Draft {
    let count = random.between(1, 32);
    let longest = if random.one_in(4) { 24 } else { 6 };
    let shortest = if keep == Keep::All && random.one_in(4) { 0 } else { 1 };
    let words: Vec<Word> = (0..count).map(|_| random.word_between(alphabet, shortest, longest)).collect();
    monomials(p, letters, &if keep == Keep::All { words } else { trimmed(words) })
}

/// A code word of three letters: it begins with `a` and has no other `a`, so two code words never overlap.
pub fn code(index: u64) -> Word {
    Word(vec![b'a', b'b' + (index / 25) as u8, b'b' + (index % 25) as u8])
}

/// `copies` of document 01's package E side by side: letters a and b of copy i are two code words u and v. Each
/// copy has relation uu - v, basis uu - v and uv - vu, and the overlaps uuu and uuv.
pub fn copies_of_e(p: u64, copies: u64) -> Draft {
    let (none, minus_one) = (Word::empty(), negative(p, 1));
    let (mut relations, mut basis) = (Vec::new(), Vec::new());
    for copy in 0..copies {
        let (u, v) = (code(2 * copy), code(2 * copy + 1));
        let square = Poly::from([(u.times(&u), 1), (v.clone(), minus_one)]);
        relations.push(square.clone());
        basis.push(square);
        basis.push(Poly::from([(u.times(&v), 1), (v.times(&u), minus_one)]));
    }
    let mut draft = Draft::of(p, 26, &relations, &basis);
    for copy in 0..copies {
        let (u, v) = (code(2 * copy), code(2 * copy + 1));
        let (relation, square, commuting) = (copy + 1, 2 * copy + 1, 2 * copy + 2);
        draft.sums.push(Sum::new('B', square, 1, &none, relation, &none));
        draft.sums.push(Sum::new('B', commuting, 1, &none, relation, &u));
        draft.sums.push(Sum::new('B', commuting, minus_one, &u, relation, &none));
        draft.sums.push(Sum::new('G', relation, 1, &none, square, &none));
        draft.sums.push(Sum::new('O', square, 1, &none, commuting, &none));
        draft.sums.push(Sum::new('O', commuting, 1, &none, commuting, &u));
        draft.sums.push(Sum::new('O', commuting, 1, &v, square, &none));
    }
    draft.sort_sums();
    draft
}

/// A counter of so many bits: `a` is 1, `b` is 0, `c` is the end. The polynomials `a b..b c` - `b a..a c` take one
/// from a number, and their leading words never overlap. The word of n times `a` and a `c` takes 2^n - 1 steps.
pub fn counter(p: u64, bits: usize) -> Draft {
    let word =
        |first: u8, rest: u8, count: usize| Word([vec![first], vec![rest; count], vec![b'c']].concat());
    let count_down =
        |zeros: usize| Poly::from([(word(b'a', b'b', zeros), 1), (word(b'b', b'a', zeros), negative(p, 1))]);
    own_basis(p, 3, &(0..bits).map(count_down).collect::<Vec<_>>()).expect("no overlaps")
}

/// Basis polynomials with leading words that begin with `a` and have no other `a`, of one length: they never
/// overlap and never hold one another, whatever the lower terms are.
pub fn without_overlaps(random: &mut Random, p: u64, polys: u64, terms: u64) -> Option<Draft> {
    let alphabet: Vec<u8> = (b'b'..=b'z').collect();
    let mut basis = Vec::new();
    for index in 0..polys {
        let mut f = Poly::from([(code(index), 1)]);
        while (f.len() as u64) < terms {
            add_term(p, &mut f, random.coef(p), random.word(&alphabet, 3));
        }
        basis.push(f);
    }
    own_basis(p, 26, &basis)
}
