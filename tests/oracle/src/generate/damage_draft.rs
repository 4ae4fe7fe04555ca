//! Damage to a package with a refusal in view: each target changes what that refusal judges.

use crate::generate::damage_list::{above_count, not_below};
use crate::generate::damage_scale::{scale_difference, scale_lead, scale_without};
use crate::generate::draft::{Draft, Sum, Term};
use crate::generate::other_lists::other_list;
use crate::generate::random::Random;
use crate::poly::lead;
use crate::word::Word;

/// Numbers in place of p: some fields, and what is near them, out of bounds, or a power of a prime.
const P_VALUES: [u64; 20] = [
    0, 1, 4, 8, 9, 25, 128, 255, 256, 256, 257, 512, 961, 1_024, 63_001, 65_519, 65_533, 65_536, 65_537,
    99_999,
];

/// What is changed: what a refusal judges (1 and 2 are reached by damage to the text, 7 and 10 by packages of their
/// own), a leading word, the polynomials' order, or any coefficient.
#[derive(Clone, Copy)]
pub enum Aim {
    P,
    Counts,
    Bounds,
    Order,
    Zero,
    BasisSum,
    RelationSum,
    ListSum,
    OtherList,
    NotBelow,
    AboveCount,
    LeadingWord,
    Exchange,
    Coefficient,
}

/// Changes the draft with an aim. It may stay as it was when it has nothing to change.
pub fn aim(random: &mut Random, draft: &mut Draft, at: Aim) {
    if draft.p < 2 || !(1..=26).contains(&draft.letters) {
        // Damaged before: there are no coefficients or no letters to choose from.
        return;
    }
    match at {
        Aim::P => draft.p = *random.pick(&P_VALUES),
        Aim::Counts => match random.below(4) {
            0 => draft.letters = *random.pick(&[0, 27, 99_999]),
            1 => draft.gens = *random.pick(&[33, 64, 65_537]),
            2 => draft.basis = *random.pick(&[65, 256, 65_600]),
            _ => (draft.p, draft.letters) = (*random.pick(&[9, 256]), 27),
        },
        Aim::Bounds => out_of_bounds(random, draft),
        Aim::Order => out_of_order(random, draft),
        Aim::Zero => zero_polynomial(random, draft),
        Aim::BasisSum => wrong_sum(random, draft, 'B'),
        Aim::RelationSum => wrong_sum(random, draft, 'G'),
        Aim::ListSum => wrong_sum(random, draft, 'O'),
        Aim::OtherList => other_list(random, draft),
        Aim::NotBelow => not_below(random, draft),
        Aim::AboveCount => above_count(random, draft),
        Aim::LeadingWord => other_lead(random, draft),
        Aim::Exchange => exchange(random, draft),
        Aim::Coefficient if random.one_in(3) => scale_lead(random, draft),
        Aim::Coefficient => change_coefficient(random, draft),
    }
}

fn out_of_bounds(random: &mut Random, draft: &mut Draft) {
    let (p, letters) = (draft.p, draft.letters);
    let bad_coef = *random.pick(&[0, p, p + 1, 99_999]);
    let bad_word = |random: &mut Random| match random.below(3) {
        0 if letters < 26 => Word(vec![b'a', b'a' + letters as u8]),
        1 => Word(vec![b'a'; 24]),
        _ => Word(vec![b'a'; random.between(25, 60) as usize]),
    };
    if random.one_in(2) && !draft.terms.is_empty() {
        let index = random.index(&draft.terms);
        let count = if draft.terms[index].kind == 'G' { draft.gens } else { draft.basis };
        let term = &mut draft.terms[index];
        match random.below(3) {
            0 => term.coef = bad_coef,
            1 => term.item = *random.pick(&[0, count + 1, 99_999]),
            _ => term.word = bad_word(random),
        }
    } else if !draft.sums.is_empty() {
        let index = random.index(&draft.sums);
        let (items, polys) = match draft.sums[index].kind {
            'B' => (draft.basis, draft.gens),
            'G' => (draft.gens, draft.basis),
            _ => (99_998, draft.basis),
        };
        let sum = &mut draft.sums[index];
        match random.below(5) {
            0 => sum.coef = bad_coef,
            1 => sum.item = *random.pick(&[0, items + 1]),
            2 => sum.of = *random.pick(&[0, polys, polys + 1, 99_999]),
            3 => sum.left = bad_word(random),
            _ => sum.right = bad_word(random),
        }
    }
}

fn out_of_order(random: &mut Random, draft: &mut Draft) {
    if random.one_in(2) && draft.terms.len() > 1 {
        let (one, other) = (random.index(&draft.terms), random.index(&draft.terms));
        match random.below(3) {
            0 => draft.terms.swap(one, other),
            1 => draft.terms.insert(one, draft.terms[one].clone()),
            _ => draft.terms.swap(one.max(1) - 1, one.max(1)),
        }
    } else if draft.sums.len() > 1 {
        let (one, other) = (random.index(&draft.sums), random.index(&draft.sums));
        draft.sums.swap(one, other);
    }
}

/// A basis polynomial that is zero: one more than there are, or one that has lost its terms.
fn zero_polynomial(random: &mut Random, draft: &mut Draft) {
    let item = random.between(1, draft.basis.max(1));
    if random.one_in(2) && draft.basis < 64 {
        draft.basis += random.between(1, 64 - draft.basis);
    } else {
        draft.terms.retain(|term| (term.kind, term.item) != ('B', item));
    }
}

/// A leading word with another's inside, or equal to it, or just not: the list is another then.
fn other_lead(random: &mut Random, draft: &mut Draft) {
    let basis = draft.polys('B');
    if basis.iter().filter_map(lead).count() < 2 {
        return;
    }
    let (into, from) = (random.index(&basis), random.index(&basis));
    let Some((inner, _)) = lead(&basis[from]) else { return };
    let alphabet: Vec<u8> = (b'a'..b'a' + draft.letters as u8).collect();
    let mut word =
        random.word_between(&alphabet, 0, 2).times(inner).times(&random.word_between(&alphabet, 0, 2));
    if random.one_in(4) {
        word.0.pop();
    }
    let mut kept: Vec<Term> = draft.terms.clone();
    kept.retain(|term| (term.kind, term.item) != ('B', into as u64 + 1) || term.word < word);
    let at = kept.iter().position(|term| term.kind == 'B' && term.item > into as u64);
    let new = Term { kind: 'B', item: into as u64 + 1, coef: random.coef(draft.p), word };
    kept.insert(at.unwrap_or(kept.len()), new);
    draft.terms = kept;
}

/// Two basis polynomials with each other's numbers, in the terms and in all that is said of them. What is left is the
/// items of O lines: the list has another order, where it does not see the two as the same.
fn exchange(random: &mut Random, draft: &mut Draft) {
    if draft.basis < 2 {
        return;
    }
    let (one, other) = (random.between(1, draft.basis), random.between(1, draft.basis));
    let exchanged = |number: u64| match number {
        _ if number == one => other,
        _ if number == other => one,
        _ => number,
    };
    draft.terms.iter_mut().filter(|term| term.kind == 'B').for_each(|term| term.item = exchanged(term.item));
    for sum in &mut draft.sums {
        match sum.kind {
            'B' => sum.item = exchanged(sum.item),
            _ => sum.of = exchanged(sum.of),
        }
    }
    // Terms of one item keep their order.
    draft.terms.sort_by_key(|term| (term.kind == 'B', term.item));
    draft.sort_sums();
}

/// A sum of this kind that is most likely wrong: one of its lines is changed, or it is not as a leading coefficient
/// wants it.
fn wrong_sum(random: &mut Random, draft: &mut Draft, kind: char) {
    match random.below(4) {
        0 => scale_without(random, draft, kind),
        1 if kind == 'O' => scale_difference(random, draft),
        _ => change_sum(random, draft, kind),
    }
}

/// A line of this kind, or of any when there is none, is changed, dropped or repeated.
fn change_sum(random: &mut Random, draft: &mut Draft, kind: char) {
    let mut lines: Vec<usize> =
        (0..draft.sums.len()).filter(|index| draft.sums[*index].kind == kind).collect();
    if lines.is_empty() {
        lines = (0..draft.sums.len()).collect();
    }
    if lines.is_empty() {
        return change_coefficient(random, draft);
    }
    let index = *random.pick(&lines);
    match random.below(6) {
        0 => drop(draft.sums.remove(index)),
        1 => draft.sums.insert(index, draft.sums[index].clone()),
        2 => draft.sums[index].coef = random.coef(draft.p),
        3 => draft.sums[index].left.0.push(b'a'),
        4 => {
            let Sum { left, right, .. } = &mut draft.sums[index];
            std::mem::swap(left, right);
        }
        _ => {
            let item = draft.sums[index].item;
            draft.sums.retain(|sum| (sum.kind, sum.item) != (kind, item));
        }
    }
}

/// Another coefficient for a term, so that some sum most likely goes wrong.
fn change_coefficient(random: &mut Random, draft: &mut Draft) {
    if !draft.terms.is_empty() {
        let index = random.index(&draft.terms);
        draft.terms[index].coef = random.coef(draft.p);
    }
}
