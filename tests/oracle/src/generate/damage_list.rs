//! Damage to the O sums: lines that are not below, and items above the count.

use crate::coefficients::{inverse, negative};
use crate::generate::damage_scale::in_field;
use crate::generate::draft::{Draft, Sum};
use crate::generate::dress::add_cancelling;
use crate::generate::random::Random;
use crate::list::{list, Entry};
use crate::overlaps::overlaps;
use crate::poly::{lead_coef, Poly};
use crate::word::Word;

/// A draft's basis and list, where its basis polynomials are not zero.
pub fn draft_list(draft: &Draft) -> (Vec<Poly>, Vec<Entry>) {
    let basis = draft.polys('B');
    let list = if basis.iter().all(|f| !f.is_empty()) { list(&basis) } else { Vec::new() };
    (basis, list)
}

/// O lines whose product is at, just below or above the overlap word.
pub fn not_below(random: &mut Random, draft: &mut Draft) {
    let (basis, list) = draft_list(draft);
    if list.is_empty() {
        return;
    }
    let index = random.index(&list);
    let item = index as u64 + 1;
    let Entry { first, second, rest, left, right, .. } = list[index].clone();
    let none = Word::empty();
    if random.one_in(2) && in_field(draft) {
        // The difference is certified by its own two products, each divided by its leading coefficient.
        let p = draft.p;
        let coef = |of: u64| inverse(p, lead_coef(&basis[of as usize - 1]));
        draft.sums.retain(|sum| (sum.kind, sum.item) != ('O', item));
        draft.sums.push(Sum::new('O', item, coef(first), &none, first, &rest));
        draft.sums.push(Sum::new('O', item, negative(p, coef(second)), &left, second, &right));
    } else {
        let alphabet: Vec<u8> = (b'a'..b'a' + draft.letters as u8).collect();
        let any = random.between(1, draft.basis);
        let (left, of, right) = match random.below(5) {
            0 => (left, second, right),
            1 => (none, first, rest),
            2 => (left, any, none),
            3 => (Word(vec![b'a' + draft.letters as u8 - 1; 24]), any, none),
            _ => (random.word_between(&alphabet, 0, 3), any, random.word_between(&alphabet, 0, 3)),
        };
        let coef = random.coef(draft.p);
        add_cancelling(draft, 'O', item, coef, &left, of, &right);
    }
    draft.sort_sums();
}

/// An O line with an item at or above the count of overlaps, or of the whole list.
pub fn above_count(random: &mut Random, draft: &mut Draft) {
    let (basis, list) = draft_list(draft);
    let count = list.len() as u64;
    let laps = if list.is_empty() { 0 } else { overlaps(&basis).len() as u64 };
    let item = *random.pick(&[laps.max(1), laps + 1, count.max(1), count + 1, count + 2, 99_999]);
    let of = random.between(1, draft.basis.max(1));
    let none = Word::empty();
    draft.sums.push(Sum::new('O', item, random.coef(draft.p), &none, of, &none));
    draft.sort_sums();
}
