//! Changes to a valid package that keep it valid.

use crate::coefficients::{add, negative};
use crate::generate::draft::{Draft, Sum};
use crate::generate::random::Random;
use crate::list::list;
use crate::poly::lead_word;
use crate::word::Word;

/// Splits coefficients, adds lines that cancel and mixes the lines of an item.
pub fn dress(random: &mut Random, draft: &mut Draft) {
    for _ in 0..random.below(4) {
        split(random, draft);
    }
    for _ in 0..random.below(4) {
        cancel(random, draft);
    }
    if random.one_in(2) {
        random.shuffle(&mut draft.sums);
    }
    draft.sort_sums();
}

/// One line becomes two whose coefficients add up to its own.
fn split(random: &mut Random, draft: &mut Draft) {
    if draft.sums.is_empty() || draft.p == 2 {
        return;
    }
    let index = random.index(&draft.sums);
    let line = draft.sums[index].clone();
    let part = random.coef(draft.p);
    if part != line.coef {
        let rest = add(draft.p, line.coef, negative(draft.p, part));
        draft.sums[index].coef = part;
        draft.sums.push(Sum { coef: rest, ..line });
    }
}

/// Two lines that cancel each other, of any kind that the package's counts allow.
fn cancel(random: &mut Random, draft: &mut Draft) {
    let basis = draft.polys('B');
    let list = list(&basis);
    let kind = *random.pick(&['B', 'G', 'O']);
    let (items, polys) = match kind {
        'B' => (draft.basis, draft.gens),
        'G' => (draft.gens, draft.basis),
        _ => (list.len() as u64, draft.basis),
    };
    if items == 0 || polys == 0 {
        return;
    }
    let item = random.between(1, items);
    let of = random.between(1, polys);
    let alphabet: Vec<u8> = (b'a'..b'a' + draft.letters as u8).collect();
    let longest = if kind == 'O' { 4 } else { 24 };
    let left = random.word_between(&alphabet, 0, longest);
    let right = random.word_between(&alphabet, 0, longest);
    if kind == 'O' {
        let top = list[item as usize - 1].word(&basis);
        if left.times(lead_word(&basis[of as usize - 1])).times(&right) >= top {
            return;
        }
    }
    let coef = random.coef(draft.p);
    add_cancelling(draft, kind, item, coef, &left, of, &right);
}

/// Adds a line and the line with the negative coefficient.
pub fn add_cancelling(
    draft: &mut Draft,
    kind: char,
    item: u64,
    coef: u64,
    left: &Word,
    of: u64,
    right: &Word,
) {
    draft.sums.push(Sum::new(kind, item, coef, left, of, right));
    draft.sums.push(Sum::new(kind, item, negative(draft.p, coef), left, of, right));
}
