//! Writing the sums of a basis: reduction with every step recorded.

use crate::coefficients::{add, inverse, negative, times};
use crate::generate::draft::{Draft, Sum};
use crate::list::{differences, list};
use crate::package::LETTERS;
use crate::poly::{add_multiple, lead_coef, lead_word, Poly};
use crate::word::Word;
use std::collections::BTreeMap;

/// A sum over numbered polynomials: coefficients by left, number (from 1) and right. Entries are not 0.
pub type Combination = BTreeMap<(Word, u64, Word), u64>;

/// Adds coef × left × from × right to a combination.
pub fn add_combination(
    p: u64,
    to: &mut Combination,
    coef: u64,
    left: &Word,
    from: &Combination,
    right: &Word,
) {
    for ((inner_left, of, inner_right), c) in from {
        let key = (left.times(inner_left), *of, inner_right.times(right));
        let new = add(p, to.remove(&key).unwrap_or(0), times(p, coef, *c));
        if new != 0 {
            to.insert(key, new);
        }
    }
}

/// One step of a reduction: coef × left × (basis polynomial at this index) × right is taken away.
pub struct Taken {
    pub coef: u64,
    pub left: Word,
    pub index: usize,
    pub right: Word,
}

/// Where a leading word of the basis stands in the word, if one does: left, index and right.
fn place(word: &Word, basis: &[Poly]) -> Option<(Word, usize, Word)> {
    for (index, g) in basis.iter().enumerate() {
        let lead = &lead_word(g).0;
        if let Some(begin) = (0..=word.len()).find(|begin| word.0[*begin..].starts_with(lead)) {
            let right = word.0[begin + lead.len()..].to_vec();
            return Some((Word(word.0[..begin].to_vec()), index, Word(right)));
        }
    }
    None
}

/// Reduces f by a basis, whatever that leads with: only while f's leading word can be reduced, or all words.
/// None: it took over `limit` steps or grew over 200 terms.
pub fn reduce(p: u64, f: &mut Poly, basis: &[Poly], whole: bool, limit: usize) -> Option<Vec<Taken>> {
    let mut taken = Vec::new();
    // The words from here on up cannot be reduced.
    let mut below: Option<Word> = None;
    loop {
        let next = match &below {
            None => f.last_key_value(),
            Some(word) => f.range(..word.clone()).next_back(),
        };
        let Some((word, coef)) = next.map(|(word, coef)| (word.clone(), *coef)) else {
            return Some(taken);
        };
        let Some((left, index, right)) = place(&word, basis) else {
            if !whole {
                return Some(taken);
            }
            below = Some(word);
            continue;
        };
        if taken.len() == limit || f.len() > 200 {
            return None;
        }
        let coef = times(p, coef, inverse(p, lead_coef(&basis[index])));
        add_multiple(p, f, negative(p, coef), &left, &basis[index], &right);
        taken.push(Taken { coef, left, index, right });
    }
}

/// So many lines have over 60,000 bytes, since none has fewer than twelve.
const SUM_LINES: usize = 5_000;

/// The draft of relations and a basis with B, G and O sums. `b_sums` says how each basis polynomial is a sum
/// over the relations. None: a relation or a difference does not reduce to zero, or a word or the text is too long.
pub fn certified(
    p: u64,
    letters: u64,
    relations: &[Poly],
    basis: &[Poly],
    b_sums: &[Combination],
) -> Option<Draft> {
    let mut draft = Draft::of(p, letters, relations, basis);
    for (item, combination) in (1..).zip(b_sums) {
        for ((left, of, right), coef) in combination {
            draft.sums.push(Sum::new('B', item, *coef, left, *of, right));
        }
    }
    let differences: Vec<Poly> = differences(p, basis, &list(basis)).collect();
    for (kind, targets) in [('G', relations), ('O', &differences)] {
        for (item, target) in (1..).zip(targets) {
            let mut rest = target.clone();
            for Taken { coef, left, index, right } in reduce(p, &mut rest, basis, true, 400)? {
                draft.sums.push(Sum::new(kind, item, coef, &left, index as u64 + 1, &right));
            }
            if !rest.is_empty() || draft.sums.len() > SUM_LINES {
                return None;
            }
        }
    }
    let fits = |sum: &Sum| sum.left.len() <= LETTERS && sum.right.len() <= LETTERS;
    (draft.sums.iter().all(fits) && draft.text().len() <= 60_000).then_some(draft)
}
