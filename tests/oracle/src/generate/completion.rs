//! A small completion procedure: from relations to a basis, with every basis polynomial known as a sum over
//! the relations. It gives up when anything grows over its bounds.

use crate::coefficients::negative;
use crate::generate::certify::{add_combination, certified, reduce, Taken};
use crate::generate::draft::Draft;
use crate::generate::known::{apart, Known};
use crate::generate::random::Random;
use crate::list::list;
use crate::poly::{lead, lead_word, Poly};
use crate::word::Word;

const BASIS: usize = 24;
const WORD: usize = 12;
const TERMS: usize = 40;
const SUM_LINES: usize = 200;
const STEPS: usize = 200;

/// Whether polynomials leave the basis when a leading word that comes later stands inside theirs.
#[derive(Clone, Copy, PartialEq)]
pub enum Keep {
    Trimmed,
    All,
}

/// Reduces by the others and keeps the sum right.
fn reduce_known(p: u64, known: &mut Known, others: &[Known], whole: bool) -> Option<()> {
    let polys: Vec<Poly> = others.iter().map(|other| other.poly.clone()).collect();
    for Taken { coef, left, index, right } in reduce(p, &mut known.poly, &polys, whole, STEPS)? {
        add_combination(p, &mut known.sum, negative(p, coef), &left, &others[index].sum, &right);
    }
    let small = known.poly.len() <= TERMS && known.sum.len() <= SUM_LINES;
    (small && known.poly.keys().all(|word| word.len() <= WORD)).then_some(())
}

/// A package for these relations, or None when the completion gives up.
pub fn complete(random: &mut Random, p: u64, letters: u64, relations: &[Poly], keep: Keep) -> Option<Draft> {
    let start = relations.iter().zip(1..).filter(|(f, _)| !f.is_empty());
    let mut waiting: Vec<Known> = start.map(|(f, of)| Known::relation(f, of)).collect();
    let mut basis: Vec<Known> = Vec::new();
    loop {
        while let Some(next) = waiting.pop() {
            match keep {
                Keep::Trimmed => include(p, &mut basis, &mut waiting, next)?,
                Keep::All => include_all(p, &mut basis, next),
            }
            if basis.len() > BASIS {
                return None;
            }
        }
        match open_difference(p, &basis)? {
            Some(known) => waiting.push(known),
            None => break,
        }
    }
    if random.one_in(2) {
        reduce_tails(p, &mut basis)?;
    }
    random.shuffle(&mut basis);
    let (polys, sums) = apart(basis);
    certified(p, letters, relations, &polys, &sums)
}

/// Takes a polynomial into the basis, reduced and leading with 1. Basis polynomials whose leading word holds
/// the new one's go back to the waiting ones, so that the basis stays trimmed.
fn include(p: u64, basis: &mut Vec<Known>, waiting: &mut Vec<Known>, mut next: Known) -> Option<()> {
    reduce_known(p, &mut next, basis, false)?;
    if next.poly.is_empty() {
        return Some(());
    }
    next.make_monic(p);
    let word = lead_word(&next.poly).clone();
    let (out, kept) = basis.drain(..).partition(|known| lead_word(&known.poly).holds(&word));
    *basis = kept;
    let mut out: Vec<Known> = out;
    waiting.append(&mut out);
    basis.push(next);
    Some(())
}

/// Takes a polynomial into the basis as it is, leading with 1. The basis need not be trimmed then: leading words of
/// relations may stand inside one another or be equal, and later ones inside theirs.
fn include_all(p: u64, basis: &mut Vec<Known>, mut next: Known) {
    next.make_monic(p);
    basis.push(next);
}

/// The first difference of the list that does not reduce to zero, with its sum. The outer None: it grew over the
/// bounds.
fn open_difference(p: u64, basis: &[Known]) -> Option<Option<Known>> {
    let polys: Vec<Poly> = basis.iter().map(|known| known.poly.clone()).collect();
    for entry in list(&polys) {
        let [first, second] = [entry.first, entry.second].map(|number| &basis[number as usize - 1]);
        let mut known = Known::zero();
        known.add(p, 1, &Word::empty(), first, &entry.rest);
        known.add(p, negative(p, 1), &entry.left, second, &entry.right);
        reduce_known(p, &mut known, basis, false)?;
        if !known.poly.is_empty() {
            return Some(Some(known));
        }
    }
    Some(None)
}

/// Reduces every basis polynomial below its leading word.
fn reduce_tails(p: u64, basis: &mut [Known]) -> Option<()> {
    for index in 0..basis.len() {
        let mut known = basis[index].clone();
        let (word, coef) = lead(&known.poly).map(|(word, coef)| (word.clone(), coef))?;
        known.poly.remove(&word);
        reduce_known(p, &mut known, basis, true)?;
        known.poly.insert(word, coef);
        basis[index] = known;
    }
    Some(())
}
