//! Rewriting a formula step by step: refusals 17 and 18.

use crate::coefficients::{inverse, negative, times};
use crate::package::Package;
use crate::poly::{add_multiple, lead_coef, lead_word, Poly};
use crate::refusal::{refuse, Refusal};
use crate::word::Word;

/// The most terms that a step may leave.
const STEP_TERMS: usize = 512;

/// What the next step takes: a word of the formula, the basis polynomial whose leading word stands in it,
/// and the word's parts before and behind that place.
struct Site {
    word: Word,
    basis: usize,
    left: Word,
    right: Word,
}

/// Where a leading word stands in a word: the place, and the index of its polynomial.
pub type Found = (usize, usize);

/// What is taken of a word's leading words inside, if there is one.
pub type Rule = fn(&Word, &[Poly]) -> Option<Found>;

/// The leftmost place; of polynomials that match there, the one with the lower number.
pub fn leftmost(word: &Word, basis: &[Poly]) -> Option<Found> {
    for begin in 0..=word.len() {
        for (index, g) in basis.iter().enumerate() {
            if word.0[begin..].starts_with(&lead_word(g).0) {
                return Some((begin, index));
            }
        }
    }
    None
}

/// The greatest word of f that has a leading word inside, where the rule finds one.
fn next_site(f: &Poly, basis: &[Poly], rule: Rule) -> Option<Site> {
    f.keys().rev().find_map(|word| {
        let (begin, index) = rule(word, basis)?;
        let left = Word(word.0[..begin].to_vec());
        let right = Word(word.0[begin + lead_word(&basis[index]).len()..].to_vec());
        Some(Site { word: word.clone(), basis: index, left, right })
    })
}

/// A short form and the steps to it.
pub struct Reduced {
    pub short: Poly,
    pub steps: u64,
    /// Of the steps, those with a polynomial that leads with another coefficient than 1.
    pub divided: u64,
}

/// Brings f to its short form under an accepted package.
pub fn run(package: &Package, f: Poly, budget: u64) -> Result<Reduced, Refusal> {
    run_by(leftmost, package, f, budget)
}

/// The same by any rule. A step takes away the word's coefficient × the inverse of the leading coefficient × left ×
/// basis polynomial × right.
pub fn run_by(rule: Rule, package: &Package, mut f: Poly, budget: u64) -> Result<Reduced, Refusal> {
    let p = package.p;
    let (mut steps, mut divided) = (0, 0);
    while let Some(site) = next_site(&f, &package.basis, rule) {
        if steps == budget {
            return refuse(18, budget);
        }
        steps += 1;
        let g = &package.basis[site.basis];
        divided += u64::from(lead_coef(g) != 1);
        let coef = times(p, f[&site.word], inverse(p, lead_coef(g)));
        add_multiple(p, &mut f, negative(p, coef), &site.left, g, &site.right);
        if f.len() > STEP_TERMS {
            return refuse(17, steps);
        }
    }
    Ok(Reduced { short: f, steps, divided })
}
