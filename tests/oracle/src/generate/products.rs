//! Every product of two elements of GF(256) other than 0, seen in short forms.

use crate::coefficients::GF_256;
use crate::formula::formula_text;
use crate::generate::families::own_basis;
use crate::generate::growth::tail_words;
use crate::poly::Poly;
use crate::word::Word;

/// The coefficients of a basis polynomial below its leading term: with that one it has 48 terms.
const LOWER: usize = 47;

/// The terms of a formula: 10 × 47 products are below the 512 terms that a step may leave.
const FACTORS: usize = 10;

/// Packages, each with its formulas. A package has one basis polynomial: `ab`, which overlaps nothing, and
/// lower terms. A formula has terms letter × `ab`, so that its short form has each of its coefficients times
/// each lower one. Over all of them, every pair of elements other than 0 is met once.
pub fn every_product() -> Vec<(Vec<u8>, Vec<Vec<u8>>)> {
    let elements: Vec<u64> = (1..GF_256).collect();
    let lower = tail_words(LOWER);
    let formulas: Vec<Vec<u8>> = elements
        .chunks(FACTORS)
        .map(|factors| {
            let lefts = (b'c'..=b'z').map(|letter| Word(vec![letter, b'a', b'b']));
            formula_text(&lefts.zip(factors.iter().copied()).collect())
        })
        .collect();
    let package = |coefs: &[u64]| {
        let mut f: Poly = lower.iter().cloned().zip(coefs.iter().copied()).collect();
        f.insert(Word::new("ab"), 1);
        own_basis(GF_256, 26, &[f]).expect("no overlaps").text()
    };
    elements.chunks(LOWER).map(|coefs| (package(coefs), formulas.clone())).collect()
}

#[cfg(test)]
mod tests {
    use super::*;
    use crate::services::short_form;

    /// Each element but 0 is a product of 255 pairs: one for each first factor.
    #[test]
    fn every_pair_is_met() {
        let mut met = vec![0; 256];
        for (package, formulas) in every_product() {
            for formula in formulas {
                let answer = short_form(&package, &formula, 100, 1 << 20);
                let output = String::from_utf8(answer.output.expect("a short form")).expect("text");
                for line in output.lines().skip(1) {
                    let coef = line.split(' ').next().expect("a coefficient");
                    met[coef.parse::<usize>().expect("a number")] += 1;
                }
            }
        }
        assert_eq!(met, [&[0][..], &[255; 255][..]].concat());
    }
}
