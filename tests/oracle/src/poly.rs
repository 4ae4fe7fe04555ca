//! Polynomials, as a map from words to coefficients.

use crate::coefficients::{add, inverse, times};
use crate::word::Word;
use std::collections::BTreeMap;

/// Every coefficient is 1 to p-1; the zero polynomial has no entry. The map is in rising order of words, so
/// the leading word is the last key.
pub type Poly = BTreeMap<Word, u64>;

/// The leading word and its coefficient.
pub fn lead(f: &Poly) -> Option<(&Word, u64)> {
    f.last_key_value().map(|(word, coef)| (word, *coef))
}

/// The leading word of a polynomial that is not zero.
pub fn lead_word(f: &Poly) -> &Word {
    lead(f).expect("a polynomial that is not zero").0
}

/// The leading coefficient of a polynomial that is not zero.
pub fn lead_coef(f: &Poly) -> u64 {
    lead(f).expect("a polynomial that is not zero").1
}

/// A polynomial that is not zero, divided by its leading coefficient.
pub fn divided(p: u64, f: &Poly) -> Poly {
    let factor = inverse(p, lead_coef(f));
    f.iter().map(|(word, coef)| (word.clone(), times(p, *coef, factor))).collect()
}

/// Adds coef × word to f. A coefficient that becomes 0 is taken out.
pub fn add_term(p: u64, f: &mut Poly, coef: u64, word: Word) {
    let old = f.remove(&word).unwrap_or(0);
    let new = add(p, old, coef);
    if new != 0 {
        f.insert(word, new);
    }
}

/// Adds coef × left × g × right to f.
pub fn add_multiple(p: u64, f: &mut Poly, coef: u64, left: &Word, g: &Poly, right: &Word) {
    for (word, c) in g {
        add_term(p, f, times(p, coef, *c), left.times(word).times(right));
    }
}

#[cfg(test)]
mod tests {
    use super::*;

    #[test]
    fn cancelled_terms_are_taken_out() {
        let mut f = Poly::new();
        add_term(7, &mut f, 3, Word::new("a"));
        add_term(7, &mut f, 4, Word::new("a"));
        assert!(f.is_empty());
        add_term(256, &mut f, 200, Word::new("a"));
        add_term(256, &mut f, 56, Word::new("a"));
        assert_eq!(f[&Word::new("a")], 240);
        add_term(256, &mut f, 240, Word::new("a"));
        assert!(f.is_empty());
    }

    /// 5 × 3 is 1 modulo 7, and 4 × 5 is 6. In GF(256) 2 × 142 is 1, and 29 is 2 × 128.
    #[test]
    fn division_by_the_leading_coefficient() {
        let poly = |aa, b| Poly::from([(Word::new("aa"), aa), (Word::new("b"), b)]);
        assert_eq!(lead_coef(&poly(3, 4)), 3);
        assert_eq!(divided(7, &poly(3, 4)), poly(1, 6));
        assert_eq!(divided(7, &poly(1, 6)), poly(1, 6));
        assert_eq!(divided(256, &poly(2, 29)), poly(1, 128));
        assert_eq!(divided(256, &poly(142, 1)), poly(1, 2));
    }
}
