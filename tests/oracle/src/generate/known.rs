//! A polynomial with its sum over the relations.

use crate::coefficients::{inverse, times};
use crate::generate::certify::{add_combination, Combination};
use crate::generate::draft::Draft;
use crate::poly::{add_multiple, lead_coef, Poly};
use crate::word::Word;

#[derive(Clone)]
pub struct Known {
    pub poly: Poly,
    pub sum: Combination,
}

impl Known {
    pub fn zero() -> Known {
        Known { poly: Poly::new(), sum: Combination::new() }
    }

    /// Relation number `of`.
    pub fn relation(f: &Poly, of: u64) -> Known {
        Known { poly: f.clone(), sum: Combination::from([((Word::empty(), of, Word::empty()), 1)]) }
    }

    /// The basis polynomials of a draft, each with its B sum.
    pub fn basis(draft: &Draft) -> Vec<Known> {
        let polys = draft.polys('B').into_iter().zip(1..);
        let known = |(poly, item): (Poly, u64)| {
            let mut sum = Combination::new();
            for line in draft.sums.iter().filter(|line| (line.kind, line.item) == ('B', item)) {
                let one = Combination::from([((line.left.clone(), line.of, line.right.clone()), line.coef)]);
                add_combination(draft.p, &mut sum, 1, &Word::empty(), &one, &Word::empty());
            }
            Known { poly, sum }
        };
        polys.map(known).collect()
    }

    /// Adds coef × left × from × right.
    pub fn add(&mut self, p: u64, coef: u64, left: &Word, from: &Known, right: &Word) {
        add_multiple(p, &mut self.poly, coef, left, &from.poly, right);
        add_combination(p, &mut self.sum, coef, left, &from.sum, right);
    }

    /// Divides by the leading coefficient.
    pub fn make_monic(&mut self, p: u64) {
        let factor = inverse(p, lead_coef(&self.poly));
        self.poly.values_mut().for_each(|coef| *coef = times(p, *coef, factor));
        self.sum.values_mut().for_each(|coef| *coef = times(p, *coef, factor));
    }
}

/// Polynomials and sums apart.
pub fn apart(known: Vec<Known>) -> (Vec<Poly>, Vec<Combination>) {
    known.into_iter().map(|known| (known.poly, known.sum)).unzip()
}
