//! Inverses of leading coefficients, seen in short forms: all in GF(256) and in some GF(p), and some in others.

use crate::coefficients::GF_256;
use crate::formula::formula_text;
use crate::generate::families::{code, own_basis};
use crate::poly::Poly;
use crate::word::Word;

/// The leading coefficients of a package: there are 32 relations at most, and each is its own basis polynomial.
const LEADS: usize = 32;

/// A field, and elements of it other than 0.
type Elements = (u64, Vec<u64>);

/// Every element of the smaller fields; of the others those at the ends and in the middle, and about powers of 2.
fn elements() -> Vec<Elements> {
    let small = [2, 3, 5, 7, 11, 13, 251, GF_256, 257].map(|p| (p, (1..p).collect()));
    let large = [997, 32_749, 65_519, 65_521].map(|p| {
        let ends = (1..=8).flat_map(|c| [c, p - c]);
        let middle = (0..8).map(|c| p / 2 - 3 + c);
        let powers = (4..16).flat_map(|bits| [(1 << bits) - 1, 1 << bits, (1 << bits) + 1]);
        let elements: std::collections::BTreeSet<u64> = ends.chain(middle).chain(powers).collect();
        (p, elements.into_iter().filter(|c| *c < p).collect())
    });
    small.into_iter().chain(large).collect()
}

/// A package with one basis polynomial c × lead + lower for each of these elements c, and two formulas of as many
/// terms: each coefficient 1, so that the short form has minus the inverses, and each its c, so that it has minus
/// 1 everywhere.
pub struct Inverses {
    pub p: u64,
    pub leads: Vec<u64>,
    pub package: Vec<u8>,
    pub formulas: [Vec<u8>; 2],
}

pub fn every_inverse() -> Vec<Inverses> {
    let packages = |(p, elements): &Elements| -> Vec<Inverses> {
        elements.chunks(LEADS).map(|leads| inverses(*p, leads)).collect()
    };
    elements().iter().flat_map(packages).collect()
}

fn inverses(p: u64, leads: &[u64]) -> Inverses {
    let words = || (0..).map(code);
    let basis: Vec<Poly> = words()
        .zip(leads)
        .map(|(lead, coef)| {
            // `b` in place of the only `a`.
            let lower = Word([&b"b"[..], &lead.0[1..]].concat());
            Poly::from([(lead, *coef), (lower, 1)])
        })
        .collect();
    let package = own_basis(p, 26, &basis).expect("no overlaps").text();
    let ones = words().zip(leads).map(|(lead, _)| (lead, 1)).collect();
    let same = words().zip(leads.iter().copied()).collect();
    Inverses { p, leads: leads.to_vec(), package, formulas: [ones, same].map(|f| formula_text(&f)) }
}

#[cfg(test)]
mod tests {
    use super::*;
    use crate::coefficients::{add, times};
    use crate::services::short_form;

    /// The coefficients of a formula's short form, from the greatest word on.
    fn coefs(package: &[u8], formula: &[u8]) -> Vec<u64> {
        let answer = short_form(package, formula, 100, 1 << 20);
        let output = String::from_utf8(answer.output.expect("a short form")).expect("text");
        let coef = |line: &str| line.split(' ').next()?.parse().ok();
        output.lines().skip(1).map(|line| coef(line).expect("a coefficient")).collect()
    }

    /// A coefficient of the short form, times the leading coefficient, is minus 1.
    #[test]
    fn inverses_by_products() {
        let mut met = 0;
        for Inverses { p, leads, package, formulas: [ones, same] } in every_inverse() {
            let short = coefs(&package, &ones);
            assert_eq!(short.len(), leads.len());
            met += leads.len();
            for (coef, lead) in short.iter().zip(&leads) {
                assert_eq!(add(p, times(p, *coef, *lead), 1), 0, "{lead} in the field of {p}");
            }
            for coef in coefs(&package, &same) {
                assert_eq!(add(p, coef, 1), 0, "in the field of {p}");
            }
        }
        assert!(met > 255 + 250 + 256 + 100);
    }
}
