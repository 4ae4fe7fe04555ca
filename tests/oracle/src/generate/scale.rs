//! Basis polynomials multiplied by elements of the field, so that they lead with other coefficients than 1.

use crate::coefficients::{inverse, times};
use crate::generate::draft::Draft;
use crate::generate::random::Random;
use crate::package::PACKAGE_BYTES;

/// Multiplies basis polynomial `item` by a factor other than 0. Its own sum is multiplied by the factor, and every
/// line that uses the polynomial by the factor's inverse. Differences stay as they are, since each side is
/// divided by its leading coefficient: a valid package stays valid.
pub fn scale(draft: &mut Draft, item: u64, factor: u64) {
    scale_polynomial(draft, item, factor);
    for kind in ['B', 'G', 'O'] {
        scale_sums(draft, kind, item, factor);
    }
}

/// Multiplies the terms of basis polynomial `item`, and no sum.
pub fn scale_polynomial(draft: &mut Draft, item: u64, factor: u64) {
    let p = draft.p;
    let own = draft.terms.iter_mut().filter(|term| (term.kind, term.item) == ('B', item));
    own.for_each(|term| term.coef = times(p, term.coef, factor));
}

/// Multiplies the sum lines of one kind as basis polynomial `item` times the factor wants it: in B sums those of
/// the item, in G and O sums those that use it.
pub fn scale_sums(draft: &mut Draft, kind: char, item: u64, factor: u64) {
    let p = draft.p;
    for sum in draft.sums.iter_mut().filter(|sum| sum.kind == kind) {
        if kind == 'B' && sum.item == item {
            sum.coef = times(p, sum.coef, factor);
        } else if kind != 'B' && sum.of == item {
            sum.coef = times(p, sum.coef, inverse(p, factor));
        }
    }
}

/// Multiplies every basis polynomial by its own factor. In GF(2) there is no factor but 1.
pub fn scale_all(random: &mut Random, draft: &mut Draft) {
    (1..=draft.basis).for_each(|item| scale(draft, item, random.coef(draft.p)));
}

/// In three of four cases multiplies basis polynomials: each by its own factor, by 1 or p - 1, all by the same, or
/// one alone. Coefficients of more digits may make the package too long; then it stays as it was.
pub fn scale_some(random: &mut Random, draft: &mut Draft) {
    if random.one_in(4) || draft.basis == 0 {
        return;
    }
    let before = draft.clone();
    let p = draft.p;
    let common = random.coef(p);
    match random.below(5) {
        0 => (1..=draft.basis).for_each(|item| scale(draft, item, *random.pick(&[1, p - 1]))),
        1 => (1..=draft.basis).for_each(|item| scale(draft, item, common)),
        2 => scale(draft, random.between(1, draft.basis), common),
        _ => scale_all(random, draft),
    }
    if draft.text().len() > PACKAGE_BYTES {
        *draft = before;
    }
}

#[cfg(test)]
mod tests {
    use super::*;
    use crate::generate::draft::Sum;
    use crate::generate::families::copies_of_e;
    use crate::generate::formulas::Ground;
    use crate::generate::valid::unscaled;
    use crate::leads::leads_otherwise;
    use crate::services::{check, list_overlaps, member, short_form, Answer};
    use crate::word::Word;

    /// Whatever its polynomials lead with, a package has the same overlaps, and a formula the same short form after
    /// as many steps.
    #[test]
    fn scaled_packages_answer_the_same() {
        let mut divided = 0;
        for round in 0..400 {
            let random = &mut Random::new(5, round);
            let mut draft = unscaled(random);
            let (ground, package) = (Ground::of(&draft), draft.text());
            scale_all(random, &mut draft);
            let scaled = draft.text();
            assert_eq!(check(&package), check(&scaled), "{}", String::from_utf8_lossy(&scaled));
            assert_eq!(list_overlaps(&package, 9_999), list_overlaps(&scaled, 9_999));
            for _ in 0..4 {
                let formula = ground.formula(random);
                let said = |answer: Answer| {
                    (answer.number, answer.place, answer.count, answer.member, answer.output)
                };
                let scaled_answer = short_form(&scaled, &formula, 300, 9_999);
                divided += scaled_answer.divided;
                assert_eq!(said(short_form(&package, &formula, 300, 9_999)), said(scaled_answer));
                assert_eq!(said(member(&package, &formula, 300)), said(member(&scaled, &formula, 300)));
            }
        }
        assert!(divided >= 2_000, "{divided} steps with another leading coefficient than 1");
    }

    #[test]
    fn about_three_of_four_are_scaled() {
        let mut scaled = 0;
        for round in 0..300 {
            let random = &mut Random::new(6, round);
            let mut draft = copies_of_e(997, 3);
            scale_some(random, &mut draft);
            scaled += u64::from(leads_otherwise(&draft.polys('B')));
        }
        assert!((200..250).contains(&scaled), "{scaled} of 300");
    }

    /// About 65,000 bytes with coefficients of one digit, most of which would have five.
    #[test]
    fn no_package_becomes_too_long() {
        let mut draft = copies_of_e(65_521, 1);
        let line = Sum::new('G', 1, 1, &Word::empty(), 1, &Word::empty());
        draft.sums.extend(vec![line; 5_400]);
        assert!((64_000..PACKAGE_BYTES).contains(&draft.text().len()));
        for round in 0..20 {
            let mut scaled = draft.clone();
            scale_some(&mut Random::new(10, round), &mut scaled);
            assert!(scaled.text().len() <= PACKAGE_BYTES);
        }
    }
}
