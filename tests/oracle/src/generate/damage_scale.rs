//! Damage about leading coefficients: a polynomial is multiplied where a sum is not, or a sum where nothing else is.

use crate::coefficients::{inverse, is_field, times};
use crate::generate::draft::Draft;
use crate::generate::random::Random;
use crate::generate::scale::{scale_polynomial, scale_sums};
use crate::list::list;
use crate::poly::lead_coef;

/// Whether the draft's coefficients can be multiplied: they are elements of its field.
pub fn in_field(draft: &Draft) -> bool {
    let mut coefs = draft.terms.iter().map(|term| term.coef).chain(draft.sums.iter().map(|sum| sum.coef));
    is_field(draft.p) && coefs.all(|coef| coef < draft.p)
}

/// A factor that is not 1 where the field has one.
fn factor(random: &mut Random, p: u64) -> u64 {
    if p == 2 {
        1
    } else {
        random.between(2, p - 1)
    }
}

/// Multiplies one basis polynomial, and its sums of the other kinds. Those of this kind are left as they were.
pub fn scale_without(random: &mut Random, draft: &mut Draft, left_out: char) {
    if !in_field(draft) || draft.basis == 0 {
        return;
    }
    let item = random.between(1, draft.basis);
    let factor = factor(random, draft.p);
    scale_polynomial(draft, item, factor);
    for kind in ['B', 'G', 'O'].into_iter().filter(|kind| *kind != left_out) {
        scale_sums(draft, kind, item, factor);
    }
}

/// Multiplies one leading coefficient alone: neither the lower terms nor a sum.
pub fn scale_lead(random: &mut Random, draft: &mut Draft) {
    if !in_field(draft) || draft.basis == 0 {
        return;
    }
    let (p, item) = (draft.p, random.between(1, draft.basis));
    let factor = factor(random, p);
    if let Some(term) = draft.terms.iter_mut().find(|term| (term.kind, term.item) == ('B', item)) {
        term.coef = times(p, term.coef, factor);
    }
}

/// Multiplies all lines of one O sum: its difference would not be divided by a leading coefficient or by both, be
/// divided twice, or be multiplied by anything.
pub fn scale_difference(random: &mut Random, draft: &mut Draft) {
    let basis = draft.polys('B');
    if !in_field(draft) || basis.iter().any(|f| f.is_empty()) {
        return;
    }
    let mut list: Vec<_> = (1..).zip(list(&basis)).collect();
    list.retain(|(item, _)| draft.sums.iter().any(|sum| (sum.kind, sum.item) == ('O', *item)));
    if list.is_empty() {
        return;
    }
    let (item, entry) = random.pick(&list);
    let p = draft.p;
    let coef = |of: u64| lead_coef(&basis[of as usize - 1]);
    let (first, second) = (coef(entry.first), coef(entry.second));
    let factor = match random.below(6) {
        0 => first,
        1 => second,
        2 => times(p, first, second),
        3 => inverse(p, first),
        4 => times(p, first, inverse(p, second)),
        _ => factor(random, p),
    };
    for sum in draft.sums.iter_mut().filter(|sum| (sum.kind, sum.item) == ('O', *item)) {
        sum.coef = times(p, sum.coef, factor);
    }
}

#[cfg(test)]
mod tests {
    use super::*;
    use crate::generate::families::copies_of_e;
    use crate::generate::scale::scale;
    use crate::services::check;

    /// How often each number is answered after a damage to packages that lead with other coefficients than 1.
    fn answers(damage: impl Fn(&mut Random, &mut Draft)) -> [u64; 20] {
        let mut numbers = [0; 20];
        for round in 0..300 {
            let random = &mut Random::new(8, round);
            let p = *random.pick(&[3, 7, 256, 65_521]);
            let mut draft = copies_of_e(p, 2);
            (1..=4).for_each(|item| scale(&mut draft, item, factor(random, p)));
            assert_eq!(check(&draft.text()).number, 0);
            damage(random, &mut draft);
            numbers[check(&draft.text()).number as usize] += 1;
        }
        numbers
    }

    /// Every basis polynomial has a B sum; the first and third are used by G sums, and each by O sums.
    #[test]
    fn a_sum_left_as_it_was_is_wrong() {
        let [without_b, without_g, without_o] =
            ['B', 'G', 'O'].map(|kind| answers(|random, draft| scale_without(random, draft, kind)));
        assert_eq!(without_b[11], 300);
        assert!(without_g[12] > 100 && without_g[12] + without_g[0] == 300);
        assert_eq!(without_o[13], 300);
    }

    #[test]
    fn a_leading_coefficient_alone_makes_a_sum_wrong() {
        assert_eq!(answers(scale_lead)[11], 300);
    }

    /// The factor may be 1, as the product of two leading coefficients.
    #[test]
    fn a_difference_scaled_otherwise_is_wrong() {
        let numbers = answers(scale_difference);
        assert!(numbers[13] > 200 && numbers[13] + numbers[0] == 300, "{numbers:?}");
    }

    /// Damage upon damage: what is no field, or a coefficient that is no element, is left alone.
    #[test]
    fn what_is_no_field_is_left_alone() {
        for p in [0, 1, 4, 6, 99_999] {
            let mut draft = copies_of_e(65_521, 1);
            draft.p = p;
            let before = draft.text();
            let random = &mut Random::new(9, p);
            scale_without(random, &mut draft, 'O');
            scale_lead(random, &mut draft);
            scale_difference(random, &mut draft);
            assert_eq!(draft.text(), before);
        }
        // Minus 1 of GF(65,521) is no element of GF(256).
        let mut draft = copies_of_e(65_521, 1);
        draft.p = 256;
        scale_difference(&mut Random::new(9, 0), &mut draft);
    }
}
