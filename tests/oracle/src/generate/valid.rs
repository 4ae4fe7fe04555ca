//! A random valid package: by completion, or of a known family, its basis trimmed or not.

use crate::generate::completion::{complete, Keep};
use crate::generate::draft::Draft;
use crate::generate::dress::dress;
use crate::generate::families;
use crate::generate::random::Random;
use crate::generate::relations::{alphabet, field, setting};
use crate::generate::scale::scale_some;
use crate::generate::stretch::stretched;
use crate::generate::untrim::untrimmed;

/// How often a completion is tried before a family is taken instead.
const TRIES: usize = 20;

/// A valid package. About half of them have basis polynomials that lead with other coefficients than 1.
pub fn valid(random: &mut Random) -> Draft {
    let mut draft = unscaled(random);
    scale_some(random, &mut draft);
    draft
}

/// A valid package whose basis polynomials all lead with 1. About half of them have leading words inside one another.
pub fn unscaled(random: &mut Random) -> Draft {
    let mut draft = if random.one_in(3) { trimmed(random) } else { trimmed_or_not(random) };
    dress(random, &mut draft);
    if random.one_in(4) {
        draft = stretched(random, &draft).unwrap_or(draft);
    }
    draft
}

fn trimmed(random: &mut Random) -> Draft {
    if random.one_in(4) {
        family(random, Keep::Trimmed)
    } else {
        completed(random, Keep::Trimmed)
    }
}

/// A package whose basis is mostly not trimmed: by a completion that keeps all, or by more polynomials for a basis,
/// often for one that is a constant alone, beside which every polynomial is one of the ideal.
fn trimmed_or_not(random: &mut Random) -> Draft {
    let draft = match random.below(6) {
        0 => constant(random),
        1 => family(random, Keep::All),
        2 | 3 => completed(random, Keep::All),
        _ => trimmed(random),
    };
    if random.one_in(4) {
        return draft;
    }
    untrimmed(random, &draft).unwrap_or(draft)
}

/// A package by completion of random relations, seldom one with a single basis polynomial or without O lines.
pub fn completed(random: &mut Random, keep: Keep) -> Draft {
    for _ in 0..TRIES {
        let setting = setting(random);
        if let Some(draft) = complete(random, setting.p, setting.letters, &setting.relations, keep) {
            let plain = draft.basis < 2 || !draft.sums.iter().any(|sum| sum.kind == 'O');
            if !plain || random.one_in(12) {
                return draft;
            }
        }
    }
    family(random, keep)
}

fn constant(random: &mut Random) -> Draft {
    let p = field(random);
    families::constant(p, random.between(1, 4), random.coef(p))
}

fn family(random: &mut Random, keep: Keep) -> Draft {
    let p = field(random);
    let size = random.between(1, 4);
    let (letters, alphabet) = alphabet(random, size);
    match random.below(9) {
        0 => families::empty(p, letters),
        1 => families::constant(p, letters, random.coef(p)),
        2 => families::zero_relations(p, letters, random.between(1, 32) as usize),
        3 => families::copies_of_e(p, random.between(1, 6)),
        4 => families::counter(p, random.between(1, 12) as usize),
        5 => {
            let (polys, terms) = (random.between(1, 6), random.between(1, 48));
            families::without_overlaps(random, p, polys, terms).unwrap_or_else(|| families::empty(p, letters))
        }
        _ => families::random_monomials(random, p, letters, &alphabet, keep),
    }
}

#[cfg(test)]
mod tests {
    use super::*;
    use crate::coefficients::GF_256;
    use crate::generate::relations::Setting;
    use crate::inclusions::is_untrimmed;
    use crate::leads::leads_otherwise;
    use crate::services::check;

    #[test]
    fn generated_packages_are_accepted() {
        // In all, over GF(256), and with other leading coefficients than 1.
        let (mut over_256, mut scaled, mut scaled_256) = (0, 0, 0);
        let (mut inside, mut inside_256, mut inside_scaled) = (0, 0, 0);
        for round in 0..600 {
            let draft = valid(&mut Random::new(1, round));
            let text = draft.text();
            let answer = check(&text);
            assert_eq!((answer.number, answer.place), (0, 0), "{}", String::from_utf8_lossy(&text));
            let basis = draft.polys('B');
            let (is_scaled, is_inside) = (leads_otherwise(&basis), is_untrimmed(&basis));
            over_256 += u64::from(draft.p == GF_256);
            scaled += u64::from(is_scaled);
            scaled_256 += u64::from(draft.p == GF_256 && is_scaled);
            inside += u64::from(is_inside);
            inside_256 += u64::from(draft.p == GF_256 && is_inside);
            inside_scaled += u64::from(is_scaled && is_inside);
        }
        assert!(over_256 >= 90, "{over_256} over GF(256)");
        assert!((240..360).contains(&scaled), "{scaled} lead with other coefficients than 1");
        assert!(2 * scaled_256 >= over_256, "{scaled_256} of {over_256} over GF(256)");
        assert!((210..330).contains(&inside), "{inside} have leading words inside one another");
        assert!(3 * inside_256 >= over_256, "{inside_256} of {over_256} over GF(256)");
        assert!(3 * inside_scaled >= scaled, "{inside_scaled} of {scaled} that lead otherwise");
    }

    /// Completions that keep all end as often, and many of them hold leading words inside one another.
    #[test]
    fn completions_that_keep_all_end_often_enough() {
        let (mut ended, mut inside) = (0, 0);
        for round in 0..300 {
            let random = &mut Random::new(2, round);
            let Setting { p, letters, relations } = setting(random);
            if let Some(draft) = complete(random, p, letters, &relations, Keep::All) {
                ended += 1;
                inside += u64::from(is_untrimmed(&draft.polys('B')));
            }
        }
        assert!(ended >= 80 && inside >= 40, "{ended} ended, {inside} not trimmed");
    }

    #[test]
    fn completions_end_often_enough() {
        let mut all = (0, 0);
        let mut over_256 = (0, 0);
        // Coefficients that are there in GF(256) and not in GF(2).
        let mut coefs = 0;
        for round in 0..300 {
            let random = &mut Random::new(2, round);
            let Setting { p, letters, relations } = setting(random);
            if let Some(draft) = complete(random, p, letters, &relations, Keep::Trimmed) {
                let overlaps = check(&draft.text()).count;
                all = (all.0 + 1, all.1 + overlaps);
                if p == GF_256 {
                    over_256 = (over_256.0 + 1, over_256.1 + overlaps);
                    coefs += draft.sums.iter().filter(|sum| sum.coef > 1).count();
                }
            }
        }
        assert!(all.0 >= 90 && all.1 >= 450, "{all:?} ended, overlaps");
        assert!(over_256.0 >= 30 && over_256.1 >= 40, "{over_256:?} ended, overlaps over GF(256)");
        assert!(coefs >= 300, "{coefs} coefficients above 1 in sums over GF(256)");
    }
}
