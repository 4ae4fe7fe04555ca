//! Other rules of steps, which the requirements do not allow: to count how often they would answer otherwise.

use crate::formula::read_formula;
use crate::package::Package;
use crate::poly::{lead_word, Poly};
use crate::steps::{leftmost, run_by, Found, Reduced, Rule};
use crate::word::Word;

/// Other rules: by the higher number, by the number before the place, and by the longest leading word.
pub const OTHER_RULES: [Rule; 3] = [higher_number, number_before_place, longest_first];

/// For each of the other rules, whether it answers otherwise for a formula under an accepted package: after other
/// steps, or by another refusal. None does for a formula that does not read.
pub fn steps_otherwise(package: &Package, formula: &[u8], budget: u64) -> [bool; 3] {
    let Ok(formula) = read_formula(formula, package.p, package.letters) else {
        return [false; 3];
    };
    let run = |rule: Rule, budget: u64| {
        let said = |reduced: Reduced| (reduced.steps, reduced.short);
        run_by(rule, package, formula.clone(), budget).map(said)
    };
    let answer = run(leftmost, budget);
    // One step more than the answer took is enough to see that another rule takes longer.
    let steps = match &answer {
        Ok((steps, _)) => *steps,
        Err(refusal) => refusal.place,
    };
    OTHER_RULES.map(|rule| run(rule, budget.min(steps + 1)) != answer)
}

/// Whether the leading word of a polynomial stands in a word at a place.
fn stands(word: &Word, begin: usize, g: &Poly) -> bool {
    word.0[begin..].starts_with(&lead_word(g).0)
}

/// The leftmost place, and there the higher number.
fn higher_number(word: &Word, basis: &[Poly]) -> Option<Found> {
    let at = |begin: usize| basis.iter().rposition(|g| stands(word, begin, g)).map(|index| (begin, index));
    (0..=word.len()).find_map(at)
}

/// The lowest number at any place, and its leftmost place.
fn number_before_place(word: &Word, basis: &[Poly]) -> Option<Found> {
    let of = |(index, g): (usize, &Poly)| {
        (0..=word.len()).find(|begin| stands(word, *begin, g)).map(|begin| (begin, index))
    };
    basis.iter().enumerate().find_map(of)
}

/// The leftmost place, and there the longest leading word, of several the one with the lowest number.
fn longest_first(word: &Word, basis: &[Poly]) -> Option<Found> {
    let at = |begin: usize| {
        let there = (0..basis.len()).rev().filter(|index| stands(word, begin, &basis[*index]));
        there.max_by_key(|index| lead_word(&basis[*index]).len()).map(|index| (begin, index))
    };
    (0..=word.len()).find_map(at)
}

#[cfg(test)]
mod tests {
    use super::*;
    use crate::generate::formula_rows::text;
    use crate::generate::untrimmed_rows::longer_way;
    use crate::package::read;

    #[test]
    fn other_steps_are_seen() {
        let [short, long] = [[1, 2, 3], [3, 1, 2]].map(|order| longer_way(&order));
        let [short, long] =
            [short, long].map(|package| read(package.as_bytes()).expect("a package that reads"));
        for budget in [1, 3, 1_000] {
            let otherwise = |package| steps_otherwise(package, &text("1 aab"), budget);
            assert_eq!(otherwise(&short), [true, false, true], "budget {budget}");
            assert_eq!(otherwise(&long), [true, false, false], "budget {budget}");
        }
        assert_eq!(steps_otherwise(&short, &text("1 bba"), 1_000), [false; 3]);
        // `ab` at place 1 has the number 1 here, and `aa` at place 0 has 2.
        let turned = longer_way(&[2, 1, 3]);
        let turned = read(turned.as_bytes()).expect("a package that reads");
        assert_eq!(steps_otherwise(&turned, &text("1 aab"), 1_000), [true; 3]);
    }

    #[test]
    fn each_rule_takes_its_own() {
        let basis = ["ba", "aab", "aa", "aa"].map(|word| Poly::from([(Word::new(word), 1)]));
        let word = Word::new("baab");
        assert_eq!(leftmost(&word, &basis), Some((0, 0)));
        assert_eq!(leftmost(&Word::new("aaba"), &basis), Some((0, 1)));
        assert_eq!(higher_number(&Word::new("aaba"), &basis), Some((0, 3)));
        assert_eq!(number_before_place(&Word::new("aaba"), &basis), Some((2, 0)));
        assert_eq!(longest_first(&Word::new("aab"), &basis[1..]), Some((0, 0)));
        assert_eq!(longest_first(&Word::new("aab"), &[&basis[2..], &basis[1..2]].concat()), Some((0, 2)));
        assert_eq!(longest_first(&Word::new("aa"), &basis[1..]), Some((0, 1)));
        assert_eq!(leftmost(&Word::new("bb"), &basis), None);
        assert_eq!(higher_number(&Word::new("bb"), &basis), None);
    }
}
