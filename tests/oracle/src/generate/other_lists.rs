//! The O sums of other lists than the right one: other orders, and entries too many or too few.

use crate::coefficients::negative;
use crate::generate::damage_list::draft_list;
use crate::generate::damage_scale::in_field;
use crate::generate::draft::{Draft, Sum};
use crate::generate::random::Random;
use crate::inclusions::inclusions;
use crate::list::Entry;
use crate::overlaps::overlaps;
use crate::poly::{lead_word, Poly};

/// How many other lists there are, and how many entries a list may have for them.
const OTHER_LISTS: usize = 12;
const ENTRIES: usize = 300;

/// O sums as they would be for a list that has other entries or another order.
pub fn other_list(random: &mut Random, draft: &mut Draft) {
    let (basis, list) = draft_list(draft);
    if (1..=ENTRIES).contains(&list.len()) && in_field(draft) {
        let others = other_lists(&basis);
        renumber(draft, &list, &others[random.index(&others)]);
    }
}

/// Lists that the requirements do not allow.
fn other_lists(basis: &[Poly]) -> [Vec<Entry>; OTHER_LISTS] {
    let (laps, inside) = (overlaps(basis), inclusions(basis));
    let all = [laps.clone(), inside.clone()].concat();
    let lead = |number: u64| lead_word(&basis[number as usize - 1]);
    let equal = |entry: &Entry| lead(entry.first) == lead(entry.second);
    let turned = |entry: &Entry| Entry { first: entry.second, second: entry.first, ..entry.clone() };
    let empty_within = |entry: &Entry| entry.shared == 0 && !equal(entry);
    let kept = |inside: &[Entry], keep: &dyn Fn(&Entry) -> bool| {
        inside.iter().filter(|entry| keep(entry)).cloned().collect::<Vec<_>>()
    };
    let sorted = |mut inside: Vec<Entry>, key: &dyn Fn(&Entry) -> [u64; 3]| {
        inside.sort_by_key(key);
        inside
    };
    let rising = |entry: &Entry| [entry.first, entry.second, entry.at()];
    let twice = inside.iter().filter(|entry| equal(entry)).map(turned).chain(inside.clone()).collect();
    let higher =
        inside.iter().map(|entry| if equal(entry) { turned(entry) } else { entry.clone() }).collect();
    let first_place =
        |entry: &Entry| !inside.iter().any(|e| e.at() < entry.at() && rising(e)[..2] == rising(entry)[..2]);
    let behind = |inside: Vec<Entry>| [laps.clone(), inside].concat();
    [
        // Inclusions before overlaps; both mixed; no inclusions.
        [inside.clone(), laps.clone()].concat(),
        sorted(all, &|entry| [entry.first, entry.second, 0]),
        laps.clone(),
        // Equal words in both orders, higher number first, or not at all; without their overlaps.
        behind(sorted(twice, &rising)),
        behind(sorted(higher, &rising)),
        behind(kept(&inside, &|entry| !equal(entry))),
        [kept(&laps, &|entry| entry.first == entry.second || !equal(entry)), inside.clone()].concat(),
        // The empty word not at the end, or at the begin alone; every word at its first place alone.
        behind(kept(&inside, &|entry| !empty_within(entry) || !entry.right.is_empty())),
        behind(kept(&inside, &|entry| !empty_within(entry) || entry.left.is_empty())),
        behind(kept(&inside, &first_place)),
        // Places falling; by second, then first.
        behind(sorted(inside.clone(), &|entry| [entry.first, entry.second, u64::MAX - entry.at()])),
        behind(sorted(inside.clone(), &|entry| [entry.second, entry.first, entry.at()])),
    ]
}

/// Gives the O lines of each entry of the list the item that it has in another list. What is not in that list loses
/// its lines; what is there in the other order gets them with the other sign.
fn renumber(draft: &mut Draft, list: &[Entry], other: &[Entry]) {
    let (lines, mut sums): (Vec<Sum>, Vec<Sum>) = draft.sums.drain(..).partition(|sum| sum.kind == 'O');
    let item = |entry: &Entry| list.iter().zip(1..).find(|(known, _)| *known == entry).map(|(_, item)| item);
    for (entry, new) in other.iter().zip(1..) {
        let own = item(entry);
        let turned = Entry { first: entry.second, second: entry.first, ..entry.clone() };
        let old = own.or_else(|| item(&turned));
        for sum in lines.iter().filter(|sum| Some(sum.item) == old) {
            let coef = if own.is_some() { sum.coef } else { negative(draft.p, sum.coef) };
            sums.push(Sum { item: new, coef, ..sum.clone() });
        }
    }
    draft.sums = sums;
}

#[cfg(test)]
mod tests {
    use super::*;
    use crate::generate::certify::{certified, Combination};
    use crate::list::list;
    use crate::services::check;
    use crate::word::Word;

    /// Constants and words beside them over GF(7), some of them equal and with other tails.
    fn package() -> Draft {
        let poly = |terms: &[(&str, u64)]| -> Poly {
            terms.iter().map(|(word, coef)| (Word::new(word), *coef)).collect()
        };
        let basis = [
            poly(&[("ba", 1), ("b", 2)]),
            poly(&[("", 1)]),
            poly(&[("baba", 1), ("ab", 3), ("", 1)]),
            poly(&[("ba", 1), ("", 4)]),
            poly(&[("", 1)]),
            poly(&[("aa", 1), ("a", 1), ("b", 1), ("", 2)]),
            poly(&[("aa", 1), ("b", 5), ("", 3)]),
        ];
        let sum = |f: &Poly| -> Combination {
            f.iter().map(|(word, coef)| ((word.clone(), 1, Word::empty()), *coef)).collect()
        };
        let sums: Vec<Combination> = basis.iter().map(sum).collect();
        certified(7, 2, &[poly(&[("", 1)])], &basis, &sums).expect("a constant reduces all")
    }

    #[test]
    fn the_list_itself_is_accepted() {
        let mut draft = package();
        let (_, list) = draft_list(&draft);
        assert_eq!(check(&draft.text()).number, 0);
        renumber(&mut draft, &list, &list.clone());
        let answer = check(&draft.text());
        assert_eq!((answer.number, answer.count), (0, list.len() as u64));
    }

    #[test]
    fn other_lists_are_refused() {
        let draft = package();
        let (basis, list) = draft_list(&draft);
        for (index, other) in other_lists(&basis).iter().enumerate() {
            assert!(*other != list, "{index} is the list itself");
            let mut changed = draft.clone();
            renumber(&mut changed, &list, other);
            let number = check(&changed.text()).number;
            assert!((13..=15).contains(&number), "{index} has {number}");
        }
    }

    /// Without inclusions, every one of these lists is the package's own.
    #[test]
    fn trimmed_lists_are_the_same() {
        let basis = ["aa", "ab"].map(|word| Poly::from([(Word::new(word), 1)]));
        assert!(other_lists(&basis).iter().all(|other| *other == list(&basis)));
    }
}
