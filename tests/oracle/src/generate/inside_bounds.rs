//! Packages at the bounds of words, polynomials and term lines whose leading words stand inside one another.

use crate::generate::certify::certified;
use crate::generate::crowded::of_words;
use crate::generate::draft::{Draft, Sum};
use crate::generate::dress::add_cancelling;
use crate::generate::growth::spreading;
use crate::generate::known::{apart, Known};
use crate::generate::package_rows::Row;
use crate::generate::random::Random;
use crate::generate::scale::scale_all;
use crate::generate::untrim::with_copies;
use crate::word::Word;

pub fn inside_bounds() -> Vec<Row> {
    let mut rows = Rows(Vec::new());
    rows.longest_list();
    rows.empty_words();
    rows.powers();
    rows.copies();
    rows.multiples();
    rows.0
}

/// So many times the letter `a`.
fn power(letters: usize) -> Word {
    Word(vec![b'a'; letters])
}

struct Rows(Vec<Row>);

impl Rows {
    fn put(&mut self, draft: &Draft, number: u64, place: u64, count: u64) {
        self.0.push(Row { package: draft.text(), check: (number, place, count) });
    }

    /// A package that is accepted, and the same over GF(256) with other leading coefficients than 1.
    fn accepted(&mut self, of: impl Fn(u64) -> Draft, count: u64) {
        self.put(&of(7), 0, 0, count);
        let mut scaled = of(256);
        scale_all(&mut Random::new(0, 2), &mut scaled);
        self.put(&scaled, 0, 0, count);
    }

    /// 64 times the word of 24 letters `a`: 64 × 64 × 23 = 94,208 overlaps and 64 × 63 / 2 = 2,016 inclusions.
    fn longest_list(&mut self) {
        let equal = |p| of_words(p, 1, &vec![power(24); 64]);
        self.accepted(equal, 96_224);
        // The last overlap word has 25 letters, and that of every inclusion 24: no product is below it.
        let line = 4 + equal(7).terms.len() as u64 + 65 + 1;
        let none = Word::empty();
        for (item, number) in [(94_208, 0), (94_209, 14), (96_224, 14), (96_225, 15)] {
            let mut draft = equal(7);
            add_cancelling(&mut draft, 'O', item, 3, &none, 64, &none);
            let (place, count) = if number == 0 { (0, 96_224) } else { (line, 0) };
            self.put(&draft, number, place, count);
        }
        let mut wrong = equal(7);
        wrong.sums.push(Sum::new('O', 94_208, 1, &none, 1, &none));
        self.put(&wrong, 13, 94_208, 0);
    }

    /// 64 constants: 64 × 63 / 2. Then 62 words of 24 letters and two constants: 62 × 62 × 23 + 62 × 61 / 2, and
    /// 62 × 2 × 25 + 1 since the empty word stands at 25 places of each.
    fn empty_words(&mut self) {
        self.accepted(|p| of_words(p, 1, &vec![Word::empty(); 64]), 2_016);
        let words = [vec![power(24); 62], vec![Word::empty(); 2]].concat();
        self.accepted(|p| of_words(p, 1, &words), 88_412 + 1_891 + 3_100 + 1);
    }

    /// Every power of `a` up to 24 letters, each inside all longer ones, in both orders.
    fn powers(&mut self) {
        // Of powers i and j there are min(i, j) - 1 overlaps, and for j < i the word j stands at i - j + 1 places.
        let pairs = || (1..=24).flat_map(|i: u64| (1..=24).map(move |j| (i, j)));
        let overlaps: u64 = pairs().map(|(i, j)| i.min(j) - 1).sum();
        let inclusions: u64 = pairs().filter(|(i, j)| j < i).map(|(i, j)| i - j + 1).sum();
        let rising: Vec<Word> = (1..=24).map(power).collect();
        let falling: Vec<Word> = rising.iter().rev().cloned().collect();
        for words in [&rising, &falling] {
            self.put(&of_words(7, 1, words), 0, 0, overlaps + inclusions);
        }
        // With the empty word, at i + 1 places of power i.
        let with_empty = [&falling[..], &[Word::empty()]].concat();
        self.accepted(|p| of_words(p, 1, &with_empty), overlaps + inclusions + 24 * 25 / 2 + 24);
    }

    /// A relation of 16 terms and 63 copies of it: 1,024 term lines. Its leading word overlaps nothing.
    fn copies(&mut self) {
        let copies = |p| {
            let draft = spreading(&mut Random::new(0, 3), p, 16);
            with_copies(&draft, &[1; 62]).expect("differences that are zero")
        };
        assert_eq!(copies(7).terms.len(), 1_024);
        self.accepted(copies, 63 * 62 / 2);
    }

    /// A relation that leads with `ab`, and its multiples with leading words of 24 letters: some `c`, `ab`, some
    /// `d`. Each has a lower multiple besides. Each two of the five overlap once: one has more `c` and the other more
    /// `d`, and `ab` stands once in each.
    fn multiples(&mut self) {
        let multiples = |p| {
            let draft = spreading(&mut Random::new(0, 4), p, 3);
            let mut basis = Known::basis(&draft);
            for place in [0, 1, 11, 21, 22] {
                let (left, right) = (Word(vec![b'c'; place]), Word(vec![b'd'; 22 - place]));
                let mut multiple = Known::zero();
                multiple.add(p, 1, &left, &basis[0], &right);
                multiple.add(p, 2, &Word::new("e"), &basis[0], &Word::new("ff"));
                basis.push(multiple);
            }
            let (polys, sums) = apart(basis);
            certified(p, 26, &draft.polys('G'), &polys, &sums).expect("multiples of one polynomial")
        };
        self.accepted(multiples, 5 * 4 / 2 + 5);
    }
}

#[cfg(test)]
mod tests {
    use super::*;
    use crate::services::list_overlaps;

    #[test]
    fn rows_hold() {
        inside_bounds().iter().for_each(Row::assert_holds);
    }

    #[test]
    fn sizes_are_exact() {
        let place = |words: &[Word]| list_overlaps(&of_words(7, 1, words).text(), 0).place;
        assert_eq!(place(&vec![power(24); 64]), 5_154_248);
        assert_eq!(place(&[vec![power(24); 62], vec![Word::empty(); 2]].concat()), 4_964_128);
        assert_eq!(place(&vec![Word::empty(); 64]), 32_631);
    }
}
