//! The list of a basis: all overlaps, then all inclusions; their words, their differences, and the list as text.

use crate::coefficients::negative;
use crate::inclusions::inclusions;
use crate::overlaps::overlaps;
use crate::poly::{add_multiple, divided, lead_word, Poly};
use crate::word::Word;

const NAMES: &str = "item first second shared at word\n";

/// An entry of the list: two leading words that overlap, or one inside the other. Polynomials are numbered from 1.
/// First leading word × rest is left × second leading word × right.
#[derive(Clone, Debug, PartialEq, Eq)]
pub struct Entry {
    pub first: u64,
    pub second: u64,
    /// How many letters the two leading words have in common there.
    pub shared: u64,
    pub rest: Word,
    pub left: Word,
    pub right: Word,
}

/// The whole list of a basis, which has no zero polynomial.
pub fn list(basis: &[Poly]) -> Vec<Entry> {
    [overlaps(basis), inclusions(basis)].concat()
}

impl Entry {
    /// Where the second leading word begins, from 0.
    pub fn at(&self) -> u64 {
        self.left.len() as u64
    }

    /// The first polynomial and the second.
    pub fn polys<'a>(&self, basis: &'a [Poly]) -> [&'a Poly; 2] {
        [self.first, self.second].map(|number| &basis[number as usize - 1])
    }

    /// The overlap word: of an overlap the first leading word followed by the unshared rest of the second, of an
    /// inclusion the first leading word, behind which no rest stands.
    pub fn word(&self, basis: &[Poly]) -> Word {
        let [f, _] = self.polys(basis);
        lead_word(f).times(&self.rest)
    }

    /// First polynomial × rest, minus left × second polynomial × right, for a basis that leads with 1 everywhere.
    fn difference(&self, p: u64, basis: &[Poly]) -> Poly {
        let [f, g] = self.polys(basis);
        let mut difference = Poly::new();
        add_multiple(p, &mut difference, 1, &Word::empty(), f, &self.rest);
        add_multiple(p, &mut difference, negative(p, 1), &self.left, g, &self.right);
        difference
    }
}

/// The differences of these entries, in their order: each polynomial is divided by its own leading coefficient.
pub fn differences<'a>(p: u64, basis: &[Poly], list: &'a [Entry]) -> impl Iterator<Item = Poly> + 'a {
    let divided: Vec<Poly> = basis.iter().map(|f| divided(p, f)).collect();
    list.iter().map(move |entry| entry.difference(p, &divided))
}

/// The list as bytes: the names line, then a line for each entry, numbered from 1.
pub fn list_text(list: &[Entry], basis: &[Poly]) -> Vec<u8> {
    let mut text = NAMES.as_bytes().to_vec();
    for (entry, item) in list.iter().zip(1..) {
        let Entry { first, second, shared, .. } = entry;
        let (item, at): (u64, u64) = (item, entry.at());
        text.extend(format!("{item} {first} {second} {shared} {at} ").bytes());
        text.extend(entry.word(basis).text());
        text.push(10);
    }
    text
}

#[cfg(test)]
mod tests {
    use super::*;
    use crate::generate::small_words::every_basis;

    fn poly(terms: &[(u64, &str)]) -> Poly {
        terms.iter().map(|(coef, word)| (Word::new(word), *coef)).collect()
    }

    /// The differences of E are `ab` + 6 `ba` and `aba` + 6 `bb`, whatever its polynomials are multiplied by.
    #[test]
    fn differences_of_e() {
        let wanted = [poly(&[(1, "ab"), (6, "ba")]), poly(&[(1, "aba"), (6, "bb")])];
        for c in 1..7 {
            for d in 1..7 {
                let first = poly(&[(c, "aa"), (6 * c % 7, "b")]);
                let basis = [first, poly(&[(d, "ab"), (6 * d % 7, "ba")])];
                let differences: Vec<Poly> = differences(7, &basis, &list(&basis)).collect();
                assert_eq!(differences, wanted, "{c} and {d}");
            }
        }
    }

    /// `baab` - `b` with `aa` - `a` inside at 1: minus `b` and plus `bab`, whatever both are multiplied by.
    #[test]
    fn difference_of_an_inclusion() {
        for c in 1..7 {
            for d in 1..7 {
                let outer = poly(&[(c, "baab"), (6 * c % 7, "b")]);
                let basis = [poly(&[(d, "aa"), (6 * d % 7, "a")]), outer];
                let list = inclusions(&basis);
                assert_eq!((list[0].first, list[0].second, list[0].at()), (2, 1, 1));
                assert_eq!(list[0].word(&basis), Word::new("baab"));
                let wanted = [poly(&[(1, "bab"), (6, "b")])];
                let differences: Vec<Poly> = differences(7, &basis, &list).collect();
                assert_eq!(differences, wanted, "{c} and {d}");
            }
        }
    }

    /// First leading word × rest and left × second leading word × right are one word. An inclusion has no rest. An
    /// overlap has a rest and nothing on the right, and what it shares ends the first leading word.
    #[test]
    fn both_sides_are_the_overlap_word() {
        for basis in every_basis(2, 3).chain(every_basis(3, 2)) {
            let list = list(&basis);
            for entry in &list {
                let [f, g] = entry.polys(&basis);
                let (u, v) = (lead_word(f), lead_word(g));
                assert_eq!(entry.word(&basis), entry.left.times(v).times(&entry.right));
                let inside = entry.shared == v.len() as u64;
                assert_eq!(entry.rest.is_empty(), inside);
                assert!(inside || entry.right.is_empty() && entry.shared >= 1);
                assert!(inside || entry.at() + entry.shared == u.len() as u64);
            }
            // Both sides of a difference of monomials are that word.
            assert!(differences(7, &basis, &list).all(|difference| difference.is_empty()));
        }
    }
}
