//! All short words in two letters, and all bases of a few monomials that lead with them.

use crate::poly::Poly;
use crate::word::Word;

/// The empty word and all words of up to `longest` letters `a` and `b`, shorter ones first.
pub fn every_word(longest: usize) -> Vec<Word> {
    let mut words = vec![Word::empty()];
    let mut from = 0;
    for _ in 0..longest {
        let to = words.len();
        for index in from..to {
            for letter in [b'a', b'b'] {
                words.push(words[index].times(&Word(vec![letter])));
            }
        }
        from = to;
    }
    words
}

/// Every basis of `count` monomials of up to `longest` letters, in every order and with repeats.
pub fn every_basis(count: u32, longest: usize) -> impl Iterator<Item = Vec<Poly>> {
    let words = every_word(longest);
    let bases = words.len().pow(count);
    (0..bases).map(move |mut number| {
        let monomial = |_| {
            let word = words[number % words.len()].clone();
            number /= words.len();
            Poly::from([(word, 1)])
        };
        (0..count).map(monomial).collect()
    })
}

#[cfg(test)]
mod tests {
    use super::*;
    use std::collections::BTreeSet;

    #[test]
    fn all_are_there() {
        let words: BTreeSet<Word> = every_word(4).into_iter().collect();
        assert_eq!(words.len(), 1 + 2 + 4 + 8 + 16);
        let bases: BTreeSet<Vec<Poly>> = every_basis(3, 2).collect();
        assert_eq!(bases.len(), 7 * 7 * 7);
    }
}
