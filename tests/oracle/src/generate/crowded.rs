//! Packages with up to 64 monomials as their basis, cut out of one word, so that many stand inside one another.

use crate::generate::draft::{Draft, Sum};
use crate::generate::random::Random;
use crate::package::LETTERS;
use crate::poly::Poly;
use crate::word::Word;

/// The most relations of a package.
const RELATIONS: usize = 32;

/// 40 to 64 parts of a word of 24 letters, with repeats, the empty one now and then. Every difference is zero, so a
/// valid package needs no O line.
pub fn crowded(random: &mut Random, p: u64) -> Draft {
    let size = random.between(1, 3) as usize;
    let whole = random.word(&b"abc"[..size], LETTERS as u64);
    let shortest = if random.one_in(4) { 0 } else { random.between(1, 24) };
    let count = random.between(40, 64);
    let mut words: Vec<Word> = (0..count).map(|_| part(random, &whole, shortest as usize)).collect();
    random.shuffle(&mut words);
    of_words(p, 3, &words)
}

/// A part of a word, of at least so many letters, often the whole.
fn part(random: &mut Random, whole: &Word, shortest: usize) -> Word {
    if random.one_in(4) {
        return whole.clone();
    }
    let length = random.between(shortest as u64, whole.len() as u64) as usize;
    let begin = random.between(0, (whole.len() - length) as u64) as usize;
    Word(whole.0[begin..begin + length].to_vec())
}

/// The package of these monomials: relations are the words that hold no other, and at most 32 of them; a word that
/// holds none of these is left out.
pub fn of_words(p: u64, letters: u64, words: &[Word]) -> Draft {
    let mut relations: Vec<Word> = Vec::new();
    for word in words {
        let holds_other = words.iter().any(|other| other != word && word.holds(other));
        if !holds_other && !relations.contains(word) && relations.len() < RELATIONS {
            relations.push(word.clone());
        }
    }
    let under = |word: &Word| (1..).zip(&relations).find(|(_, relation)| word.holds(relation));
    let basis: Vec<&Word> = words.iter().filter(|word| under(word).is_some()).collect();
    let monomial = |word: &Word| Poly::from([(word.clone(), 1)]);
    let polys = |words: &mut dyn Iterator<Item = &Word>| words.map(monomial).collect::<Vec<Poly>>();
    let mut draft = Draft::of(p, letters, &polys(&mut relations.iter()), &polys(&mut basis.iter().copied()));
    for (word, item) in basis.iter().zip(1..) {
        let (of, relation) = under(word).expect("a relation inside");
        let places = 0..=word.len() - relation.len();
        let begin = places.into_iter().find(|begin| word.0[*begin..].starts_with(&relation.0));
        let begin = begin.expect("a place of it");
        let (left, right) = (&word.0[..begin], &word.0[begin + relation.len()..]);
        draft.sums.push(Sum::new('B', item, 1, &Word(left.to_vec()), of, &Word(right.to_vec())));
    }
    for (word, item) in relations.iter().zip(1..) {
        let of = (1..).zip(&basis).find(|(_, other)| **other == word).expect("in the basis").0;
        draft.sums.push(Sum::new('G', item, 1, &Word::empty(), of, &Word::empty()));
    }
    draft
}

#[cfg(test)]
mod tests {
    use super::*;
    use crate::services::check;

    #[test]
    fn crowded_packages_are_accepted() {
        let (mut most, mut entries) = (0, 0);
        for round in 0..30 {
            let draft = crowded(&mut Random::new(22, round), 7);
            let answer = check(&draft.text());
            assert_eq!(answer.number, 0, "{}", String::from_utf8_lossy(&draft.text()));
            most = most.max(draft.basis);
            entries = entries.max(answer.count);
        }
        assert!(most >= 63 && entries >= 40_000, "{most} polynomials, {entries} entries");
    }
}
