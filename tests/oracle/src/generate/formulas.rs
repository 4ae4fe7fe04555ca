//! Random formulas for a package: any, members of the ideal, and ones at the bounds.

use crate::formula::formula_text;
use crate::generate::draft::Draft;
use crate::generate::random::Random;
use crate::package::{LETTERS, TERMS};
use crate::poly::{add_multiple, add_term, lead, Poly};
use crate::word::Word;

/// What a generator needs to know of a package.
pub struct Ground {
    p: u64,
    /// All letters in use.
    letters: Vec<u8>,
    /// The letters that stand in the package's terms, or all when none does.
    alphabet: Vec<u8>,
    relations: Vec<Poly>,
    leads: Vec<Word>,
}

impl Ground {
    pub fn of(draft: &Draft) -> Ground {
        let letters: Vec<u8> = (b'a'..b'a' + draft.letters as u8).collect();
        let stands = |letter: &u8| draft.terms.iter().any(|term| term.word.0.contains(letter));
        let mut alphabet: Vec<u8> = letters.iter().copied().filter(stands).collect();
        if alphabet.is_empty() {
            alphabet = letters.clone();
        }
        let basis = draft.polys('B');
        let leads = basis.iter().filter_map(lead).map(|(word, _)| word.clone()).collect();
        Ground { p: draft.p, letters, alphabet, relations: draft.polys('G'), leads }
    }

    /// A word of up to `longest` letters that often has leading words inside.
    fn word(&self, random: &mut Random, longest: usize) -> Word {
        let mut word = Word::empty();
        let length = random.below(longest as u64 + 1) as usize;
        while word.len() < length {
            let part = match random.below(4) {
                0 => Word(vec![*random.pick(&self.letters)]),
                1 if !self.leads.is_empty() => random.pick(&self.leads).clone(),
                _ => Word(vec![*random.pick(&self.alphabet)]),
            };
            word = word.times(&part);
        }
        word.0.truncate(length);
        word
    }

    fn random_terms(&self, random: &mut Random, terms: u64, longest: usize) -> Poly {
        let mut f = Poly::new();
        for _ in 0..terms {
            add_term(self.p, &mut f, random.coef(self.p), self.word(random, longest));
        }
        f
    }

    /// A sum of multiples of relations that fits the bounds of a formula.
    fn member(&self, random: &mut Random) -> Poly {
        let mut f = Poly::new();
        for _ in 0..random.between(1, 4) {
            if self.relations.is_empty() {
                break;
            }
            let relation = random.pick(&self.relations);
            let (left, right) = (self.word(random, 5), self.word(random, 5));
            let mut next = f.clone();
            add_multiple(self.p, &mut next, random.coef(self.p), &left, relation, &right);
            if next.len() <= TERMS && next.keys().all(|word| word.len() <= LETTERS) {
                f = next;
            }
        }
        f
    }

    /// A member with one term changed.
    fn near_member(&self, random: &mut Random) -> Poly {
        let mut f = self.member(random);
        let word = match f.keys().nth(random.below(f.len() as u64 + 1) as usize) {
            Some(word) => word.clone(),
            None => self.word(random, 4),
        };
        if f.len() < TERMS || f.contains_key(&word) {
            add_term(self.p, &mut f, random.coef(self.p), word);
        }
        f
    }

    /// As many words as asked for, or as there are: 47 to 49 of up to 24 letters.
    fn full(&self, random: &mut Random, longest: usize) -> Poly {
        let terms = random.between(47, 49) as usize;
        let mut f = Poly::new();
        for _ in 0..4 * terms {
            if f.len() < terms {
                f.insert(self.word(random, longest), random.coef(self.p));
            }
        }
        f
    }

    /// A formula with a word of 24 or 25 letters.
    fn long(&self, random: &mut Random) -> Poly {
        let mut f = self.random_terms(random, 2, 24);
        let mut word = self.word(random, LETTERS);
        let length = random.between(24, 25) as usize;
        while word.len() < length {
            word.0.push(*random.pick(&self.alphabet));
        }
        f.insert(word, random.coef(self.p));
        f
    }

    /// The text of a formula that reads in most cases.
    pub fn formula(&self, random: &mut Random) -> Vec<u8> {
        let f = match random.below(12) {
            0..=3 => {
                let (terms, longest) = (random.below(5), random.between(1, 12) as usize);
                self.random_terms(random, terms, longest)
            }
            4 => {
                let terms = random.between(5, 16);
                self.random_terms(random, terms, 24)
            }
            5..=7 => self.member(random),
            8 => self.near_member(random),
            9 => self.full(random, 8),
            10 => self.full(random, 24),
            _ => self.long(random),
        };
        formula_text(&f)
    }
}
