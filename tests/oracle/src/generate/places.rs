//! Words at places of other words: all small ones, and random ones that agree far, in words of up to 72 letters.

use crate::generate::random::Random;
use std::fmt;

/// What `standing::stands_at` takes.
#[derive(Clone, Debug)]
pub struct AtPlace {
    pub word: Vec<u8>,
    pub other: Vec<u8>,
    pub place: usize,
}

impl fmt::Display for AtPlace {
    fn fmt(&self, f: &mut fmt::Formatter) -> fmt::Result {
        let (word, other) = (self.word.escape_ascii(), self.other.escape_ascii());
        let (length, all) = (self.word.len(), self.other.len());
        write!(f, "the word '{word}' of {length} letters in '{other}' of {all} letters at {}", self.place)
    }
}

/// The longest product of a sum line: 24 letters on each side of a word of 24.
const LONGEST: u64 = 72;

/// Every word of up to 4 letters in every word of up to 6, over two letters, at each place up to 2 behind the
/// end and at the greatest place.
pub fn every_small() -> impl Iterator<Item = AtPlace> {
    let pairs =
        words(4).into_iter().flat_map(|word| words(6).into_iter().map(move |other| (word.clone(), other)));
    pairs.flat_map(|(word, other)| {
        let places = (0..=other.len() + 2).chain([usize::MAX]);
        places.map(move |place| AtPlace { word: word.clone(), other: other.clone(), place })
    })
}

/// Every word over two letters of up to so many.
fn words(longest: usize) -> Vec<Vec<u8>> {
    let mut words = vec![Vec::new()];
    let mut first = 0;
    for _ in 0..longest {
        let behind = words.len();
        for shorter in first..behind {
            words.extend(b"ab".map(|letter| [&words[shorter][..], &[letter]].concat()));
        }
        first = behind;
    }
    words
}

/// A part of a random word, at the place that it was cut from, or changed there, or at a place where it would
/// run past the end.
pub fn drawn(random: &mut Random) -> AtPlace {
    let letters = letters(random);
    let other = other(random, &letters);
    let place = if random.one_in(3) { 0 } else { random.below(other.len() as u64 + 1) as usize };
    let length = match random.below(8) {
        0 => 0,
        1 => 1.min(other.len() - place),
        2..=4 => other.len() - place,
        _ => random.below((other.len() - place) as u64 + 1) as usize,
    };
    let mut at = AtPlace { word: other[place..place + length].to_vec(), other, place };
    let one = random.below(length.max(1) as u64) as usize;
    match random.below(8) {
        0 | 1 => {}
        2 => past_the_end(random, &letters, &mut at),
        _ if length == 0 => {}
        3 => change(random, &letters, &mut at.word[0]),
        4 => change(random, &letters, &mut at.word[length - 1]),
        5 => change(random, &letters, &mut at.word[one]),
        // The letters before one are drawn again, or those from one on: the end agrees, or the front.
        6 => redraw(random, &letters, &mut at.word[..one]),
        _ => redraw(random, &letters, &mut at.word[one..]),
    }
    at
}

/// Two letters, all letters, or two bytes that differ in one bit.
fn letters(random: &mut Random) -> Vec<u8> {
    match random.below(4) {
        0 => (b'a'..=b'z').collect(),
        1 => {
            let byte = random.number() as u8;
            vec![byte, byte ^ (1 << random.below(8))]
        }
        _ => b"ab".to_vec(),
    }
}

/// A word of up to 72 letters, in one of three the same few letters again and again.
fn other(random: &mut Random, letters: &[u8]) -> Vec<u8> {
    let length = if random.one_in(4) { LONGEST } else { random.between(0, LONGEST) };
    if random.one_in(3) {
        let period = random.word_between(letters, 1, 5).0;
        return period.into_iter().cycle().take(length as usize).collect();
    }
    random.word(letters, length).0
}

/// Puts another letter in place of this one.
fn change(random: &mut Random, letters: &[u8], letter: &mut u8) {
    let others: Vec<u8> = letters.iter().copied().filter(|other| other != letter).collect();
    *letter = *random.pick(&others);
}

fn redraw(random: &mut Random, letters: &[u8], part: &mut [u8]) {
    part.iter_mut().for_each(|letter| *letter = *random.pick(letters));
}

/// Moves the word to a place where it runs past the end, or makes it longer than the letters left. Its end is one
/// letter behind the other word's, or more, or so far that it is not below 2^64. The empty word may stand at the
/// end.
fn past_the_end(random: &mut Random, letters: &[u8], at: &mut AtPlace) {
    let (length, all) = (at.word.len(), at.other.len());
    match random.below(4) {
        0 => at.place = all + 1 - length,
        1 => at.place = all + random.below(3) as usize,
        2 => at.place = usize::MAX - random.below(length as u64 + 2) as usize,
        _ => {
            let left = all - at.place - length;
            at.word.extend(random.word_between(letters, left as u64 + 1, left as u64 + 8).0);
        }
    }
}

#[cfg(test)]
mod tests {
    use super::*;

    #[test]
    fn small_ones_are_all_there() {
        // 2^5 - 1 words of up to 4 letters; 2^n words of n letters, each with n + 4 places, for n from 0 to 6.
        assert_eq!(words(4).len(), 31);
        assert_eq!(every_small().count(), 31 * (4 + 2 * 5 + 4 * 6 + 8 * 7 + 16 * 8 + 32 * 9 + 64 * 10));
        let mut different: Vec<_> = every_small().map(|at| (at.word, at.other, at.place)).collect();
        different.sort_unstable();
        different.dedup();
        assert_eq!(different.len(), every_small().count());
    }
}
