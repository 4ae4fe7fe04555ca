//! The numbers that a word is packed into: document 02, P6. No service shows them.

/// The most letters that are packed, and the numbers that they take.
pub const LONGEST: usize = 72;
pub const NUMBERS: usize = 6;

/// Whether bytes are a word of at most 72 letters `a` to `z`, and the numbers that it is packed into; zeros for
/// bytes that are none.
#[derive(Clone, Copy, Debug, PartialEq, Eq)]
pub struct Packed {
    pub fits: bool,
    pub blocks: [u64; NUMBERS],
}

/// Twelve letters of five bits in one number, the first in bits 55 to 59, and zeros behind the last.
pub fn pack(word: &[u8]) -> Packed {
    let mut blocks = [0; NUMBERS];
    if word.len() > LONGEST || !word.iter().all(|letter| (b'a'..=b'z').contains(letter)) {
        return Packed { fits: false, blocks };
    }
    for (place, letter) in word.iter().enumerate() {
        blocks[place / 12] |= code(*letter) << (55 - 5 * (place % 12));
    }
    Packed { fits: true, blocks }
}

/// The greater letter has the greater code: `a`, the greatest, has 26, and `z` has 1.
fn code(letter: u8) -> u64 {
    u64::from(b'z' - letter) + 1
}

#[cfg(test)]
mod tests {
    use super::{pack, Packed, NUMBERS};
    use crate::generate::packed_words::every_small;
    use crate::generate::random::Random;

    /// The letters by the digits: each number is four zeros and five binary digits for each of twelve letters.
    #[test]
    fn letters_by_digits() {
        for word in every_small() {
            let Packed { fits, blocks } = pack(&word);
            let digits: String = blocks.map(|block| format!("{block:064b}")[4..].to_string()).concat();
            assert!(blocks.iter().all(|block| block >> 60 == 0));
            let letter = |digits: &[u8]| u8::from_str_radix(std::str::from_utf8(digits).unwrap(), 2).unwrap();
            let letters: Vec<u8> = digits.as_bytes().chunks(5).map(letter).collect();
            let spelt: Vec<u8> =
                letters.iter().take_while(|code| **code != 0).map(|code| 123 - code).collect();
            assert!(letters[spelt.len()..].iter().all(|code| *code == 0), "{}", word.escape_ascii());
            assert_eq!(spelt, if fits { word } else { Vec::new() });
        }
    }

    /// Of two words of one length the greater has the greater numbers.
    #[test]
    fn numbers_by_order() {
        let random = &mut Random::new(1, 1);
        let alphabet: Vec<u8> = (b'a'..=b'z').collect();
        for _ in 0..20_000 {
            let length = random.between(0, 12 * NUMBERS as u64);
            let one = random.word(&alphabet, length);
            let mut two = one.clone();
            for _ in 0..random.below(3).min(length) {
                let place = random.index(&two.0);
                two.0[place] = *random.pick(&alphabet);
            }
            assert_eq!(pack(&one.0).blocks.cmp(&pack(&two.0).blocks), one.cmp(&two));
        }
    }
}
