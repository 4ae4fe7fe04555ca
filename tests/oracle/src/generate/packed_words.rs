//! Words to be packed: all of up to two letters, every byte at every place, every length, and random ones.

use crate::generate::random::Random;
use crate::packing::LONGEST;

/// Every word of up to two letters; every byte as the first of one and the last of 13; a byte that is no letter at
/// each place of the longest word; and each length up to 8 letters over the longest.
pub fn every_small() -> impl Iterator<Item = Vec<u8>> {
    let letters = || b'a'..=b'z';
    let one = letters().map(|letter| vec![letter]);
    let two = letters().flat_map(move |first| letters().map(move |second| vec![first, second]));
    let bytes = (0..=255u8).flat_map(|byte| [vec![byte], [&[b'm'; 12][..], &[byte]].concat()]);
    let spoilt = (0..LONGEST).map(|place| {
        let mut word = alphabet(LONGEST);
        word[place] = b'A';
        word
    });
    let lengths = (0..=LONGEST + 8).map(alphabet);
    one.chain(two).chain(bytes).chain(spoilt).chain(lengths)
}

/// The letters from `a` on, again and again.
fn alphabet(length: usize) -> Vec<u8> {
    (b'a'..=b'z').cycle().take(length).collect()
}

/// A word of up to 72 letters, in one of eight a longer one, and in one of eight with any byte in place of a letter.
pub fn drawn(random: &mut Random) -> Vec<u8> {
    let letters: Vec<u8> = if random.one_in(4) { b"ab".to_vec() } else { alphabet(26) };
    let longest = LONGEST as u64;
    let length = match random.below(8) {
        0 => random.between(longest + 1, longest + 40),
        1 => longest,
        2 => random.between(0, 12),
        _ => random.between(0, longest),
    };
    let mut word = random.word(&letters, length).0;
    if length > 0 && random.one_in(8) {
        let place = random.index(&word);
        word[place] = random.number() as u8;
    }
    word
}

#[cfg(test)]
mod tests {
    use super::*;

    #[test]
    fn small_ones_are_all_there() {
        assert_eq!(every_small().count(), 26 + 26 * 26 + 2 * 256 + 72 + 81);
    }
}
