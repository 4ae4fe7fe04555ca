//! Words that are packed whose numbers are fixed by the requirements.

use crate::packing::{Packed, NUMBERS};

/// The numbers are added up by hand from the codes of the letters. The empty word is written `-`.
pub fn packed_rows() -> Vec<(Vec<u8>, Packed)> {
    let mut rows = Rows(Vec::new());
    rows.one_number();
    rows.more_numbers();
    rows.no_word();
    rows.0
}

/// Twelve times the code 1: 2^55 + 2^50 + .. + 2^0.
const ONES: u64 = 0x0084_2108_4210_8421;

struct Rows(Vec<(Vec<u8>, Packed)>);

impl Rows {
    fn packed(&mut self, word: &str, numbers: &[u64]) {
        let mut blocks = [0; NUMBERS];
        blocks[..numbers.len()].copy_from_slice(numbers);
        self.0.push((word.replace('-', "").into_bytes(), Packed { fits: true, blocks }));
    }

    fn no(&mut self, bytes: &[u8]) {
        self.0.push((bytes.to_vec(), Packed { fits: false, blocks: [0; NUMBERS] }));
    }

    fn one_number(&mut self) {
        // The example that the reading of P6 gives: 26 × 2^55 + 25 × 2^50.
        self.packed("ab", &[964_896_220_164_128_768]);
        self.packed("-", &[]);
        self.packed("a", &[26 << 55]);
        self.packed("z", &[1 << 55]);
        self.packed("za", &[(1 << 55) + (26 << 50)]);
        self.packed("zzzzzzzzzzza", &[ONES + 25]);
        self.packed("zzzzzzzzzzzz", &[ONES]);
        self.packed("aaaaaaaaaaaa", &[26 * ONES]);
    }

    fn more_numbers(&mut self) {
        self.packed("zzzzzzzzzzzza", &[ONES, 26 << 55]);
        let y = |count| "y".repeat(count);
        self.packed(&y(24), &[2 * ONES; 2]);
        self.packed(&(y(24) + "z"), &[2 * ONES, 2 * ONES, 1 << 55]);
        self.packed(&(y(60) + "z"), &[2 * ONES, 2 * ONES, 2 * ONES, 2 * ONES, 2 * ONES, 1 << 55]);
        self.packed(&y(71), &[2 * ONES, 2 * ONES, 2 * ONES, 2 * ONES, 2 * ONES, 2 * ONES - 2]);
        self.packed(&y(72), &[2 * ONES; 6]);
    }

    fn no_word(&mut self) {
        self.no(&[b'a'; 73]);
        self.no(&[b'a'; 1000]);
        for bytes in [&b"A"[..], b"-", b"`", b"{", b"a b", b"ab\n", b"\0", b"a\xe1", b"aaaaaaaaaaaa1"] {
            self.no(bytes);
        }
    }
}

#[cfg(test)]
mod tests {
    use super::packed_rows;
    use crate::packing::pack;

    #[test]
    fn rows_hold() {
        for (word, answer) in packed_rows() {
            assert_eq!(pack(&word), answer, "{}", word.escape_ascii());
        }
    }
}
