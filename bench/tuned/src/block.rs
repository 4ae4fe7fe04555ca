//! Blocks of letters of a fixed length: copied and compared without a loop over single letters.

use std::cmp::Ordering;

/// The most letters of a word in a package or a formula.
pub const SHORT: usize = 24;
/// The most letters of left × word × right.
pub const LONG: usize = 3 * SHORT;

pub type Short = [u8; SHORT];
pub type Long = [u8; LONG];

/// The 24 bytes from a place on, zeros behind the end.
#[inline(always)]
pub fn short_at(bytes: &[u8], at: usize) -> Short {
    match bytes.get(at..at + SHORT) {
        Some(block) => block.try_into().expect("24 bytes"),
        None => short_at_end(bytes, at),
    }
}

#[cold]
fn short_at_end(bytes: &[u8], at: usize) -> Short {
    let mut block = [0; SHORT];
    let rest = &bytes[at..];
    block[..rest.len()].copy_from_slice(rest);
    block
}

/// How two words of so many letters stand to each other: the first differing letter decides, and a is above b.
/// Both have zeros behind their letters up to the next multiple of 8.
#[inline(always)]
pub fn compare(u: &Long, v: &Long, len: usize) -> Ordering {
    let parts = u.chunks_exact(8).zip(v.chunks_exact(8)).take(len.div_ceil(8));
    for (a, b) in parts {
        let a = u64::from_be_bytes(a.try_into().expect("8 bytes"));
        let b = u64::from_be_bytes(b.try_into().expect("8 bytes"));
        if a != b {
            return b.cmp(&a);
        }
    }
    Ordering::Equal
}

/// Left × word × right for words between one left and one right.
pub struct Frame {
    letters: [u8; LONG + SHORT],
    left_len: usize,
    right: Short,
    right_len: usize,
}

impl Frame {
    #[inline(always)]
    pub fn new(left: Short, left_len: usize, right: Short, right_len: usize) -> Frame {
        let mut letters = [0; LONG + SHORT];
        letters[..SHORT].copy_from_slice(&left);
        Frame { letters, left_len, right, right_len }
    }

    /// Puts a word between left and right; the answer is how many letters they have together.
    #[inline(always)]
    pub fn put(&mut self, word: Short, len: usize) -> usize {
        let mid = self.left_len;
        let end = mid + len;
        let all = end + self.right_len;
        self.letters[mid..mid + SHORT].copy_from_slice(&word);
        self.letters[end..end + SHORT].copy_from_slice(&self.right);
        self.letters[all..all + 8].copy_from_slice(&[0; 8]);
        all
    }

    /// The letters that `put` made, with zeros behind them up to the next multiple of 8.
    #[inline(always)]
    pub fn word(&self) -> &Long {
        self.letters.first_chunk().expect("72 letters")
    }
}
