//! Random numbers and words from a fixed seed: every run measures the same inputs.

use oracle::generate::random::Random as Numbers;

pub struct Random(Numbers);

impl Random {
    pub fn new(seed: u64) -> Random {
        Random(Numbers::from_state(seed))
    }

    /// A number from 0 to n - 1.
    pub fn below(&mut self, n: usize) -> usize {
        self.0.below(n as u64) as usize
    }

    /// A word of so many letters, from `first` to `last`.
    pub fn word(&mut self, first: u8, last: u8, len: usize) -> String {
        (0..len).map(|_| char::from(first + self.below(usize::from(last - first) + 1) as u8)).collect()
    }
}
