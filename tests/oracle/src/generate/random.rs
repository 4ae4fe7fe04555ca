//! A small generator of pseudo-random numbers (splitmix64), so that a seed gives the same inputs anywhere.

use crate::word::Word;

pub struct Random {
    state: u64,
}

impl Random {
    /// The numbers of one round of one seed. Rounds are independent, so each can be repeated alone.
    pub fn new(seed: u64, round: u64) -> Random {
        let first = Random::from_state(seed).number();
        Random { state: first ^ round.wrapping_mul(0xd134_2543_de82_ef95) }
    }

    /// The numbers from this state on.
    pub fn from_state(state: u64) -> Random {
        Random { state }
    }

    pub fn number(&mut self) -> u64 {
        self.state = self.state.wrapping_add(0x9e37_79b9_7f4a_7c15);
        let mut z = self.state;
        z = (z ^ (z >> 30)).wrapping_mul(0xbf58_476d_1ce4_e5b9);
        z = (z ^ (z >> 27)).wrapping_mul(0x94d0_49bb_1331_11eb);
        z ^ (z >> 31)
    }

    /// So many bytes.
    pub fn bytes(&mut self, count: usize) -> Vec<u8> {
        let mut bytes: Vec<u8> = (0..count.div_ceil(8)).flat_map(|_| self.number().to_le_bytes()).collect();
        bytes.truncate(count);
        bytes
    }

    /// A number from 0 to n - 1.
    pub fn below(&mut self, n: u64) -> u64 {
        self.number() % n
    }

    /// A number from low to high, both included.
    pub fn between(&mut self, low: u64, high: u64) -> u64 {
        low + self.below(high - low + 1)
    }

    /// Yes in one of n cases.
    pub fn one_in(&mut self, n: u64) -> bool {
        self.below(n) == 0
    }

    /// An index of a list that is not empty.
    pub fn index<T>(&mut self, list: &[T]) -> usize {
        self.below(list.len() as u64) as usize
    }

    /// An entry of a list that is not empty.
    pub fn pick<'a, T>(&mut self, list: &'a [T]) -> &'a T {
        &list[self.index(list)]
    }

    pub fn shuffle<T>(&mut self, list: &mut [T]) {
        for last in (1..list.len()).rev() {
            list.swap(last, self.below(last as u64 + 1) as usize);
        }
    }

    /// A coefficient 1 to p - 1.
    pub fn coef(&mut self, p: u64) -> u64 {
        self.between(1, p - 1)
    }

    /// A word of `length` letters out of `alphabet`.
    pub fn word(&mut self, alphabet: &[u8], length: u64) -> Word {
        Word((0..length).map(|_| *self.pick(alphabet)).collect())
    }

    /// A word of `low` to `high` letters out of `alphabet`.
    pub fn word_between(&mut self, alphabet: &[u8], low: u64, high: u64) -> Word {
        let length = self.between(low, high);
        self.word(alphabet, length)
    }
}
