//! The working formula.

use crate::block::{compare, Frame, Long, LONG};
use crate::field::Field;
use crate::terms::Poly;
use std::cmp::Ordering;

/// How many places there are: 512 terms, and the 48 of a polynomial.
const PLACES: usize = 560;
/// The most terms that a step or a sum line may leave.
pub const MOST: usize = 512;

/// The first n entries of `order` are the places of the terms, greatest word first; the others are the free places.
pub struct Working {
    n: usize,
    coefs: [u32; PLACES],
    lens: [u8; PLACES],
    letters: [u8; PLACES * LONG],
    order: [u16; PLACES],
}

impl Working {
    #[inline(always)]
    pub fn new() -> Working {
        let mut order = [0; PLACES];
        for (place, entry) in order.iter_mut().enumerate() {
            *entry = place as u16;
        }
        Working { n: 0, coefs: [0; PLACES], lens: [0; PLACES], letters: [0; PLACES * LONG], order }
    }

    /// The letters, place by place. One flat array is zeroed faster than one of arrays.
    #[inline(always)]
    fn words(&self) -> &[Long] {
        self.letters.as_chunks().0
    }

    #[inline(always)]
    pub fn len(&self) -> usize {
        self.n
    }

    /// Coefficient and word of term k.
    #[inline(always)]
    pub fn term(&self, k: usize) -> (u32, &[u8]) {
        let place = usize::from(self.order[k]);
        (self.coefs[place], &self.words()[place][..usize::from(self.lens[place])])
    }

    /// All of the letters at term k's place, and the coefficient.
    #[inline(always)]
    pub fn place(&self, k: usize) -> (u32, &Long) {
        let place = usize::from(self.order[k]);
        (self.coefs[place], &self.words()[place])
    }

    /// Makes the formula x × left × poly × right, whatever it was: the words of a product fall as those of the polynomial.
    #[inline]
    pub fn start<F: Field>(&mut self, field: F, x: u32, frame: &mut Frame, poly: Poly) {
        self.n = 0;
        let factor = field.factor(x);
        for term in poly.terms() {
            let len = frame.put(term.word, term.len);
            let place = self.order[self.n];
            let coef = if x == 1 { term.coef } else { field.product(factor, term.coef) };
            self.store(place, coef, frame.word(), len);
            self.n += 1;
        }
    }

    /// Adds x × left × poly × right.
    #[inline]
    pub fn add<F: Field>(&mut self, field: F, x: u32, frame: &mut Frame, poly: Poly) {
        let x = field.factor(x);
        let mut low = 0;
        for term in poly.terms() {
            let len = frame.put(term.word, term.len);
            let coef = field.product(x, term.coef);
            low = match self.find(frame.word(), len, low) {
                Ok(k) => self.add_onto(field, coef, k),
                Err(k) => {
                    self.put_before(coef, frame.word(), len, k);
                    k + 1
                }
            };
        }
    }

    /// Takes term k away and adds x × left × poly × right without its leading term, which is what cancels term k.
    /// The next words are below term k, so they are looked for behind it, and the first new one moves into its place.
    #[inline]
    pub fn replace<F: Field>(&mut self, field: F, x: u32, frame: &mut Frame, poly: Poly, k: usize) {
        let x = field.factor(x);
        let freed = self.order[k];
        let mut low = k + 1;
        let mut is_open = true;
        for term in poly.terms().skip(1) {
            let len = frame.put(term.word, term.len);
            let coef = field.product(x, term.coef);
            low = match self.find(frame.word(), len, low) {
                Ok(j) => self.add_onto(field, coef, j),
                Err(j) if is_open => {
                    self.order.copy_within(k + 1..j, k);
                    self.order[j - 1] = freed;
                    self.store(freed, coef, frame.word(), len);
                    is_open = false;
                    j
                }
                Err(j) => {
                    self.put_before(coef, frame.word(), len, j);
                    j + 1
                }
            };
        }
        if is_open {
            self.drop(k);
        }
    }

    #[inline(always)]
    fn store(&mut self, place: u16, coef: u32, word: &Long, len: usize) {
        let place = usize::from(place);
        self.coefs[place] = coef;
        self.lens[place] = len as u8;
        self.letters.as_chunks_mut().0[place] = *word;
    }

    /// Where a word stands among the terms from `low` on, or where it belongs.
    #[inline(always)]
    fn find(&self, word: &Long, len: usize, low: usize) -> Result<usize, usize> {
        let (mut low, mut high) = (low, self.n);
        while low < high {
            let mid = low + (high - low) / 2;
            let place = usize::from(self.order[mid]);
            let other = usize::from(self.lens[place]);
            let order = if other == len { compare(word, &self.words()[place], len) } else { len.cmp(&other) };
            match order {
                Ordering::Less => low = mid + 1,
                Ordering::Equal => return Ok(mid),
                Ordering::Greater => high = mid,
            }
        }
        Err(low)
    }

    #[inline(always)]
    fn put_before(&mut self, coef: u32, word: &Long, len: usize, k: usize) {
        let place = self.order[self.n];
        self.order.copy_within(k..self.n, k + 1);
        self.order[k] = place;
        self.n += 1;
        self.store(place, coef, word, len);
    }

    /// Adds to the coefficient of term k and drops the term where that gives 0; the answer is where the next one stands.
    #[inline(always)]
    fn add_onto<F: Field>(&mut self, field: F, coef: u32, k: usize) -> usize {
        let place = usize::from(self.order[k]);
        let sum = field.sum(coef, self.coefs[place]);
        if sum == 0 {
            self.drop(k);
            return k;
        }
        self.coefs[place] = sum;
        k + 1
    }

    #[inline(always)]
    fn drop(&mut self, k: usize) {
        let place = self.order[k];
        self.order.copy_within(k + 1..self.n, k);
        self.n -= 1;
        self.order[self.n] = place;
    }
}
