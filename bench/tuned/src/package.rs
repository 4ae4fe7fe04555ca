//! Reading a package in one pass: refusals 1 to 7.

use crate::block::SHORT;
use crate::reader::{Field, Reader};
use crate::sums::{SumLine, LEAST_LINE};
use crate::terms::{Poly, Terms, TERMS, TERM_LINES};
use crate::{refuse, Refusal};

const BYTES: usize = 65_536;
const RELATIONS: usize = 32;
const BASIS: usize = 64;

/// A package that reads. Relations have the numbers 0 to gens - 1 among all polynomials, the basis those behind.
pub struct Package<'a> {
    pub bytes: &'a [u8],
    /// A prime, or 256 for GF(256).
    pub p: u32,
    pub letters: u32,
    pub gens: usize,
    pub basis: usize,
    terms: Terms<TERM_LINES>,
    /// How many terms stand before those of each polynomial, and of all.
    firsts: [u16; RELATIONS + BASIS + 1],
    /// The sum lines, the first of which has the number `first_line`.
    pub sums: Vec<SumLine>,
    pub first_line: usize,
}

impl<'a> Package<'a> {
    #[inline(always)]
    pub fn new(bytes: &'a [u8]) -> Package<'a> {
        let firsts = [0; RELATIONS + BASIS + 1];
        let (terms, sums) = (Terms::new(), Vec::new());
        Package { bytes, p: 0, letters: 0, gens: 0, basis: 0, terms, firsts, sums, first_line: 0 }
    }

    #[inline(always)]
    fn poly(&self, number: usize) -> Poly<'_> {
        self.terms.poly(self.bytes, usize::from(self.firsts[number]), usize::from(self.firsts[number + 1]))
    }

    /// Relation number `item`, from 0.
    #[inline(always)]
    pub fn relation(&self, item: usize) -> Poly<'_> {
        self.poly(item)
    }

    /// Basis polynomial number `item`, from 0.
    #[inline(always)]
    pub fn basis_poly(&self, item: usize) -> Poly<'_> {
        self.poly(self.gens + item)
    }

    pub fn read(&mut self) -> Result<(), Refusal> {
        if self.bytes.len() > BYTES {
            return refuse(1, 0);
        }
        let mut reader = Reader::new(self.bytes);
        if reader.line(b"p letters gens basis\n").is_none() {
            return refuse(2, 1);
        }
        self.read_head(&mut reader)?;
        if reader.line(b"kind item coef word\n").is_none() {
            return refuse(2, 3);
        }
        self.read_terms(&mut reader)?;
        self.read_sums(&mut reader)
    }

    fn read_head(&mut self, reader: &mut Reader) -> Result<(), Refusal> {
        let mut shape =
            || Some([reader.number(b' ')?, reader.number(b' ')?, reader.number(b' ')?, reader.number(10)?]);
        let Some([p, letters, gens, basis]) = shape() else {
            return refuse(2, 2);
        };
        if p != 256 && (p > 65_521 || !is_prime(p)) {
            return refuse(3, 2);
        }
        (self.p, self.letters, self.gens, self.basis) = (p, letters, gens as usize, basis as usize);
        if !(1..=26).contains(&letters) || self.gens > RELATIONS || self.basis > BASIS {
            return refuse(4, 2);
        }
        Ok(())
    }

    fn read_terms(&mut self, reader: &mut Reader) -> Result<(), Refusal> {
        let mut line = 4;
        // The polynomial of the line above, counted from 1, and its first term's number.
        let (mut above, mut first) = (0, 0);
        let mut word = Field { start: 0, len: 0, top: 0 };
        while reader.line(b"kind item coef left of right\n").is_none() {
            let Some((kind, item, coef, next)) = term_shape(reader) else {
                return refuse(2, line);
            };
            let (items, before) = if kind == b'G' { (self.gens, 0) } else { (self.basis, self.gens) };
            if item.wrapping_sub(1) >= items || coef.wrapping_sub(1) >= self.p - 1 || !self.word_fits(next) {
                return refuse(5, line);
            }
            let slot = before + item;
            let count = self.terms.count();
            if slot <= above {
                if slot < above || !self.falls(word, next) {
                    return refuse(6, line);
                }
            } else {
                self.firsts[above..slot].fill(count as u16);
                (above, first) = (slot, count);
            }
            if count - first == TERMS || count == TERM_LINES {
                return refuse(7, line);
            }
            self.terms.push(coef, next.start, next.len);
            word = next;
            line += 1;
        }
        self.firsts[above..].fill(self.terms.count() as u16);
        self.first_line = line + 1;
        Ok(())
    }

    fn read_sums(&mut self, reader: &mut Reader) -> Result<(), Refusal> {
        let rest = self.bytes.len() - reader.at;
        let mut sums = Vec::with_capacity(rest / LEAST_LINE);
        let mut above = (0, 0);
        while !reader.is_done() {
            let line = self.first_line + sums.len();
            let Some((sum, left, right)) = SumLine::read(reader) else {
                return refuse(2, line);
            };
            if !sum.fits(self) || !self.word_fits(left) || !self.word_fits(right) {
                return refuse(5, line);
            }
            if (sum.kind, sum.item) < above {
                return refuse(6, line);
            }
            above = (sum.kind, sum.item);
            sums.push(sum.with_words(left, right));
        }
        self.sums = sums;
        Ok(())
    }

    /// Whether a word has at most 24 letters, all of them in use.
    #[inline(always)]
    fn word_fits(&self, word: Field) -> bool {
        word.len <= SHORT && u32::from(word.top) < 97 + self.letters
    }

    /// Whether the second word is below the first.
    #[inline(always)]
    fn falls(&self, above: Field, word: Field) -> bool {
        if word.len != above.len {
            return word.len < above.len;
        }
        let letters = |field: Field| &self.bytes[field.start..field.start + field.len];
        letters(word) > letters(above)
    }
}

/// A term line: kind, item, coef and word.
#[inline(always)]
fn term_shape(reader: &mut Reader) -> Option<(u8, usize, u32, Field)> {
    let kind = reader.byte().filter(|kind| matches!(kind, b'G' | b'B'))?;
    reader.byte().filter(|byte| *byte == b' ')?;
    Some((kind, reader.number(b' ')? as usize, reader.number(b' ')?, reader.word(10)?))
}

/// Whether p, below 65,536, is a prime.
fn is_prime(p: u32) -> bool {
    p == 2 || (p > 2 && p % 2 == 1 && (3..).step_by(2).take_while(|q| q * q <= p).all(|q| p % q != 0))
}
