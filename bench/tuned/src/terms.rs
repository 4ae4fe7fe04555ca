//! The terms of a package: coefficients, and words as places in its bytes.

use crate::block::{short_at, Short};

/// The most term lines of a package.
pub const TERM_LINES: usize = 1024;
/// The most terms of a polynomial in a package or a formula.
pub const TERMS: usize = 48;

/// Room for N terms, of which the first so many are there.
pub struct Terms<const N: usize> {
    coefs: [u16; N],
    starts: [u32; N],
    lens: [u8; N],
    count: usize,
}

impl<const N: usize> Terms<N> {
    #[inline(always)]
    pub fn new() -> Terms<N> {
        Terms { coefs: [0; N], starts: [0; N], lens: [0; N], count: 0 }
    }

    #[inline(always)]
    pub fn count(&self) -> usize {
        self.count
    }

    #[inline(always)]
    pub fn push(&mut self, coef: u32, start: usize, len: usize) {
        self.coefs[self.count] = coef as u16;
        self.starts[self.count] = start as u32;
        self.lens[self.count] = len as u8;
        self.count += 1;
    }

    /// The terms of these numbers, with the bytes in which their words lie.
    #[inline(always)]
    pub fn poly<'a>(&'a self, bytes: &'a [u8], from: usize, to: usize) -> Poly<'a> {
        Poly {
            bytes,
            coefs: &self.coefs[from..to],
            starts: &self.starts[from..to],
            lens: &self.lens[from..to],
        }
    }
}

/// A polynomial: its terms in falling order.
#[derive(Clone, Copy)]
pub struct Poly<'a> {
    bytes: &'a [u8],
    coefs: &'a [u16],
    starts: &'a [u32],
    lens: &'a [u8],
}

/// A term: its coefficient, and its word as a block of 24 bytes, of which the first `len` are letters.
pub struct Term {
    pub coef: u32,
    pub word: Short,
    pub len: usize,
}

impl<'a> Poly<'a> {
    #[inline(always)]
    pub fn terms(self) -> impl Iterator<Item = Term> + 'a {
        let places = self.starts.iter().zip(self.lens);
        self.coefs.iter().zip(places).map(move |(&coef, (&start, &len))| Term {
            coef: u32::from(coef),
            word: short_at(self.bytes, start as usize),
            len: usize::from(len),
        })
    }

    /// The leading coefficient.
    pub fn lead_coef(self) -> Option<u32> {
        self.coefs.first().map(|&coef| u32::from(coef))
    }

    /// The leading word of a polynomial that is not zero.
    #[inline(always)]
    pub fn lead(self) -> &'a [u8] {
        let start = self.starts[0] as usize;
        &self.bytes[start..start + self.lead_len()]
    }

    /// How many letters the leading word has.
    #[inline(always)]
    pub fn lead_len(self) -> usize {
        self.lens[0].into()
    }

    /// The leading word without its first letters, as the first letters of a block.
    #[inline(always)]
    pub fn lead_from(self, from: usize) -> Short {
        short_at(self.bytes, self.starts[0] as usize + from)
    }
}
