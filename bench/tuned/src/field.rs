//! The two kinds of field: GF(p), and GF(256) through logarithms. What calculates is made for each of them, so that no
//! product asks which field it is in.

/// A field whose elements are numbers, 0 among them.
pub trait Field: Copy {
    /// What is kept of an element that many others are multiplied by.
    type Factor: Copy;

    /// Minus a, which is not 0.
    fn minus(self, a: u32) -> u32;
    fn sum(self, a: u32, b: u32) -> u32;
    /// x, which is not 0.
    fn factor(self, x: u32) -> Self::Factor;
    /// x × a, where a is not 0.
    fn product(self, x: Self::Factor, a: u32) -> u32;
    /// 1 / a, where a is not 0.
    fn inverse(self, a: u32) -> u32;
}

/// The numbers below a prime of at most 16 bits.
#[derive(Clone, Copy)]
pub struct Prime(pub u32);

impl Field for Prime {
    type Factor = u32;

    #[inline(always)]
    fn minus(self, a: u32) -> u32 {
        self.0 - a
    }

    #[inline(always)]
    fn sum(self, a: u32, b: u32) -> u32 {
        let sum = a + b;
        if sum < self.0 {
            sum
        } else {
            sum - self.0
        }
    }

    #[inline(always)]
    fn factor(self, x: u32) -> u32 {
        x
    }

    #[inline(always)]
    fn product(self, x: u32, a: u32) -> u32 {
        x * a % self.0
    }

    /// 1 / a is -(p / a) times 1 / (p % a).
    #[inline(always)]
    fn inverse(self, a: u32) -> u32 {
        let (mut factor, mut left) = (1, a);
        while left > 1 {
            factor = factor * (self.0 - self.0 / left) % self.0;
            left = self.0 % left;
        }
        factor
    }
}

/// GF(256), built with x^8 + x^4 + x^3 + x^2 + 1: bit i of a number stands for x^i. 256 stands in the place of p.
#[derive(Clone, Copy)]
pub struct Byte;

/// The powers of x from 0 on: twice round, so that the sum of two logarithms has one.
static POWERS: [u8; 512] = powers();
/// The logarithms of the elements other than 0.
static LOGARITHMS: [u8; 256] = logarithms();

const fn powers() -> [u8; 512] {
    let mut powers = [1; 512];
    let mut i = 1;
    while i < powers.len() {
        let below = powers[i - 1];
        powers[i] = below << 1 ^ if below & 128 == 0 { 0 } else { 29 };
        i += 1;
    }
    powers
}

const fn logarithms() -> [u8; 256] {
    let mut logarithms = [0; 256];
    let mut i = 0;
    while i < 255 {
        logarithms[POWERS[i] as usize] = i as u8;
        i += 1;
    }
    logarithms
}

impl Field for Byte {
    /// The logarithm.
    type Factor = u8;

    #[inline(always)]
    fn minus(self, a: u32) -> u32 {
        a
    }

    #[inline(always)]
    fn sum(self, a: u32, b: u32) -> u32 {
        a ^ b
    }

    #[inline(always)]
    fn factor(self, x: u32) -> u8 {
        LOGARITHMS[usize::from(x as u8)]
    }

    #[inline(always)]
    fn product(self, x: u8, a: u32) -> u32 {
        POWERS[usize::from(x) + usize::from(self.factor(a))].into()
    }

    #[inline(always)]
    fn inverse(self, a: u32) -> u32 {
        POWERS[255 - usize::from(self.factor(a))].into()
    }
}
