//! Coefficients: GF(p) for a prime p, and GF(256) where 256 stands in place of p.
//!
//! An element is a number below p. Bit i of an element of GF(256) stands for x^i, and x^8 is
//! x^4 + x^3 + x^2 + 1 there. All arithmetic on coefficients is here; nothing else knows the field.

/// In place of p: the field of 256 elements.
pub const GF_256: u64 = 256;

/// x^8 + x^4 + x^3 + x^2 + 1, bit i for x^i.
const MODULUS: u64 = 0b1_0001_1101;

/// Whether p names a field: 256, or a prime from 2 to 65,521, by trial of every smaller divisor up to the
/// root.
pub fn is_field(p: u64) -> bool {
    let prime = |p: u64| (2..p).take_while(|d| d * d <= p).all(|d| !p.is_multiple_of(d));
    p == GF_256 || ((2..=65_521).contains(&p) && prime(p))
}

/// In GF(256) each power of x is added by itself, and 1 + 1 is 0 there.
pub fn add(p: u64, a: u64, b: u64) -> u64 {
    if p == GF_256 {
        a ^ b
    } else {
        (a + b) % p
    }
}

/// What gives 0 when it is added to a.
pub fn negative(p: u64, a: u64) -> u64 {
    if p == GF_256 {
        a
    } else {
        (p - a) % p
    }
}

pub fn times(p: u64, a: u64, b: u64) -> u64 {
    if p == GF_256 {
        times_256(a, b)
    } else {
        a * b % p
    }
}

/// The sum of a × x^i over the bits i of b. Each a × x^i comes from the one before: shifted, and without x^8.
fn times_256(a: u64, b: u64) -> u64 {
    debug_assert!(a < GF_256 && b < GF_256, "{a} times {b}");
    let mut product = 0;
    let mut shifted = a;
    for bit in 0..8 {
        if b >> bit & 1 == 1 {
            product ^= shifted;
        }
        shifted <<= 1;
        if shifted >= GF_256 {
            shifted ^= MODULUS;
        }
    }
    product
}

/// The inverse of an element that is not 0: its power p - 2, since its power p - 1 is 1 in every field of p
/// elements. There are 16 bits in p - 2 at most.
pub fn inverse(p: u64, a: u64) -> u64 {
    let mut result = 1;
    for bit in (0..16).rev() {
        result = times(p, result, result);
        if (p - 2) >> bit & 1 == 1 {
            result = times(p, result, a);
        }
    }
    result
}

#[cfg(test)]
mod tests {
    use super::*;
    use crate::generate::random::Random;

    #[test]
    fn fields() {
        for p in [2, 3, 5, 7, 127, 251, 256, 257, 509, 521, 1021, 1031, 65_519, 65_521] {
            assert!(is_field(p), "{p}");
        }
        for p in [0, 1, 65_537, 99_991, 131_071] {
            assert!(!is_field(p), "{p}");
        }
        // Squares, cubes and higher powers: 256 and no other.
        for q in 2..317 {
            let mut power = q * q;
            while power < 100_000 {
                assert_eq!(is_field(power), power == 256, "{power}");
                power *= q;
            }
        }
    }

    #[test]
    fn sums_and_negatives() {
        for p in [2, 3, 7, 256, 257, 65_521] {
            for a in [0, 1, p / 2, p - 1] {
                assert_eq!(add(p, a, negative(p, a)), 0, "{a} in {p}");
                assert_eq!(add(p, a, 0), a);
            }
        }
        assert_eq!((add(7, 5, 6), add(256, 5, 6), add(256, 255, 1)), (4, 3, 254));
        assert_eq!((negative(7, 1), negative(256, 1), negative(256, 200)), (6, 1, 200));
    }

    #[test]
    fn products() {
        // x × x^7 = x^8 = x^4 + x^3 + x^2 + 1, and (x + 1)^2 = x^2 + 1.
        // x^14 = x^6 × x^8 = x^10 + x^9 + x^8 + x^6, where x^10 + x^9 + x^8 is (x^2 + x + 1) × x^8, that is
        // (x^2 + x + 1)(x^4 + x^3 + x^2 + 1) = x^6 + x^4 + x + 1. So x^14 = x^4 + x + 1.
        assert_eq!(times(256, 2, 128), 29);
        assert_eq!(times(256, 3, 3), 5);
        assert_eq!(times(256, 128, 128), 19);
        assert_eq!((times(257, 2, 128), times(7, 3, 3)), (256, 2));
        for a in 0..256 {
            assert_eq!((times(256, a, 1), times(256, 1, a), times(256, a, 0)), (a, a, 0));
        }
    }

    #[test]
    fn inverses() {
        for p in [2, 3, 5, 7, 11, 13, 251, 257, 997, 65_519, 65_521] {
            for a in 1..p {
                assert!((1..p).contains(&inverse(p, a)) && a * inverse(p, a) % p == 1, "{a} in {p}");
            }
        }
        // By search, not by powers: one element alone gives 1.
        for a in 1..256 {
            let inverses: Vec<u64> = (0..256).filter(|b| times(256, a, *b) == 1).collect();
            assert_eq!(inverses, [inverse(256, a)], "{a}");
        }
    }

    #[test]
    fn laws_of_gf_256() {
        for a in 0..256 {
            for b in 0..256 {
                assert_eq!(times(256, a, b), times(256, b, a));
                assert!(times(256, a, b) < 256 && (times(256, a, b) == 0) == (a == 0 || b == 0));
            }
        }
        let random = &mut Random::new(7, 0);
        for _ in 0..100_000 {
            let [a, b, c] = [0; 3].map(|_| random.below(256));
            assert_eq!(times(256, a, times(256, b, c)), times(256, times(256, a, b), c), "{a} {b} {c}");
            let apart = add(256, times(256, a, b), times(256, a, c));
            assert_eq!(times(256, a, add(256, b, c)), apart, "{a} {b} {c}");
        }
    }

    #[test]
    fn x_has_order_255() {
        let mut powers = vec![1];
        while powers.len() < 255 {
            powers.push(times(256, powers[powers.len() - 1], 2));
        }
        assert_eq!(times(256, powers[254], 2), 1);
        powers.sort_unstable();
        assert_eq!(powers, (1..256).collect::<Vec<_>>());
    }
}
