//! Numbers of up to five digits as text.

/// How many digits a number below 100,000 has.
#[inline(always)]
pub fn digits(n: u32) -> usize {
    1 + usize::from(n > 9) + usize::from(n > 99) + usize::from(n > 999) + usize::from(n > 9999)
}

/// Writes a number below 100,000 from a place on; the answer is the place behind it.
#[inline(always)]
pub fn put_number(out: &mut [u8], at: usize, n: u32) -> usize {
    let field = &mut out[at..at + digits(n)];
    let mut rest = n;
    for digit in field.iter_mut().rev() {
        *digit = b'0' + (rest % 10) as u8;
        rest /= 10;
    }
    at + field.len()
}
