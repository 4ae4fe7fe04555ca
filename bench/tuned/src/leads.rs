//! The leading words: refusal 8, and the index that finds the leftmost one in a word.

use crate::block::SHORT;
use crate::field::Field;
use crate::package::Package;
use crate::{refuse, Refusal};

/// Bit g stands for leading word g. `rows[k][x]` has the words with the letter x at place k, where `a` is 1;
/// `ends[k]` those of exactly k letters.
pub struct Index {
    rows: [[u64; 32]; SHORT],
    ends: [u64; SHORT + 1],
}

impl Index {
    pub fn new(package: &Package) -> Index {
        let mut index = Index { rows: [[0; 32]; SHORT], ends: [0; SHORT + 1] };
        for g in 0..package.basis {
            let lead = package.basis_poly(g).lead();
            for (row, letter) in index.rows.iter_mut().zip(lead) {
                row[usize::from(letter & 31)] |= 1 << g;
            }
            index.ends[lead.len()] |= 1 << g;
        }
        index
    }

    /// The leftmost place of a leading word in a word, and the lowest number of those that stand there. A leading word
    /// without letters stands everywhere. Behind a word that is found only lower numbers are looked for.
    #[inline(always)]
    pub fn leftmost(&self, word: &[u8]) -> Option<(usize, usize)> {
        let empty = self.ends[0];
        for begin in 0..word.len() {
            let mut found = empty;
            let mut left = lower(empty);
            for ((row, end), letter) in self.rows.iter().zip(&self.ends[1..]).zip(&word[begin..]) {
                left &= row[usize::from(letter & 31)];
                if left == 0 {
                    break;
                }
                let whole = left & end;
                if whole != 0 {
                    found = whole;
                    left &= lower(whole);
                }
            }
            if found != 0 {
                return Some((begin, found.trailing_zeros() as usize));
            }
        }
        (empty != 0).then_some((0, empty.trailing_zeros() as usize))
    }
}

/// The numbers below the lowest of some; all where there is none.
#[inline(always)]
fn lower(some: u64) -> u64 {
    !some & some.wrapping_sub(1)
}

/// 8 for all items.
pub fn judge_leads(package: &Package) -> Result<(), Refusal> {
    for g in 0..package.basis {
        if package.basis_poly(g).lead_coef().is_none() {
            return refuse(8, g + 1);
        }
    }
    Ok(())
}

/// The inverses of the leading coefficients of a basis without zeros, by number.
pub fn inverses<F: Field>(field: F, package: &Package) -> [u32; 64] {
    let mut inverses = [1; 64];
    for (g, inverse) in inverses[..package.basis].iter_mut().enumerate() {
        *inverse = field.inverse(package.basis_poly(g).lead_coef().expect("a leading coefficient"));
    }
    inverses
}

/// The leading words of a basis without zeros, by number.
#[inline(always)]
pub fn leads<'r, 'a>(package: &'a Package, room: &'r mut [&'a [u8]; 64]) -> &'r [&'a [u8]] {
    let leads = &mut room[..package.basis];
    for (g, lead) in leads.iter_mut().enumerate() {
        *lead = package.basis_poly(g).lead();
    }
    leads
}
