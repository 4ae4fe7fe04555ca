//! Steps one after the other, within a budget: refusals 17 and 18.

use crate::block::{Frame, SHORT};
use crate::field::Field;
use crate::leads::Index;
use crate::package::Package;
use crate::working::{Working, MOST};
use crate::{refuse, Refusal};

/// Brings the working formula to its short form; gives the number of steps. A step changes no term before its own, so
/// the search for the next one goes on there.
pub fn run<F: Field>(
    field: F,
    package: &Package,
    inverses: &[u32; 64],
    index: &Index,
    working: &mut Working,
    budget: u32,
) -> Result<u32, Refusal> {
    let mut steps = 0;
    let mut k = 0;
    while k < working.len() {
        let (_, word) = working.term(k);
        let Some((begin, g)) = index.leftmost(word) else {
            k += 1;
            continue;
        };
        if steps == budget {
            return refuse(18, budget as usize);
        }
        let len = word.len();
        let poly = package.basis_poly(g);
        let (coef, letters) = working.place(k);
        let behind = begin + poly.lead_len();
        let left = *letters.first_chunk::<SHORT>().expect("24 letters");
        let right = *letters[behind..].first_chunk::<SHORT>().expect("24 letters");
        let mut frame = Frame::new(left, begin, right, len - behind);
        let coef = match inverses[g] {
            1 => coef,
            inverse => field.product(field.factor(inverse), coef),
        };
        working.replace(field, field.minus(coef), &mut frame, poly, k);
        steps += 1;
        if working.len() > MOST {
            return refuse(17, steps as usize);
        }
    }
    Ok(steps)
}
