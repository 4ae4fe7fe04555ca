//! The leading words and coefficients of the basis: refusal 8, and what is counted of them.

use crate::package::Package;
use crate::poly::{lead, Poly};
use crate::refusal::{refuse, Refusal};

/// 8 for all items: every basis polynomial is nonzero. Its leading coefficient may be any but 0, and its leading
/// word may hold another's.
pub fn judge_zeros(package: &Package) -> Result<(), Refusal> {
    match (1..).zip(&package.basis).find(|(_, f)| f.is_empty()) {
        Some((item, _)) => refuse(8, item),
        None => Ok(()),
    }
}

/// Whether a basis polynomial leads with another coefficient than 1.
pub fn leads_otherwise(basis: &[Poly]) -> bool {
    basis.iter().filter_map(lead).any(|(_, coef)| coef != 1)
}
