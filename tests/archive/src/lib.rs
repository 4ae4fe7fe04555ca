//! The library, called as a C program calls it (include/vaultgarlic.h).
//!
//! A slice that is `None` is handed over as NULL with length 0.

use std::ptr::{null, null_mut};

/// The numbers of an answer in the order of the C structs: the last is bytes written, or membership, or 0
/// where a struct has three fields.
#[repr(C)]
#[derive(Clone, Copy, Debug, PartialEq, Eq)]
pub struct Numbers {
    pub number: u64,
    pub place: u64,
    pub count: u64,
    pub last: u64,
}

#[repr(C)]
struct Checked {
    number: u64,
    place: u64,
    overlaps: u64,
}

extern "C" {
    fn vg_check(package: *const u8, package_len: usize) -> Checked;
    fn vg_list_overlaps(package: *const u8, package_len: usize, out: *mut u8, out_len: usize) -> Numbers;
    fn vg_short_form(
        package: *const u8,
        package_len: usize,
        formula: *const u8,
        formula_len: usize,
        budget: u32,
        out: *mut u8,
        out_len: usize,
    ) -> Numbers;
    fn vg_member(
        package: *const u8,
        package_len: usize,
        formula: *const u8,
        formula_len: usize,
        budget: u32,
    ) -> Numbers;
}

fn lent(bytes: Option<&[u8]>) -> (*const u8, usize) {
    bytes.map_or((null(), 0), |bytes| (bytes.as_ptr(), bytes.len()))
}

fn lent_out(bytes: Option<&mut [u8]>) -> (*mut u8, usize) {
    bytes.map_or((null_mut(), 0), |bytes| (bytes.as_mut_ptr(), bytes.len()))
}

// In each call every pointer is valid for its length, and the output, borrowed alone, lies apart from the inputs.

#[inline]
pub fn check(package: Option<&[u8]>) -> Numbers {
    let (package, package_len) = lent(package);
    let Checked { number, place, overlaps } = unsafe { vg_check(package, package_len) };
    Numbers { number, place, count: overlaps, last: 0 }
}

#[inline]
pub fn list_overlaps(package: Option<&[u8]>, out: Option<&mut [u8]>) -> Numbers {
    let ((package, package_len), (out, out_len)) = (lent(package), lent_out(out));
    unsafe { vg_list_overlaps(package, package_len, out, out_len) }
}

#[inline]
pub fn short_form(
    package: Option<&[u8]>,
    formula: Option<&[u8]>,
    budget: u32,
    out: Option<&mut [u8]>,
) -> Numbers {
    let ((package, package_len), (formula, formula_len)) = (lent(package), lent(formula));
    let (out, out_len) = lent_out(out);
    unsafe { vg_short_form(package, package_len, formula, formula_len, budget, out, out_len) }
}

#[inline]
pub fn member(package: Option<&[u8]>, formula: Option<&[u8]>, budget: u32) -> Numbers {
    let ((package, package_len), (formula, formula_len)) = (lent(package), lent(formula));
    unsafe { vg_member(package, package_len, formula, formula_len, budget) }
}
