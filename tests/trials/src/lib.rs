//! Functions below the services, called as a C program calls them (tests/c/trials.h). They are no part of the
//! library, and have an archive of their own.
//!
//! A slice that is `None` is handed over as NULL with length 0.

use std::ptr::null;

/// Whether a word stands at a place of another, and how many letters were compared.
#[repr(C)]
#[derive(Clone, Copy, Debug, PartialEq, Eq)]
pub struct Stood {
    pub stands: bool,
    pub compared: usize,
}

/// Whether bytes are a word that is packed, and the numbers that it is packed into.
#[repr(C)]
#[derive(Clone, Copy, Debug, PartialEq, Eq)]
pub struct Packed {
    pub fits: bool,
    pub blocks: [u64; 6],
}

extern "C" {
    fn vg_trial_pack(w: *const u8, w_len: usize) -> Packed;
    fn vg_trial_stands_at(b: *const u8, b_len: usize, w: *const u8, w_len: usize, at: usize) -> Stood;
}

fn lent(bytes: Option<&[u8]>) -> (*const u8, usize) {
    bytes.map_or((null(), 0), |bytes| (bytes.as_ptr(), bytes.len()))
}

/// Whether `b` stands in `w` at the place `at`.
pub fn stands_at(b: Option<&[u8]>, w: Option<&[u8]>, at: usize) -> Stood {
    let ((b, b_len), (w, w_len)) = (lent(b), lent(w));
    // Both pointers are valid for their lengths.
    unsafe { vg_trial_stands_at(b, b_len, w, w_len, at) }
}

/// The word `w`, packed.
pub fn pack(w: Option<&[u8]>) -> Packed {
    let (w, w_len) = lent(w);
    // The pointer is valid for its length.
    unsafe { vg_trial_pack(w, w_len) }
}
