//! Rows: what the three implementations take for one package, or for one formula under it.

use crate::peers::{Peer, PEERS, ROOM};
use crate::timing::{best, Effort};
use std::cell::RefCell;
use std::hint::black_box;

/// Microseconds of ours, tuned and plain.
pub type Three = [f64; 3];

type Call<'a> = Box<dyn FnMut() + 'a>;

fn three(times: &[f64]) -> Three {
    times.try_into().expect("three times")
}

fn check_call(peer: Peer, package: &[u8]) -> Call<'_> {
    Box::new(move || {
        black_box(peer.check(black_box(package)));
    })
}

fn short_call<'a>(peer: Peer, package: &'a [u8], formula: &'a [u8], out: &'a RefCell<Vec<u8>>) -> Call<'a> {
    Box::new(move || {
        black_box(peer.short_form(black_box(package), black_box(formula), &mut out.borrow_mut()));
    })
}

/// The times of check.
pub fn check(effort: Effort, package: &[u8]) -> Three {
    let mut calls: Vec<Call> = PEERS.iter().map(|peer| check_call(*peer, package)).collect();
    three(&best(effort, &mut calls))
}

/// The times of listing.
pub fn list(effort: Effort, package: &[u8]) -> Three {
    let out = &RefCell::new(vec![0; ROOM]);
    let mut calls: Vec<Call> = Vec::new();
    for peer in PEERS {
        calls.push(Box::new(move || {
            black_box(peer.list_overlaps(black_box(package), &mut out.borrow_mut()));
        }));
    }
    three(&best(effort, &mut calls))
}

/// The times of the short form service, which judges the package too, and of the check.
pub struct Short {
    pub whole: Three,
    pub check: Three,
}

impl Short {
    /// The short form less the check.
    pub fn less_check(&self, peer: usize) -> f64 {
        self.whole[peer] - self.check[peer]
    }

    /// Whether what is left for the formula stands out from the check, of which two runs may differ by a hundredth.
    pub fn stands_out(&self) -> bool {
        (0..2).all(|peer| self.less_check(peer) > 0.02 * self.check[peer])
    }
}

pub fn short_form(effort: Effort, package: &[u8], formula: &[u8]) -> Short {
    let out = &RefCell::new(vec![0; ROOM]);
    let mut calls: Vec<Call> = PEERS.iter().map(|peer| short_call(*peer, package, formula, out)).collect();
    calls.extend(PEERS.iter().map(|peer| check_call(*peer, package)));
    let times = best(effort, &mut calls);
    Short { whole: three(&times[..3]), check: three(&times[3..]) }
}

/// Times of ours on two inputs, then of tuned on both.
pub type TwoByTwo = [[f64; 2]; 2];

const BY_TWO: [(Peer, usize); 4] = [(Peer::Ours, 0), (Peer::Ours, 1), (Peer::Tuned, 0), (Peer::Tuned, 1)];

fn two_by_two(times: &[f64]) -> TwoByTwo {
    [[times[0], times[1]], [times[2], times[3]]]
}

/// The times of check on two packages.
pub fn two_checks(effort: Effort, packages: [&[u8]; 2]) -> TwoByTwo {
    let mut calls: Vec<Call> = BY_TWO.iter().map(|(peer, k)| check_call(*peer, packages[*k])).collect();
    two_by_two(&best(effort, &mut calls))
}

/// The times of the short form service, and of the check, on two packages with a formula each.
pub fn two_short_forms(effort: Effort, packages: [&[u8]; 2], formulas: [&[u8]; 2]) -> (TwoByTwo, TwoByTwo) {
    let out = &RefCell::new(vec![0; ROOM]);
    let mut calls: Vec<Call> =
        BY_TWO.iter().map(|(peer, k)| short_call(*peer, packages[*k], formulas[*k], out)).collect();
    calls.extend(BY_TWO.iter().map(|(peer, k)| check_call(*peer, packages[*k])));
    let times = best(effort, &mut calls);
    (two_by_two(&times[..4]), two_by_two(&times[4..]))
}
