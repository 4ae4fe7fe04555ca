//! Pairs of leading words, overlaps and then inclusions, in the order of the list, and the list's bytes.

use crate::leads::leads;
use crate::number::{digits, put_number};
use crate::package::Package;

const NAMES: &[u8] = b"item first second shared at word\n";

/// First and second are counted from 0. The second leading word begins at the place `at` of the first, and an inclusion
/// shares all of it.
#[derive(Clone, Copy)]
pub struct Pair {
    pub first: u8,
    pub second: u8,
    pub shared: u8,
    pub at: u8,
}

impl Pair {
    fn new(first: usize, second: usize, shared: usize, at: usize) -> Pair {
        Pair { first: first as u8, second: second as u8, shared: shared as u8, at: at as u8 }
    }
}

/// All overlaps by first, then second, then shared, and behind them all inclusions by first, then second, then place.
pub fn pairs(package: &Package) -> Vec<Pair> {
    let mut room = [&[][..]; 64];
    let leads = leads(package, &mut room);
    let mut list = Vec::with_capacity(256);
    for (first, u) in leads.iter().enumerate() {
        for (second, v) in leads.iter().enumerate() {
            let Some(begin) = v.first() else {
                continue;
            };
            for shared in 1..u.len().min(v.len()) {
                let at = u.len() - shared;
                if u[at] == *begin && v.starts_with(&u[at..]) {
                    list.push(Pair::new(first, second, shared, at));
                }
            }
        }
    }
    for (first, u) in leads.iter().enumerate() {
        for (second, v) in leads.iter().enumerate() {
            // Of two equal words the lower number is first.
            if v.len() < u.len() || (v.len() == u.len() && first < second) {
                inclusions(&mut list, (first, u), (second, v));
            }
        }
    }
    list
}

/// Each place where the second word, which is not longer, stands inside the first.
#[inline(always)]
fn inclusions(list: &mut Vec<Pair>, (first, u): (usize, &[u8]), (second, v): (usize, &[u8])) {
    let Some((begin, rest)) = v.split_first() else {
        list.extend((0..=u.len()).map(|at| Pair::new(first, second, 0, at)));
        return;
    };
    for at in 0..=u.len() - v.len() {
        if u[at] == *begin && u[at + 1..].starts_with(rest) {
            list.push(Pair::new(first, second, v.len(), at));
        }
    }
}

impl Pair {
    /// The first leading word, and the unshared rest of the second.
    #[inline(always)]
    fn parts<'a>(self, package: &'a Package) -> (&'a [u8], &'a [u8]) {
        let first = package.basis_poly(self.first.into()).lead();
        let second = package.basis_poly(self.second.into()).lead();
        match (first, &second[usize::from(self.shared)..]) {
            ([], []) => (b"-", b""),
            parts => parts,
        }
    }

    /// The five numbers of its line.
    fn numbers(self, item: usize) -> [usize; 5] {
        let (first, second) = (usize::from(self.first) + 1, usize::from(self.second) + 1);
        [item, first, second, self.shared.into(), self.at.into()]
    }
}

/// How many bytes the list has.
pub fn list_len(package: &Package, list: &[Pair]) -> usize {
    let line = |(k, pair): (usize, &Pair)| {
        let (u, v) = pair.parts(package);
        let numbers: usize = pair.numbers(k + 1).iter().map(|n| digits(*n as u32)).sum();
        numbers + u.len() + v.len() + 6
    };
    NAMES.len() + list.iter().enumerate().map(line).sum::<usize>()
}

/// Writes the list to a slice that it fits in.
pub fn write_list(package: &Package, list: &[Pair], out: &mut [u8]) {
    out[..NAMES.len()].copy_from_slice(NAMES);
    let mut at = NAMES.len();
    for (k, pair) in list.iter().enumerate() {
        for number in pair.numbers(k + 1) {
            at = put_number(out, at, number as u32);
            out[at] = b' ';
            at += 1;
        }
        let (u, v) = pair.parts(package);
        for part in [u, v] {
            out[at..at + part.len()].copy_from_slice(part);
            at += part.len();
        }
        out[at] = 10;
        at += 1;
    }
}
