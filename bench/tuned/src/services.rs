//! The four services.

use crate::block::{Frame, SHORT};
use crate::check::judge_sums;
use crate::field::{Byte, Field, Prime};
use crate::formula::{read_formula, text_len, write_text};
use crate::leads::{inverses, judge_leads, Index};
use crate::package::Package;
use crate::pairs::{list_len, pairs, write_list};
use crate::steps::run;
use crate::terms::{Poly, Terms};
use crate::working::Working;
use crate::{refuse, Refusal};

/// An answer of any service. On a refusal the counts are 0.
#[derive(Clone, Copy, Debug, Default, PartialEq, Eq)]
pub struct Answer {
    pub number: u64,
    pub place: u64,
    /// Pairs for check and listing, steps for short form and membership.
    pub count: u64,
    /// Bytes written, or 1 for a member.
    pub last: u64,
}

impl Answer {
    fn of(result: Result<(u64, u64), Refusal>) -> Answer {
        match result {
            Ok((count, last)) => Answer { number: 0, place: 0, count, last },
            Err(refusal) => {
                Answer { number: refusal.number.into(), place: refusal.place as u64, ..Answer::default() }
            }
        }
    }
}

/// Check: pairs.
#[inline(never)]
pub fn check(bytes: &[u8]) -> Answer {
    let mut package = Package::new(bytes);
    let mut working = Working::new();
    Answer::of(accept(&mut package, &mut working).map(|count| (count as u64, 0)))
}

/// Listing: pairs and bytes written.
#[inline(never)]
pub fn list_overlaps(bytes: &[u8], out: &mut [u8]) -> Answer {
    let mut package = Package::new(bytes);
    Answer::of(list(&mut package, out))
}

/// Short form: steps and bytes written.
#[inline(never)]
pub fn short_form(bytes: &[u8], formula: &[u8], budget: u32, out: &mut [u8]) -> Answer {
    let mut package = Package::new(bytes);
    let mut working = Working::new();
    let result = reduce(&mut package, &mut working, formula, budget).and_then(|steps| {
        let needed = text_len(&working);
        if out.len() < needed {
            return refuse(19, needed);
        }
        write_text(&working, out);
        Ok((steps.into(), needed as u64))
    });
    Answer::of(result)
}

/// Membership: steps, and 1 for yes or 0 for no.
#[inline(never)]
pub fn member(bytes: &[u8], formula: &[u8], budget: u32) -> Answer {
    let mut package = Package::new(bytes);
    let mut working = Working::new();
    let result = reduce(&mut package, &mut working, formula, budget);
    Answer::of(result.map(|steps| (steps.into(), u64::from(working.len() == 0))))
}

fn accept(package: &mut Package, working: &mut Working) -> Result<usize, Refusal> {
    package.read()?;
    judge_leads(package)?;
    match package.p {
        256 => judge(Byte, package, working),
        p => judge(Prime(p), package, working),
    }
}

#[inline(always)]
fn judge<F: Field>(field: F, package: &Package, working: &mut Working) -> Result<usize, Refusal> {
    judge_sums(field, package, &inverses(field, package), working)
}

fn list(package: &mut Package, out: &mut [u8]) -> Result<(u64, u64), Refusal> {
    package.read()?;
    judge_leads(package)?;
    let list = pairs(package);
    let needed = list_len(package, &list);
    if out.len() < needed {
        return refuse(19, needed);
    }
    write_list(package, &list, out);
    Ok((list.len() as u64, needed as u64))
}

fn reduce(package: &mut Package, working: &mut Working, formula: &[u8], budget: u32) -> Result<u32, Refusal> {
    accept(package, working)?;
    let mut terms = Terms::new();
    read_formula(formula, package.p, package.letters, &mut terms)?;
    let formula = terms.poly(formula, 0, terms.count());
    match package.p {
        256 => steps(Byte, package, working, formula, budget),
        p => steps(Prime(p), package, working, formula, budget),
    }
}

#[inline(always)]
fn steps<F: Field>(
    field: F,
    package: &Package,
    working: &mut Working,
    formula: Poly,
    budget: u32,
) -> Result<u32, Refusal> {
    let mut sides = Frame::new([0; SHORT], 0, [0; SHORT], 0);
    working.start(field, 1, &mut sides, formula);
    run(field, package, &inverses(field, package), &Index::new(package), working, budget)
}
