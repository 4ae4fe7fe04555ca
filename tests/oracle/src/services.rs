//! The four services, and what the program prints.

use crate::check::accept;
use crate::formula::{formula_text, read_formula};
use crate::leads::judge_zeros;
use crate::list::{list, list_text};
use crate::package::{read, PACKAGE_BYTES};
use crate::refusal::{refuse, Refusal};
use crate::steps::{run, Reduced};

/// An answer of any service. On success number and place are 0; on a refusal the counts are 0.
#[derive(Clone, Debug, Default, PartialEq, Eq)]
pub struct Answer {
    pub number: u64,
    pub place: u64,
    /// Entries of the list for check and listing, steps for short form and membership.
    pub count: u64,
    /// Membership only: 1 for yes, 0 for no.
    pub member: u64,
    /// Of the steps, those with a polynomial that leads with another coefficient than 1. No service says it: it is
    /// here to be counted.
    pub divided: u64,
    /// The bytes written to the output. None: the output is as it was. Check and membership have none.
    pub output: Option<Vec<u8>>,
}

impl Answer {
    fn of(result: Result<Answer, Refusal>) -> Answer {
        result.unwrap_or_else(|refusal| Answer {
            number: refusal.number,
            place: refusal.place,
            ..Answer::default()
        })
    }
}

/// Check: number, place, entries of the list.
pub fn check(package: &[u8]) -> Answer {
    Answer::of(accept(package).map(|(_, list)| Answer { count: list.len() as u64, ..Answer::default() }))
}

/// Listing: number, place, entries, output. It judges 1 to 8 and 19.
pub fn list_overlaps(package: &[u8], out_len: usize) -> Answer {
    let result = || {
        let package = read(package)?;
        judge_zeros(&package)?;
        let list = list(&package.basis);
        let output = fitting(list_text(&list, &package.basis), out_len)?;
        Ok(Answer { count: list.len() as u64, output, ..Answer::default() })
    };
    Answer::of(result())
}

/// A formula's short form under a package, and the steps to it.
fn reduce(package: &[u8], formula: &[u8], budget: u32) -> Result<Reduced, Refusal> {
    let (package, _) = accept(package)?;
    let formula = read_formula(formula, package.p, package.letters)?;
    run(&package, formula, budget.into())
}

/// Short form: number, place, steps, output.
pub fn short_form(package: &[u8], formula: &[u8], budget: u32, out_len: usize) -> Answer {
    let result = || {
        let Reduced { short, steps, divided } = reduce(package, formula, budget)?;
        let output = fitting(formula_text(&short), out_len)?;
        Ok(Answer { count: steps, divided, output, ..Answer::default() })
    };
    Answer::of(result())
}

/// Membership: number, place, steps, yes or no.
pub fn member(package: &[u8], formula: &[u8], budget: u32) -> Answer {
    let result = || {
        let Reduced { short, steps, divided } = reduce(package, formula, budget)?;
        Ok(Answer { count: steps, divided, member: short.is_empty().into(), ..Answer::default() })
    };
    Answer::of(result())
}

/// Refusal 19: the place is the number of bytes required.
fn fitting(text: Vec<u8>, out_len: usize) -> Result<Option<Vec<u8>>, Refusal> {
    if text.len() > out_len {
        return refuse(19, text.len() as u64);
    }
    Ok(Some(text))
}

/// What the program that prints the overlap list writes for a package on its standard input.
pub fn printed(package: &[u8]) -> Vec<u8> {
    let answer = list_overlaps(package, PACKAGE_BYTES);
    match answer.output {
        Some(text) => text,
        None => format!("refused {} {}\n", answer.number, answer.place).into_bytes(),
    }
}
