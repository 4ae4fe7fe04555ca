//! One comparison: the oracle's answer, the library's answer, and every byte around the output.

use crate::input::{Input, Service};
use archive::Numbers;
use oracle::generate::random::Random;
use oracle::services::{check, list_overlaps, member, short_form};

/// So many bytes before and after the output must keep their values.
const GUARD: usize = 64;

/// What the oracle says of an input: the numbers, and the bytes written.
pub struct Expected {
    pub numbers: Numbers,
    pub output: Vec<u8>,
    /// Of the steps, those with a polynomial that leads with another coefficient than 1. The library does not say it.
    pub divided: u64,
}

pub fn expect(input: &Input) -> Expected {
    let answer = match input.service {
        Service::Check => check(input.package),
        Service::List => list_overlaps(input.package, input.out_len),
        Service::ShortForm => short_form(input.package, input.formula, input.budget, input.out_len),
        Service::Member => member(input.package, input.formula, input.budget),
    };
    let output = answer.output.unwrap_or_default();
    let last = if input.service == Service::Member { answer.member } else { output.len() as u64 };
    let numbers = Numbers { number: answer.number, place: answer.place, count: answer.count, last };
    Expected { numbers, output, divided: answer.divided }
}

/// Calls the library.
fn call(input: &Input, out: &mut [u8]) -> Numbers {
    assert_eq!(out.len(), input.out_len);
    let lent = |bytes| if input.null && <[u8]>::is_empty(bytes) { None } else { Some(bytes) };
    let (package, formula) = (lent(input.package), lent(input.formula));
    let out = if input.null && out.is_empty() { None } else { Some(out) };
    match input.service {
        Service::Check => archive::check(package),
        Service::List => archive::list_overlaps(package, out),
        Service::ShortForm => archive::short_form(package, formula, input.budget, out),
        Service::Member => archive::member(package, formula, input.budget),
    }
}

/// Calls the library and compares. The buffer begins with random bytes, so that a byte written without need
/// is seen. None: nothing differs.
pub fn difference(random: &mut Random, input: &Input, expected: &Expected) -> Option<String> {
    let mut wanted = random.bytes(input.out_len + 2 * GUARD);
    let mut buffer = wanted.clone();
    let numbers = call(input, &mut buffer[GUARD..GUARD + input.out_len]);
    wanted[GUARD..GUARD + expected.output.len()].copy_from_slice(&expected.output);
    let differing = (0..wanted.len()).find(|index| wanted[*index] != buffer[*index]);
    if numbers == expected.numbers && differing.is_none() {
        return None;
    }
    let mut message = format!("the oracle answers {:?}\nthe library answers {numbers:?}\n", expected.numbers);
    if let Some(index) = differing {
        // As many bytes as the longer of the two outputs has; what was not written shows as it was before.
        let written = if input.service == Service::Member { 0 } else { numbers.last as usize };
        let end = GUARD + written.max(expected.output.len()).min(input.out_len);
        message += &format!("the first differing byte of the output is {}\n", index as i64 - GUARD as i64);
        message += &format!("the oracle's output:\n{}\n", shown(&wanted[GUARD..end]));
        message += &format!("the library's output:\n{}\n", shown(&buffer[GUARD..end]));
    }
    Some(message)
}

/// Bytes as text: byte 10 ends a line, other bytes that cannot be seen are escaped.
pub fn shown(bytes: &[u8]) -> String {
    bytes.escape_ascii().to_string().replace("\\n", "\n")
}
