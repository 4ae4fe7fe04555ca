//! Leading words inside one another: in which ways an input has to do with them.

use crate::compare::Expected;
use crate::input::{Input, Service};
use crate::ways::{Named, Ways};
use oracle::inclusions::inclusions;
use oracle::list::{differences, Entry};
use oracle::other_rules::steps_otherwise;
use oracle::overlaps::overlaps;
use oracle::package::{Package, SumLine};

/// The ways. An input may have more than one.
enum Way {
    Shorter,
    SeveralPlaces,
    Equal,
    Empty,
    TwoEmpty,
    ZeroDifference,
    OtherDifference,
    WrongSum,
    NotBelow,
    TooManyTerms,
    AboveCount,
    HigherNumber,
    NumberBeforePlace,
    LongestWord,
}

/// The ways in their order, as the table has them. About one round in 20 meets 15 just above the list, and one in 120
/// meets 10 at an inclusion.
const NAMES: [Named; 14] = [
    ("listed: a shorter word", 60),
    ("listed: a word at several places", 60),
    ("listed: equal words", 60),
    ("listed: the empty word in another", 60),
    ("listed: two empty words", 60),
    ("accepted: a difference of zero", 60),
    ("accepted: another difference", 60),
    ("13 at an inclusion", 100),
    ("14 at an inclusion", 100),
    ("10 at an inclusion", 1_000),
    ("15 just above the list", 400),
    ("the higher number steps otherwise", 60),
    ("number before place: otherwise", 60),
    ("the longest word steps otherwise", 60),
];

pub fn ways() -> Ways<{ NAMES.len() }> {
    Ways::new("leading words inside one another", NAMES)
}

/// The ways of an input under this package, as numbers.
pub fn found(package: &Package, input: &Input, expected: &Expected) -> Vec<usize> {
    let ways = match (input.service, expected.numbers.number) {
        (Service::List, 0) => listed(&inclusions(&package.basis)),
        (Service::Check, 0) => accepted(package),
        (Service::Check, 10 | 13 | 14 | 15) => refused(package, expected),
        (Service::ShortForm, 0 | 17 | 18) if taken(expected) <= STEPS => steps(package, input),
        _ => Vec::new(),
    };
    ways.into_iter().map(|way| way as usize).collect()
}

/// What kinds of inclusions there are.
fn listed(list: &[Entry]) -> Vec<Way> {
    let whole = |entry: &Entry| entry.left.is_empty() && entry.right.is_empty();
    let pair = |entry: &Entry| (entry.first, entry.second);
    let shorter = |entry: &Entry| entry.shared > 0 && !whole(entry);
    let again = |two: &[Entry]| shorter(&two[0]) && pair(&two[0]) == pair(&two[1]);
    there([
        (Way::Shorter, list.iter().any(shorter)),
        (Way::SeveralPlaces, list.windows(2).any(again)),
        (Way::Equal, list.iter().any(|entry| entry.shared > 0 && whole(entry))),
        (Way::Empty, list.iter().any(|entry| entry.shared == 0 && !whole(entry))),
        (Way::TwoEmpty, list.iter().any(|entry| entry.shared == 0 && whole(entry))),
    ])
}

/// Whether an accepted package has inclusions with a difference of zero, and with another.
fn accepted(package: &Package) -> Vec<Way> {
    let list = inclusions(&package.basis);
    let zero: Vec<bool> = differences(package.p, &package.basis, &list).map(|f| f.is_empty()).collect();
    there([(Way::ZeroDifference, zero.contains(&true)), (Way::OtherDifference, zero.contains(&false))])
}

/// The ways that are there.
fn there<const N: usize>(ways: [(Way, bool); N]) -> Vec<Way> {
    ways.into_iter().filter(|(_, is_there)| *is_there).map(|(way, _)| way).collect()
}

/// A refusal at an O sum of an inclusion, or by the item behind the last.
fn refused(package: &Package, expected: &Expected) -> Vec<Way> {
    let (number, place) = (expected.numbers.number, expected.numbers.place);
    let before = overlaps(&package.basis).len() as u64;
    let count = before + inclusions(&package.basis).len() as u64;
    // The place of 13 is the item; of the others it is a line, which may be one of another kind.
    let at_place = |lines: &[SumLine]| lines.iter().any(|sum| sum.line == place);
    let of_line = || package.o_sums.iter().find(|(_, lines)| at_place(lines)).map(|(item, _)| *item);
    let item = if number == 13 { Some(place) } else { of_line() };
    match item {
        Some(item) if number == 15 && item == count + 1 => vec![Way::AboveCount],
        Some(item) if (before + 1..=count).contains(&item) => match number {
            10 => vec![Way::TooManyTerms],
            13 => vec![Way::WrongSum],
            _ => vec![Way::NotBelow],
        },
        _ => Vec::new(),
    }
}

/// Formulas that take more steps are not tried by other rules.
const STEPS: u64 = 100;

/// How many steps an answer took, or a refusal by 17 or 18.
fn taken(expected: &Expected) -> u64 {
    expected.numbers.count.max(expected.numbers.place)
}

/// Which other rules would take other steps.
fn steps(package: &Package, input: &Input) -> Vec<Way> {
    let [higher, before, longest] = steps_otherwise(package, input.formula, input.budget.into());
    there([(Way::HigherNumber, higher), (Way::NumberBeforePlace, before), (Way::LongestWord, longest)])
}
