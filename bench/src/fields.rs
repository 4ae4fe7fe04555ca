//! GF(256) beside GF(251): packages, and formulas under them, that have the same words over both fields. What differs are
//! the coefficients, so a step has the same words to find and the same number of terms to add.

use crate::inputs::{random_formula, stored_formulas, Named};
use crate::measure::{two_checks, two_short_forms, TwoByTwo};
use crate::near_bounds;
use crate::peers::{accepted, steps};
use crate::timing::Effort;

/// What is over GF(251), and what is over GF(256).
type Twins = [Vec<u8>; 2];

fn lent(twins: &Twins) -> [&[u8]; 2] {
    [&twins[0], &twins[1]]
}

/// A formula has a row if its short form takes so much of the check's time: the ratio is one of two differences, and two
/// runs of a check may differ by a hundredth.
const LEAST_PART: f64 = 0.1;

pub fn table(effort: Effort, packages: &[Named]) {
    let stored =
        |name: &str| packages.iter().find(|package| package.name == name).expect("a package").bytes.clone();
    let hecke = ["hecke_251", "hecke_256"].map(stored);
    let pairs = [251, 256].map(|p| near_bounds::package(p, 8, 14_000));
    let near = [251, 256].map(|p| near_bounds::package(p, 31, 65_536));
    println!("GF(256) beside GF(251): the same words, and other coefficients\n");

    heads("bytes", "check", "us");
    for (name, twins) in [("hecke", &hecke), ("eight pairs", &pairs), ("near every bound", &near)] {
        for package in twins {
            accepted(name, package);
        }
        let sizes = [twins[0].len() as u64, twins[1].len() as u64];
        row(name, sizes, two_checks(effort, lent(twins)), 2);
    }
    println!();

    heads("steps", "short form less check", "ns a step");
    for (first, second) in stored_formulas("hecke_251").into_iter().zip(stored_formulas("hecke_256")) {
        assert_eq!(first.name, second.name, "the same classes over both fields");
        short_row(effort, &format!("hecke {}", first.name), &hecke, &[first.bytes, second.bytes]);
    }
    for (name, twins) in [("hecke", &hecke), ("eight pairs", &pairs)] {
        for (terms, len) in [(12, 12), (48, 8), (12, 24), (24, 24)] {
            let formulas = [0, 1].map(|k| random_formula(1, &twins[k], terms, len));
            short_row(effort, &format!("{name} random {terms} x {len}"), twins, &formulas);
        }
    }
    println!();
}

/// A row of short forms, where both formulas have one and its time stands out from the check's.
fn short_row(effort: Effort, name: &str, packages: &Twins, formulas: &Twins) {
    let counts = [0, 1].map(|k| steps(name, &packages[k], &formulas[k]));
    let [Some(first), Some(second)] = counts else {
        return;
    };
    let (whole, check) = two_short_forms(effort, lent(packages), lent(formulas));
    let counts = [first, second];
    let left = [0, 1].map(|peer| [0, 1].map(|k| whole[peer][k] - check[peer][k]));
    if (0..4).all(|i| left[i / 2][i % 2] > LEAST_PART * check[i / 2][i % 2]) {
        row(name, counts, left.map(|times| [0, 1].map(|k| times[k] * 1e3 / counts[k] as f64)), 1);
    }
}

fn heads(counts: &str, what: &str, unit: &str) {
    let fields = "GF(251)  GF(256)  ratio";
    println!("{:28} {counts:>13}   {:>25}   {:>25}", "", format!("ours, {unit}"), format!("tuned, {unit}"));
    println!("{what:28}    251    256   {fields:>25}   {fields:>25}");
}

fn row(name: &str, [first, second]: [u64; 2], times: TwoByTwo, digits: usize) {
    let columns = times.map(|[p, byte]| format!("{p:>9.digits$} {byte:>8.digits$} {:>6.2}", byte / p));
    println!("{name:28} {first:>6} {second:>6}   {}   {}", columns[0], columns[1]);
}
