//! Leading coefficients other than 1 beside 1: packages and, under them, formulas that are the same but for the factors of
//! the basis polynomials. Overlaps, differences, steps and short forms are the same.

use crate::inputs::{random_formula, stored_formulas, Named};
use crate::measure::{two_checks, two_short_forms, TwoByTwo};
use crate::near_bounds;
use crate::peers::{accepted, steps};
use crate::random::Random;
use crate::timing::Effort;
use oracle::coefficients::{inverse, times};

/// A formula has a row if its short form takes so much of the check's time.
const LEAST_PART: f64 = 0.1;

/// The package with each basis polynomial times a factor of its own from 2 on: its B sum has the factor, and lines over it
/// the inverse.
fn scaled(package: &[u8]) -> Vec<u8> {
    let text = String::from_utf8_lossy(package);
    let counts: Vec<u64> =
        text.lines().nth(1).expect("line 2").split(' ').map(|n| n.parse().expect("a number")).collect();
    let p = counts[0];
    let mut random = Random::new(4);
    let factors: Vec<u64> = (0..counts[3]).map(|_| 2 + random.below(p as usize - 2) as u64).collect();
    let line = |line: &str| {
        let fields: Vec<&str> = line.split(' ').collect();
        let factor = |field: usize| fields[field].parse::<usize>().map(|item| factors[item - 1]);
        let by = match (fields[0], fields.len()) {
            ("B", 4 | 6) => factor(1).expect("an item"),
            ("G" | "O", 6) => inverse(p, factor(4).expect("a number")),
            _ => return line.to_string() + "\n",
        };
        let coef = times(p, fields[2].parse().expect("a coefficient"), by);
        format!("{} {} {coef} {}\n", fields[0], fields[1], fields[3..].join(" "))
    };
    text.lines().map(line).collect::<String>().into_bytes()
}

pub fn table(effort: Effort, packages: &[Named]) {
    let names = ["e", "weyl_a3", "hecke_a4", "hecke_251", "hecke_256", "clifford_4_3"];
    let mut named: Vec<(String, Vec<u8>)> = Vec::new();
    for package in packages.iter().filter(|package| names.contains(&package.name.as_str())) {
        named.push((package.name.clone(), package.bytes.clone()));
    }
    named.push(("eight pairs".to_string(), near_bounds::package(65_521, 8, 16_000)));
    println!("leading coefficients other than 1 beside 1: the same words, steps and short forms\n");

    heads("check", "us");
    for (name, package) in &named {
        let twins = [package.clone(), scaled(package)];
        twins.iter().for_each(|package| {
            accepted(name, package);
        });
        row(name, None, two_checks(effort, [&twins[0], &twins[1]]), 2);
    }
    println!();

    heads("short form less check", "ns a step");
    for (name, package) in &named {
        let twins = [package.clone(), scaled(package)];
        let mut formulas = stored_formulas(name);
        for (terms, len) in [(12, 12), (12, 24)] {
            let bytes = random_formula(1, package, terms, len);
            formulas.push(Named { name: format!("random {terms} x {len}"), bytes });
        }
        for formula in formulas {
            short_row(effort, &format!("{name} {}", formula.name), &twins, &formula.bytes);
        }
    }
    println!();
}

/// A row of short forms, where the formula has one and its time stands out from the check's.
fn short_row(effort: Effort, name: &str, packages: &[Vec<u8>; 2], formula: &[u8]) {
    let counts = [0, 1].map(|k| steps(name, &packages[k], formula));
    assert_eq!(counts[0], counts[1], "{name}: as many steps");
    let Some(count) = counts[0] else {
        return;
    };
    let (whole, check) = two_short_forms(effort, [&packages[0], &packages[1]], [formula, formula]);
    let left = [0, 1].map(|peer| [0, 1].map(|k| whole[peer][k] - check[peer][k]));
    if count > 0 && (0..4).all(|i| left[i / 2][i % 2] > LEAST_PART * check[i / 2][i % 2]) {
        row(name, Some(count), left.map(|times| [0, 1].map(|k| times[k] * 1e3 / count as f64)), 1);
    }
}

fn heads(what: &str, unit: &str) {
    let columns = "1   others  ratio";
    println!("{what:32} {:>6}   {:>25}   {:>25}", "", format!("ours, {unit}"), format!("tuned, {unit}"));
    println!("{:32} {:>6}   {columns:>25}   {columns:>25}", "", "steps");
}

fn row(name: &str, steps: Option<u64>, times: TwoByTwo, digits: usize) {
    let columns =
        times.map(|[one, other]| format!("{one:>9.digits$} {other:>8.digits$} {:>6.2}", other / one));
    let steps = steps.map_or("-".to_string(), |steps| steps.to_string());
    println!("{name:32} {steps:>6}   {}   {}", columns[0], columns[1]);
}
