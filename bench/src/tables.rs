//! The tables that the benchmark prints.

use crate::inputs::{random_formula, Named};
use crate::measure::{check, list, short_form, Short, Three};
use crate::near_bounds;
use crate::peers::{accepted, listed, steps};
use crate::timing::Effort;

const HEADS: &str = "     ours     tuned      plain  ratio";

fn times([ours, tuned, plain]: Three) -> String {
    format!("{ours:>9.2} {tuned:>9.2} {plain:>10.2} {:>6.2}", ours / tuned)
}

/// Bytes, term lines, sum lines and overlaps of a package, inclusions counted with the overlaps.
fn size(package: &[u8], overlaps: u64) -> String {
    let lines = |fields: usize| {
        let lines = package.split(|byte| *byte == 10).skip(2);
        let counted =
            lines.filter(|line| line.get(1) == Some(&b' ') && line.split(|b| *b == b' ').count() == fields);
        counted.count()
    };
    format!("{:>6} {:>5} {:>5} {overlaps:>8}", package.len(), lines(4), lines(6))
}

const SIZES: &str = " bytes terms  sums overlaps";

/// Check and listing, package by package.
pub fn packages<'a>(effort: Effort, packages: impl Iterator<Item = &'a Named>) {
    println!("check and listing: microseconds a call\n");
    println!("{:44}  {:>37}   {:>37}", "", "check", "listing");
    println!("{:16} {SIZES}  {HEADS}   {HEADS}", "package");
    for Named { name, bytes } in packages {
        let answer = accepted(name, bytes);
        listed(name, bytes);
        let size = size(bytes, answer.count);
        println!("{name:16} {size}  {}   {}", times(check(effort, bytes)), times(list(effort, bytes)));
    }
    println!();
}

/// One row of short forms: what is left of the call's time without the check. A formula that grows too large has none.
fn short_row(label: &str, package: &[u8], formula: &[u8], effort: Effort) {
    let Some(steps) = steps(label, package, formula) else {
        return;
    };
    let measured = short_form(effort, package, formula);
    let words: Vec<usize> = formula.split(|byte| *byte == 10).skip(1).filter_map(letters).collect();
    let left: Three = [0, 1, 2].map(|peer| measured.less_check(peer));
    println!(
        "{label:28} {:>5} {:>7} {steps:>6}  {:>9.2} {:>9.2} {:>10.2} {:>6} {:>7} {:>7}  {:>6.2}",
        words.len(),
        words.iter().max().unwrap_or(&0),
        left[0],
        left[1],
        left[2],
        ratio(&measured),
        a_step(left[0], steps, &measured),
        a_step(left[1], steps, &measured),
        measured.whole[0] / measured.whole[1],
    );
}

/// How many letters the word of a formula's line has.
fn letters(line: &[u8]) -> Option<usize> {
    let word = line.split(|byte| *byte == b' ').nth(1)?;
    Some(if word == b"-" { 0 } else { word.len() })
}

fn ratio(measured: &Short) -> String {
    match measured.stands_out() {
        true => format!("{:.2}", measured.less_check(0) / measured.less_check(1)),
        false => "-".to_string(),
    }
}

fn a_step(time: f64, steps: u64, measured: &Short) -> String {
    match measured.stands_out() && steps >= 20 {
        true => format!("{:.0}", time * 1e3 / steps as f64),
        false => "-".to_string(),
    }
}

fn short_heads(first: &str) {
    println!("{:49}  {:>37} {:>15}  {:>6}", "", "short form less check, us", "ns a step", "whole");
    println!("{first:28} terms letters  steps  {HEADS}    ours   tuned   ratio");
}

/// Short forms, formula by formula: those stored for each package, and random ones.
pub fn formulas(effort: Effort, packages: &[Named], stored: impl Fn(&str) -> Vec<Named>) {
    println!("short forms: what is left of a call's time without that of the check\n");
    short_heads("package, formula");
    for Named { name, bytes } in packages {
        for formula in stored(name) {
            short_row(&format!("{name} {}", formula.name), bytes, &formula.bytes, effort);
        }
        for (terms, len) in [(1, 24), (12, 12), (48, 8), (24, 24), (48, 24)] {
            let formula = random_formula(1, bytes, terms, len);
            short_row(&format!("{name} random"), bytes, &formula, effort);
        }
    }
    println!();
}

/// The check's time as packages grow.
pub fn growing_packages(effort: Effort) {
    println!("check against bytes: the family of the package near every bound\n");
    println!("{SIZES}  {HEADS}  ns/byte");
    for pairs in [1, 2, 4, 8, 12, 16, 20, 24, 28, 31] {
        let package = near_bounds::package(65_521, pairs, 65_536.min(pairs * 65_536 / 31 + 6000));
        let answer = accepted("near bounds", &package);
        let checked = check(effort, &package);
        let a_byte = checked[0] * 1e3 / package.len() as f64;
        println!("{}  {}  {a_byte:>7.2}", size(&package, answer.count), times(checked));
    }
    println!();
}

/// The short form's time as formulas grow: in terms, in letters, in steps.
pub fn growing_formulas(effort: Effort, packages: &[Named]) {
    let package =
        |name: &str| &packages.iter().find(|package| package.name == name).expect("an example").bytes;
    println!("short form against terms, letters and steps\n");
    short_heads("package, what grows");
    for terms in [1, 2, 4, 8, 16, 32, 48] {
        let formula = random_formula(2, package("clifford_4_3"), terms, 24);
        short_row("clifford_4_3 terms", package("clifford_4_3"), &formula, effort);
    }
    for len in [3, 6, 9, 12, 15, 18, 21, 24] {
        let formula = random_formula(3, package("clifford_4_3"), 24, len);
        short_row("clifford_4_3 letters", package("clifford_4_3"), &formula, effort);
    }
    // Derivations moved past as many variables: one term becomes few, in many steps.
    for half in [1, 2, 4, 6, 8, 10, 12] {
        let formula = format!("coef word\n1 {}{}\n", "a".repeat(half), "d".repeat(half));
        short_row("weyl_a3 steps", package("weyl_a3"), formula.as_bytes(), effort);
    }
    println!();
}
