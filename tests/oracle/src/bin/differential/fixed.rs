//! The inputs that every run begins with: rows with known answers, and both sides of every bound.

use crate::input::{Input, Service, SERVICES};
use crate::surround::{around_formula, around_list, list_edges, Sink};
use oracle::formula::formula_text;
use oracle::generate::bound_packages::bound_packages;
use oracle::generate::edits::E;
use oracle::generate::families;
use oracle::generate::formula_rows::{formula_rows, FormulaRow};
use oracle::generate::growth::{spreading, spreading_formula};
use oracle::generate::inside_bounds::inside_bounds;
use oracle::generate::list_rows::{list_rows, ListRow};
use oracle::generate::package_rows::package_rows;
use oracle::generate::random::Random;
use oracle::generate::rows_256::{doubled_256, e_256, formula_rows_256, package_rows_256};
use oracle::generate::scale::scale_all;
use oracle::generate::scaled_rows::{scaled_formula_rows, scaled_package_rows};
use oracle::generate::untrim::with_copies;
use oracle::generate::untrimmed_rows::{untrimmed_formula_rows, untrimmed_package_rows};
use oracle::services::short_form;
use std::collections::BTreeSet;

pub fn fixed(sink: Sink) {
    let random = &mut Random::new(0, 1);
    empty_slices(sink);
    let formula = b"coef word\n1 ab\n";
    let rows = [package_rows(), package_rows_256(), scaled_package_rows(), bound_packages()];
    for row in rows.iter().flatten() {
        for service in SERVICES {
            let input =
                Input { service, package: &row.package, formula, budget: 2, out_len: 300_000, null: false };
            sink(&input);
        }
        around_list(random, &row.package, sink);
    }
    for row in formula_rows() {
        for service in [Service::ShortForm, Service::Member] {
            let (formula, budget) = (&row.formula[..], row.budget);
            sink(&Input { service, package: E.as_bytes(), formula, budget, out_len: 100, null: false });
        }
        around_formula(random, E.as_bytes(), &row.formula, sink);
    }
    for draft in [families::empty(7, 2), families::zero_relations(7, 2, 32), families::constant(7, 2, 3)] {
        let package = draft.text();
        for row in formula_rows() {
            around_formula(random, &package, &row.formula, sink);
        }
    }
    over_256(random, sink);
    formulas(random, scaled_formula_rows(), sink);
    untrimmed(random, sink);
    growing(random, sink);
    counting(sink);
}

/// Formulas over GF(256) with known answers, and the same under other packages over it.
fn over_256(random: &mut Random, sink: Sink) {
    let doubled = doubled_256().into_bytes();
    for row in formula_rows_256() {
        for service in [Service::ShortForm, Service::Member] {
            let (formula, budget) = (&row.formula[..], row.budget);
            sink(&Input { service, package: &doubled, formula, budget, out_len: 100, null: false });
        }
    }
    let others = [families::empty(256, 2), families::constant(256, 2, 255)].map(|draft| draft.text());
    let formulas: BTreeSet<Vec<u8>> = formula_rows_256().into_iter().map(|row| row.formula).collect();
    for package in others.into_iter().chain([doubled, e_256().into_bytes()]) {
        for formula in &formulas {
            around_formula(random, &package, formula, sink);
        }
    }
}

/// Packages whose leading words stand inside one another: rows with known answers, lists into room about the one
/// needed, packages at the bounds, and formulas.
fn untrimmed(random: &mut Random, sink: Sink) {
    let formula = b"coef word\n1 baab\n";
    for row in untrimmed_package_rows() {
        for service in SERVICES {
            let (package, out_len) = (&row.package[..], 1_000);
            sink(&Input { service, package, formula, budget: 2, out_len, null: false });
        }
    }
    list_rows().iter().for_each(|ListRow { package, .. }| around_list(random, package, sink));
    for row in inside_bounds() {
        let package = &row.package[..];
        sink(&Input { service: Service::Check, package, formula: b"", budget: 0, out_len: 0, null: false });
        if row.check.0 == 0 {
            list_edges(package, sink);
            let (service, out_len) = (Service::ShortForm, 100);
            sink(&Input { service, package, formula, budget: 1, out_len, null: false });
        }
    }
    formulas(random, untrimmed_formula_rows(), sink);
}

/// Formulas with known answers under packages of their own, and around those of them that get a short form.
fn formulas(random: &mut Random, packages: Vec<(String, Vec<FormulaRow>)>, sink: Sink) {
    for (package, rows) in packages {
        let package = package.as_bytes();
        for FormulaRow { formula, budget, .. } in &rows {
            for service in [Service::ShortForm, Service::Member] {
                sink(&Input { service, package, formula, budget: *budget, out_len: 100, null: false });
            }
        }
        let answered = rows.iter().filter(|row| row.number == 0);
        let formulas: BTreeSet<&[u8]> = answered.map(|row| &row.formula[..]).collect();
        formulas.into_iter().for_each(|formula| around_formula(random, package, formula, sink));
    }
}

/// Slices of length 0, as NULL and not.
fn empty_slices(sink: Sink) {
    let (package, formula) = (E.as_bytes(), &b"coef word\n1 ab\n"[..]);
    for null in [false, true] {
        for service in SERVICES {
            for package in [package, b""] {
                for formula in [formula, b""] {
                    for out_len in [0, 100] {
                        sink(&Input { service, package, formula, budget: 1, out_len, null });
                    }
                }
            }
        }
    }
}

/// Formulas that grow to 512 terms and over. A basis polynomial of t terms makes 48 + k (t - 2) terms of 48
/// in k steps: 512 for t 31 and k 16, 513 for t 33 and k 15, and t 48 is document 01's example.
fn growing(random: &mut Random, sink: Sink) {
    for p in [2, 7, 256, 65_521] {
        for terms in [31, 33, 48] {
            let package = spreading(random, p, terms).text();
            for reducible in [10, 11, 14, 15, 16, 17, 48] {
                let formula = formula_text(&spreading_formula(random, p, 48, reducible));
                around_formula(random, &package, &formula, sink);
                // A short form of more than 48 terms does not read as a formula.
                if let Some(output) = short_form(&package, &formula, u32::MAX, usize::MAX).output {
                    around_formula(random, &package, &output, sink);
                }
            }
        }
    }
    // The same with other leading coefficients than 1, and with the polynomial twice.
    for p in [7, 256, 65_521] {
        for (terms, reducible) in [(31, 16), (31, 17), (33, 14), (33, 15)] {
            let mut draft = spreading(random, p, terms);
            let copied = with_copies(&draft, &[1]).expect("a difference that is zero");
            for draft in [&mut draft, &mut copied.clone()] {
                scale_all(random, draft);
                let formula = formula_text(&spreading_formula(random, p, 48, reducible));
                around_formula(random, &draft.text(), &formula, sink);
            }
        }
    }
}

/// 2^17 - 1 steps: more than 16 bits count.
fn counting(sink: Sink) {
    let package = &families::counter(65_521, 17).text()[..];
    let formula = &b"coef word\n1 aaaaaaaaaaaaaaaaac\n"[..];
    let steps = (1 << 17) - 1;
    for (service, budget) in
        [(Service::ShortForm, steps), (Service::ShortForm, steps - 1), (Service::Member, u32::MAX)]
    {
        sink(&Input { service, package, formula, budget, out_len: 100, null: false });
    }
}
