//! Every small change of some kinds: all cuts of E, all its lines dropped, doubled and exchanged, some bytes
//! put at every place; many values of p; every product of two elements of GF(256) other than 0; every pair of
//! leading coefficients of E, and inverses of leading coefficients in many fields; and every few short leading words,
//! inside one another or not.

use crate::input::{Input, Service, SERVICES};
use crate::surround::Sink;
use oracle::formula::formula_text;
use oracle::generate::draft::Draft;
use oracle::generate::edits::{made, E};
use oracle::generate::families::monomials;
use oracle::generate::inverses::{every_inverse, Inverses};
use oracle::generate::products::every_product;
use oracle::generate::rows_256::e_256;
use oracle::generate::scale::scale;
use oracle::generate::scaled_rows::scaled_e;
use oracle::generate::small_words::{every_basis, every_word};
use oracle::generate::untrim::{in_order, with_copies};
use oracle::generate::untrimmed_rows::longer_way;
use oracle::package::read;
use oracle::poly::{lead_word, Poly};
use oracle::word::Word;

const FORMULA: &[u8] = b"coef word\n1 aba\n";

pub fn exhaustive(sink: Sink) {
    for end in 0..E.len() {
        all_services(&E.as_bytes()[..end], FORMULA, sink);
    }
    for end in 0..FORMULA.len() {
        all_services(E.as_bytes(), &FORMULA[..end], sink);
    }
    every_line(E, sink);
    every_line(&e_256(), sink);
    every_line(&scaled_e(), sink);
    for place in 0..E.len() {
        for byte in b" \n0a-" {
            let mut bytes = E.as_bytes().to_vec();
            bytes[place] = *byte;
            check_and_list(&bytes, sink);
        }
    }
    every_p(sink);
    for (package, formulas) in every_product() {
        for formula in &formulas {
            let (service, budget, out_len) = (Service::ShortForm, 48, 10_000);
            sink(&Input { service, package: &package, formula, budget, out_len, null: false });
        }
    }
    every_lead(sink);
    every_few_words(sink);
    every_order(sink);
}

/// Every two monomials of up to three letters, and every three of up to two, the empty word among them: checked,
/// listed, and all words of up to three letters brought to a short form. Of three each has its own leading coefficient.
fn every_few_words(sink: Sink) {
    let formula = formula_text(&every_word(3).into_iter().map(|word| (word, 1)).collect());
    for basis in every_basis(2, 3).chain(every_basis(3, 2)) {
        let words: Vec<Word> = basis.iter().map(|f| lead_word(f).clone()).collect();
        let mut draft = monomials(7, 2, &words);
        if words.len() == 3 {
            (1..=3).for_each(|item| scale(&mut draft, item, item + 1));
        }
        let (package, formula) = (&draft.text()[..], &formula[..]);
        for service in [Service::Check, Service::List, Service::ShortForm] {
            sink(&Input { service, package, formula, budget: 15, out_len: 1_000, null: false });
        }
    }
}

/// E with two more polynomials, in every order of the four: by the lower number, words take more steps or fewer.
fn every_order(sink: Sink) {
    let draft = longer_way_twice();
    for order in orders(4) {
        let package = &in_order(&draft, &order).expect("differences of an ideal's polynomials").text()[..];
        let mut call = |service, formula: &[u8]| {
            sink(&Input { service, package, formula, budget: 9, out_len: 1_000, null: false })
        };
        call(Service::Check, b"");
        call(Service::List, b"");
        for word in every_word(4).into_iter().filter(|word| word.len() == 4) {
            call(Service::ShortForm, &formula_text(&Poly::from([(word, 1)])));
        }
    }
}

/// E with `aab` - `aba` and with `ab` - `ba` once more.
fn longer_way_twice() -> Draft {
    let package = longer_way(&[1, 2, 3]);
    let draft = Draft::of_package(&read(package.as_bytes()).expect("a package that reads"));
    with_copies(&draft, &[2]).expect("differences of an ideal's polynomials")
}

/// Every order of the numbers 1 to n.
fn orders(n: u64) -> Vec<Vec<u64>> {
    if n == 0 {
        return vec![Vec::new()];
    }
    let with_last = |order: Vec<u64>| {
        (0..=order.len()).map(move |place| [&order[..place], &[n], &order[place..]].concat())
    };
    orders(n - 1).into_iter().flat_map(with_last).collect()
}

/// E with every pair of leading coefficients, over GF(256) each element and another; and inverses in many fields.
fn every_lead(sink: Sink) {
    let pairs = (1..7).flat_map(|c| (1..7).map(move |d| (c, d)));
    let scaled = pairs.map(|(c, d)| times(E, c, d));
    // 7 × c modulo 255 meets every residue, so each element is a second leading coefficient too.
    let over_256 = (1..256).map(|c| times(&e_256(), c, 7 * c % 255 + 1));
    for package in scaled.chain(over_256) {
        for service in [Service::Check, Service::ShortForm] {
            let (formula, budget, out_len) = (FORMULA, 2, 100);
            sink(&Input { service, package: &package, formula, budget, out_len, null: false });
        }
    }
    for Inverses { package, formulas, .. } in every_inverse() {
        for formula in &formulas {
            let (service, budget, out_len) = (Service::ShortForm, 32, 10_000);
            sink(&Input { service, package: &package, formula, budget, out_len, null: false });
        }
    }
}

/// A package of two basis polynomials, each multiplied.
fn times(package: &str, first: u64, second: u64) -> Vec<u8> {
    let mut draft = Draft::of_package(&read(package.as_bytes()).expect("a package that reads"));
    scale(&mut draft, 1, first);
    scale(&mut draft, 2, second);
    draft.text()
}

/// Each line dropped and doubled, and each two exchanged.
fn every_line(text: &str, sink: Sink) {
    let lines: Vec<&str> = text.lines().collect();
    for one in 0..lines.len() {
        let mut dropped = lines.clone();
        dropped.remove(one);
        ended(&dropped, sink);
        let mut doubled = lines.clone();
        doubled.insert(one, lines[one]);
        ended(&doubled, sink);
        for other in one + 1..lines.len() {
            let mut exchanged = lines.clone();
            exchanged.swap(one, other);
            ended(&exchanged, sink);
        }
    }
}

/// Every p near the ends of the bounds, and every square of a prime that p is divided by. Every number near 256
/// and, below 1,030, squares and higher powers of primes, also with coefficients p - 1 and p in the package and
/// in the formula.
fn every_p(sink: Sink) {
    let squares = (2..256u64).map(|n| n * n);
    for p in (0..1_100).chain(65_400..65_600).chain(squares).chain([97_343, 99_991, 99_999]) {
        check_and_list(made(&format!("{p} 1 0 0"), &[], &[]).as_bytes(), sink);
    }
    let formula = |coef: u64| format!("coef word\n{coef} ab\n");
    for p in (2..1_030).filter(|p| (250..=262).contains(p) || is_higher_power(*p)) {
        for coef in [p - 1, p] {
            // The relation and basis polynomial `ab` + coef `b`, which overlaps nothing.
            let terms = ["G 1 1 ab", &format!("G 1 {coef} b"), "B 1 1 ab", &format!("B 1 {coef} b")];
            let package = made(&format!("{p} 2 1 1"), &terms, &["B 1 1 - 1 -", "G 1 1 - 1 -"]);
            for service in SERVICES {
                for formula in [formula(p - 1), formula(p)] {
                    let (package, formula) = (package.as_bytes(), formula.as_bytes());
                    sink(&Input { service, package, formula, budget: 2, out_len: 100, null: true });
                }
            }
        }
    }
}

/// Whether n is the square or a higher power of a prime: its least divisor is the only prime that divides it.
fn is_higher_power(n: u64) -> bool {
    let least = (2..=n).find(|d| n.is_multiple_of(*d)).expect("n divides n");
    let mut rest = n;
    while rest.is_multiple_of(least) {
        rest /= least;
    }
    rest == 1 && least < n
}

fn all_services(package: &[u8], formula: &[u8], sink: Sink) {
    for service in SERVICES {
        sink(&Input { service, package, formula, budget: 2, out_len: 100, null: true });
    }
}

fn check_and_list(package: &[u8], sink: Sink) {
    for service in [Service::Check, Service::List] {
        sink(&Input { service, package, formula: b"", budget: 0, out_len: 100, null: false });
    }
}

fn ended(lines: &[&str], sink: Sink) {
    let text: String = lines.iter().map(|line| format!("{line}\n")).collect();
    check_and_list(text.as_bytes(), sink);
}
