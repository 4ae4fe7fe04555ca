//! One round of random inputs about one valid package.

use crate::input::{Input, SERVICES};
use crate::surround::{around_formula, around_list, Sink};
use oracle::formula::formula_text;
use oracle::generate::bound_packages::near_bound;
use oracle::generate::damage_draft::{aim, Aim};
use oracle::generate::damage_text::damage;
use oracle::generate::draft::Draft;
use oracle::generate::formulas::Ground;
use oracle::generate::growth::{growing_sum, meeting_formula, spreading, spreading_formula, Lines, TARGETS};
use oracle::generate::random::Random;
use oracle::generate::relations::field;
use oracle::generate::scale::scale_some;
use oracle::generate::untrim::untrimmed;
use oracle::generate::valid::valid;

/// How many rounds one of them takes an example package instead of a generated one.
const EXAMPLE: u64 = 40;

/// What `aim` is asked for: what needs more than one line to be reached stands more than once.
const AIMS: [Aim; 22] = [
    Aim::P,
    Aim::Counts,
    Aim::Bounds,
    Aim::Bounds,
    Aim::Order,
    Aim::Order,
    Aim::Zero,
    Aim::BasisSum,
    Aim::RelationSum,
    Aim::ListSum,
    Aim::ListSum,
    Aim::OtherList,
    Aim::OtherList,
    Aim::NotBelow,
    Aim::NotBelow,
    Aim::NotBelow,
    Aim::AboveCount,
    Aim::AboveCount,
    Aim::LeadingWord,
    Aim::LeadingWord,
    Aim::Exchange,
    Aim::Coefficient,
];

pub fn round(random: &mut Random, examples: &[Draft], sink: Sink) {
    let draft = if random.one_in(EXAMPLE) { example(random, examples) } else { valid(random) };
    let ground = Ground::of(&draft);
    let package = draft.text();
    all_services(random, &package, b"coef word\n", sink);
    around_list(random, &package, sink);
    for _ in 0..2 {
        let formula = ground.formula(random);
        around_formula(random, &package, &formula, sink);
        for _ in 0..2 {
            let damaged = damage(random, &formula);
            around_formula(random, &package, &damaged, sink);
        }
    }
    for _ in 0..6 {
        let formula = ground.formula(random);
        let damaged = damage(random, &package);
        all_services(random, &damaged, &formula, sink);
    }
    for _ in 0..8 {
        let mut aimed = draft.clone();
        // Two faults in one package show which refusal comes first.
        for _ in 0..random.between(1, 2) {
            let at = *random.pick(&AIMS);
            aim(random, &mut aimed, at);
        }
        let formula = ground.formula(random);
        let mut text = aimed.text();
        if random.one_in(6) {
            text = damage(random, &text);
        }
        all_services(random, &text, &formula, sink);
    }
    if random.one_in(8) {
        growing(random, sink);
    }
    if random.one_in(16) {
        let p = field(random);
        let mut package = near_bound(random, p);
        if random.one_in(2) {
            package = damage(random, &package);
        }
        all_services(random, &package, b"coef word\n1 abab\n", sink);
    }
}

/// An example package, often with more basis polynomials or with other leading coefficients.
fn example(random: &mut Random, examples: &[Draft]) -> Draft {
    let mut draft = random.pick(examples).clone();
    if random.one_in(2) {
        draft = untrimmed(random, &draft).unwrap_or(draft);
    }
    scale_some(random, &mut draft);
    draft
}

/// The four services on one package, the formula damaged now and then.
fn all_services(random: &mut Random, package: &[u8], formula: &[u8], sink: Sink) {
    let formula = if random.one_in(4) { damage(random, formula) } else { formula.to_vec() };
    for service in SERVICES {
        let budget = random.below(200) as u32;
        let out_len = if random.one_in(4) { random.below(200) } else { 2_000 } as usize;
        let null = random.one_in(2);
        sink(&Input { service, package, formula: &formula, budget, out_len, null });
    }
}

/// A sum and a formula that come near 512 terms.
fn growing(random: &mut Random, sink: Sink) {
    let p = field(random);
    let target = *random.pick(&TARGETS);
    let top = random.between(505, 520) as usize;
    let lines = if random.one_in(2) { Lines::Mixed } else { Lines::UpAndDown };
    let mut draft = growing_sum(random, p, target, top, lines);
    scale_some(random, &mut draft);
    all_services(random, &draft.text(), b"coef word\n1 acac\n", sink);
    let terms = random.between(20, 48) as usize;
    let mut draft = spreading(random, p, terms);
    scale_some(random, &mut draft);
    let package = draft.text();
    let formula = if random.one_in(2) {
        let (terms, reducible) = (random.between(40, 48) as usize, random.between(8, 40) as usize);
        spreading_formula(random, p, terms, reducible)
    } else {
        meeting_formula(random, p, 48)
    };
    around_formula(random, &package, &formula_text(&formula), sink);
}
