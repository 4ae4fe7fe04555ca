//! Calls around the edges of one package or one formula: budgets about the steps needed, and output lengths
//! about the bytes needed.

use crate::input::{Input, Service};
use oracle::generate::random::Random;
use oracle::services::{list_overlaps, short_form};

/// What takes each input.
pub type Sink<'a> = &'a mut dyn FnMut(&Input);

/// A formula that needs more steps than this is only called with budgets up to it.
const STEPS: u32 = 1_500;

/// Output lengths about the bytes needed.
fn lengths(random: &mut Random, need: usize) -> [usize; 5] {
    [0, need.max(1) - 1, need, need + 1, need + random.below(300) as usize]
}

/// Lists a package into outputs of lengths about the one needed.
pub fn around_list(random: &mut Random, package: &[u8], sink: Sink) {
    let need = list_overlaps(package, usize::MAX).output.map_or(0, |output| output.len());
    for out_len in lengths(random, need) {
        let null = random.one_in(2);
        sink(&Input { service: Service::List, package, formula: b"", budget: 0, out_len, null });
    }
}

/// Lists a package into a byte too few and into just enough: for lists that are long.
pub fn list_edges(package: &[u8], sink: Sink) {
    let need = list_overlaps(package, usize::MAX).output.map_or(0, |output| output.len());
    for out_len in [need.max(1) - 1, need] {
        sink(&Input { service: Service::List, package, formula: b"", budget: 0, out_len, null: true });
    }
}

/// Short form and membership with budgets about the steps needed, and outputs about the bytes needed.
pub fn around_formula(random: &mut Random, package: &[u8], formula: &[u8], sink: Sink) {
    let answer = short_form(package, formula, STEPS, usize::MAX);
    let need = answer.output.map_or(0, |output| output.len());
    let lengths = lengths(random, need);
    let budgets = match answer.number {
        0 => around_budget(answer.count as u32),
        17 => around_budget(answer.place as u32),
        18 => vec![0, random.below(STEPS.into()) as u32, STEPS],
        _ => vec![*random.pick(&[0, 1, u32::MAX])],
    };
    for budget in budgets {
        let null = random.one_in(2);
        let mut call = |service, out_len| sink(&Input { service, package, formula, budget, out_len, null });
        // Room enough, and one other length: every budget meets its own refusal, and 19 comes last.
        call(Service::ShortForm, need + 1);
        call(Service::ShortForm, *random.pick(&lengths));
        call(Service::Member, 0);
    }
    if answer.number == 0 {
        for out_len in lengths {
            let (service, budget) = (Service::ShortForm, u32::MAX);
            sink(&Input { service, package, formula, budget, out_len, null: random.one_in(2) });
        }
    }
}

/// 0, one below, just, one above, and the greatest budget.
fn around_budget(steps: u32) -> Vec<u32> {
    vec![0, steps.max(1) - 1, steps, steps + 1, u32::MAX]
}
