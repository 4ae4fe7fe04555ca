//! Checking a package: refusals 8 to 15 of a package that reads, in their order.

use crate::coefficients::negative;
use crate::leads::judge_zeros;
use crate::list::{differences, list, Entry};
use crate::package::{read, Package, SumLine};
use crate::poly::{add_multiple, lead_word, Poly};
use crate::refusal::{refuse, Refusal};

/// The most terms that target minus sum may have after a sum line.
const SUM_TERMS: usize = 512;

/// Reads and checks a package. Gives it with its list when every fact of acceptance holds.
pub fn accept(bytes: &[u8]) -> Result<(Package, Vec<Entry>), Refusal> {
    let package = read(bytes)?;
    judge_zeros(&package)?;
    let list = list(&package.basis);
    judge_sums(&package, &list)?;
    Ok((package, list))
}

/// B items (10, 11), G items (10, 12), then 15, then O items (14, 10, 13).
fn judge_sums(package: &Package, list: &[Entry]) -> Result<(), Refusal> {
    let Package { p, relations, basis, .. } = package;
    for (item, (target, lines)) in (1..).zip(basis.iter().zip(&package.b_sums)) {
        judge_sum(*p, target.clone(), lines, relations, (11, item), |_| true)?;
    }
    for (item, (target, lines)) in (1..).zip(relations.iter().zip(&package.g_sums)) {
        judge_sum(*p, target.clone(), lines, basis, (12, item), |_| true)?;
    }
    let count = list.len() as u64;
    if let Some((_, lines)) = package.o_sums.range(count + 1..).next() {
        return refuse(15, lines[0].line);
    }
    let no_lines = Vec::new();
    for (item, (entry, difference)) in (1..).zip(list.iter().zip(differences(*p, basis, list))) {
        let lines = package.o_sums.get(&item).unwrap_or(&no_lines);
        let top = entry.word(basis);
        let below = |sum: &SumLine| {
            let lead = lead_word(&basis[sum.of as usize - 1]);
            sum.left.times(lead).times(&sum.right) < top
        };
        judge_sum(*p, difference, lines, basis, (13, item), below)?;
    }
    Ok(())
}

/// Takes the lines of one item away from its target, one after the other. A line multiplies its polynomial as it
/// stands, whatever that leads with. A line that is not `below` gets 14; a line that leaves over 512 terms gets
/// 10; a rest at the end gets `wrong`, a number with its place.
fn judge_sum(
    p: u64,
    target: Poly,
    lines: &[SumLine],
    polys: &[Poly],
    wrong: (u64, u64),
    below: impl Fn(&SumLine) -> bool,
) -> Result<(), Refusal> {
    let mut rest = target;
    for sum in lines {
        if !below(sum) {
            return refuse(14, sum.line);
        }
        let poly = &polys[sum.of as usize - 1];
        add_multiple(p, &mut rest, negative(p, sum.coef), &sum.left, poly, &sum.right);
        if rest.len() > SUM_TERMS {
            return refuse(10, sum.line);
        }
    }
    if rest.is_empty() {
        Ok(())
    } else {
        refuse(wrong.0, wrong.1)
    }
}
