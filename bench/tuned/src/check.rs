//! The sums of a package: refusals 10 to 15.

use crate::block::{compare, Frame, Long, SHORT};
use crate::field::Field;
use crate::package::Package;
use crate::pairs::{pairs, Pair};
use crate::sums::SumLine;
use crate::terms::Poly;
use crate::working::{Working, MOST};
use crate::{refuse, Refusal};

/// The sum lines that are not yet taken, with the number of the first.
struct Lines<'a> {
    sums: &'a [SumLine],
    line: usize,
}

impl Lines<'_> {
    /// The next line, if it is one of the item.
    #[inline(always)]
    fn next(&mut self, kind: u8, item: usize) -> Option<SumLine> {
        let (sum, rest) = self.sums.split_first()?;
        if sum.kind != kind || sum.item as usize != item {
            return None;
        }
        self.sums = rest;
        self.line += 1;
        Some(*sum)
    }

    /// The number of the line that `next` gave.
    fn last(&self) -> usize {
        self.line - 1
    }
}

fn no_sides() -> Frame {
    Frame::new([0; SHORT], 0, [0; SHORT], 0)
}

/// B items with 10 and 11, G items with 10 and 12, then 15, then O items with 14, 10 and 13. Gives the count of pairs.
pub fn judge_sums<F: Field>(
    field: F,
    package: &Package,
    inverses: &[u32; 64],
    working: &mut Working,
) -> Result<usize, Refusal> {
    let mut lines = Lines { sums: &package.sums, line: package.first_line };
    for item in 0..package.basis {
        working.start(field, 1, &mut no_sides(), package.basis_poly(item));
        judge_sum(field, package, working, &mut lines, (0, item), 11, |of| package.relation(of))?;
    }
    for item in 0..package.gens {
        working.start(field, 1, &mut no_sides(), package.relation(item));
        judge_sum(field, package, working, &mut lines, (1, item), 12, |of| package.basis_poly(of))?;
    }
    let list = pairs(package);
    if let Some(k) = lines.sums.iter().position(|sum| sum.item as usize > list.len()) {
        return refuse(15, lines.line + k);
    }
    for (item, pair) in list.iter().enumerate() {
        judge_pair(field, package, inverses, working, &mut lines, (item, *pair))?;
    }
    Ok(list.len())
}

/// Takes the lines of a B or G item away from its target.
#[inline(always)]
fn judge_sum<'a, F: Field>(
    field: F,
    package: &Package,
    working: &mut Working,
    lines: &mut Lines,
    (kind, item): (u8, usize),
    wrong: u32,
    poly: impl Fn(usize) -> Poly<'a>,
) -> Result<(), Refusal> {
    while let Some(sum) = lines.next(kind, item + 1) {
        let frame = &mut sum.frame(package.bytes);
        working.add(field, field.minus(sum.coef), frame, poly(sum.of.into()));
        if working.len() > MOST {
            return refuse(10, lines.last());
        }
    }
    if working.len() > 0 {
        return refuse(wrong, item + 1);
    }
    Ok(())
}

/// Takes the lines of a pair away from its difference, first × rest - left × second × right, each side of which is divided
/// by its leading coefficient. An overlap has no right, and an inclusion no rest.
#[inline(always)]
fn judge_pair<F: Field>(
    field: F,
    package: &Package,
    inverses: &[u32; 64],
    working: &mut Working,
    lines: &mut Lines,
    (item, pair): (usize, Pair),
) -> Result<(), Refusal> {
    let (first, second) = (package.basis_poly(pair.first.into()), package.basis_poly(pair.second.into()));
    let (shared, at) = (usize::from(pair.shared), usize::from(pair.at));
    let mut behind = Frame::new([0; SHORT], 0, second.lead_from(shared), second.lead_len() - shared);
    working.start(field, inverses[usize::from(pair.first)], &mut behind, first);
    let (end, right) = (at + shared, first.lead_len() - at - shared);
    let mut around = Frame::new(first.lead_from(0), at, first.lead_from(end), right);
    working.add(field, field.minus(inverses[usize::from(pair.second)]), &mut around, second);

    // The overlap word is left × second leading word × right, too.
    let top_len = around.put(second.lead_from(0), second.lead_len());
    let top = *around.word();
    while let Some(sum) = lines.next(2, item + 1) {
        let poly = package.basis_poly(sum.of.into());
        let mut frame = sum.frame(package.bytes);
        if !is_below(sum, poly, &mut frame, &top, top_len) {
            return refuse(14, lines.last());
        }
        working.add(field, field.minus(sum.coef), &mut frame, poly);
        if working.len() > MOST {
            return refuse(10, lines.last());
        }
    }
    if working.len() > 0 {
        return refuse(13, item + 1);
    }
    Ok(())
}

/// Whether left × leading word × right of a line is below the overlap word.
#[inline(always)]
fn is_below(sum: SumLine, poly: Poly, frame: &mut Frame, top: &Long, top_len: usize) -> bool {
    let len = sum.sides() + poly.lead_len();
    if len != top_len {
        return len < top_len;
    }
    frame.put(poly.lead_from(0), poly.lead_len());
    compare(frame.word(), top, len).is_lt()
}
