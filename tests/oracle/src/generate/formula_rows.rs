//! Formulas whose answers under E are fixed by the requirements.

/// A formula, a budget, and what the short form service answers into enough room.
pub struct FormulaRow {
    pub formula: Vec<u8>,
    pub budget: u32,
    pub number: u64,
    pub place: u64,
    pub steps: u64,
    /// The text written, for number 0.
    pub output: String,
}

impl FormulaRow {
    /// A formula that gets a short form: the terms of both, parted by commas, and the steps.
    pub fn reduced(terms: &str, short: &str, steps: u32, budget: u32) -> FormulaRow {
        let (formula, output) = (text(terms), lines(short));
        FormulaRow { formula, budget, number: 0, place: 0, steps: steps.into(), output }
    }

    pub fn refused(formula: Vec<u8>, budget: u32, number: u64, place: u64) -> FormulaRow {
        FormulaRow { formula, budget, number, place, steps: 0, output: String::new() }
    }

    /// Fails where the oracle answers something else under this package.
    #[cfg(test)]
    pub fn assert_holds(&self, package: &[u8]) {
        use crate::services::{member, short_form};
        let shown = String::from_utf8_lossy(&self.formula[..self.formula.len().min(200)]).into_owned();
        let numbers = (self.number, self.place, self.steps);
        let answer = short_form(package, &self.formula, self.budget, 1000);
        assert_eq!((answer.number, answer.place, answer.count), numbers, "{shown}");
        assert_eq!(String::from_utf8(answer.output.unwrap_or_default()).unwrap(), self.output, "{shown}");
        let answer = member(package, &self.formula, self.budget);
        assert_eq!((answer.number, answer.place, answer.count), numbers, "{shown}");
        assert_eq!(answer.member == 1, self.output == "coef word\n", "{shown}");
    }
}

pub fn formula_rows() -> Vec<FormulaRow> {
    let mut rows = Vec::new();
    // Terms, and the terms of the short form, parted by commas; steps. Budgets at and around the steps.
    for (terms, short, steps) in [
        ("1 aaa", "1 ba", 1),
        ("1 aba", "1 bb", 2),
        ("1 abab", "1 bbb", 2),
        ("1 aba,6 bb", "", 2),
        ("1 bba", "1 bba", 0),
        ("1 ab", "1 ba", 1),
        ("1 bbba,1 ab", "1 bbba,1 ba", 1),
        ("1 baab", "1 bbb", 1),
        ("1 a,1 b", "1 a,1 b", 0),
        ("3 -", "3 -", 0),
        ("", "", 0),
    ] {
        for budget in [steps, steps + 1, u32::MAX] {
            rows.push(FormulaRow::reduced(terms, short, steps, budget));
        }
        for budget in 0..steps {
            rows.push(FormulaRow::refused(text(terms), budget, 18, budget.into()));
        }
    }
    for (formula, place) in unreadable() {
        rows.push(FormulaRow::refused(formula, 9, 16, place));
    }
    rows
}

/// Formula texts that do not read under E, and the line.
fn unreadable() -> Vec<(Vec<u8>, u64)> {
    let mut list: Vec<(Vec<u8>, u64)> = Vec::new();
    for whole in ["", "coef word", "coef  word\n", "coef word \n", "word coef\n", "coef word\r\n", "\n", "x"]
    {
        list.push((whole.into(), 1));
    }
    for line in ["0 a", "7 a", "8 a", "1 c", "1 A", "1 a-", "1", "1 a a", "01 a", " 1 a", "1  a", "100000 a"]
    {
        list.push((text(line), 2));
    }
    list.push((text(&format!("1 {}", "b".repeat(25))), 2));
    list.push((format!("coef word\n{}", "1".repeat(70_000)).into(), 2));
    list.push((text("1 b,1 a"), 3));
    list.push((text("1 a,1 a"), 3));
    list.push((text("1 -,1 -"), 3));
    list.push((text("1 b,1 aa"), 3));
    list.push((b"coef word\n1 a\n\n".to_vec(), 3));
    list.push((b"coef word\n1 a\n1 b".to_vec(), 3));
    list.push((b"coef word\ncoef word\n".to_vec(), 2));
    let words = words_of_six();
    list.push((text(&words[..49].join(",")), 50));
    list.push((text(&[&words[..48], &["x".to_string()]].concat().join(",")), 50));
    list
}

/// 64 terms in falling order, each a word of six letters.
fn words_of_six() -> Vec<String> {
    let letter = |index: u32, place: u32| if index >> (5 - place) & 1 == 0 { 'a' } else { 'b' };
    (0..64)
        .map(|index| format!("1 {}", (0..6).map(|place| letter(index, place)).collect::<String>()))
        .collect()
}

/// Formulas, their short forms and the steps, with enough budget and with one that is too small.
pub fn reduced(list: &[(&str, &str, u32)]) -> Vec<FormulaRow> {
    let mut rows = Vec::new();
    for (terms, short, steps) in list {
        rows.extend([*steps, u32::MAX].map(|budget| FormulaRow::reduced(terms, short, *steps, budget)));
        rows.extend((0..*steps).map(|budget| FormulaRow::refused(text(terms), budget, 18, budget.into())));
    }
    rows
}

fn lines(terms: &str) -> String {
    let terms = terms.split(',').filter(|term| !term.is_empty());
    let below: String = terms.map(|term| format!("{term}\n")).collect();
    format!("coef word\n{below}")
}

/// A formula of these terms, parted by commas.
pub fn text(terms: &str) -> Vec<u8> {
    lines(terms).into_bytes()
}

#[cfg(test)]
mod tests {
    use super::*;
    use crate::generate::edits::E;
    use crate::services::short_form;

    #[test]
    fn rows_hold() {
        formula_rows().iter().for_each(|row| row.assert_holds(E.as_bytes()));
    }

    #[test]
    fn room_for_the_output() {
        let formula = text("1 ab");
        assert_eq!(short_form(E.as_bytes(), &formula, 1, 10).place, 15);
        assert_eq!(short_form(E.as_bytes(), &formula, 1, 14).number, 19);
        assert_eq!(short_form(E.as_bytes(), &formula, 1, 15).number, 0);
        assert_eq!(short_form(E.as_bytes(), &text(""), 1, 9).place, 10);
    }

    #[test]
    fn a_counter_counts() {
        let package = crate::generate::families::counter(7, 9).text();
        let answer = short_form(&package, &text("1 aaaaaaaaac"), u32::MAX, 99);
        assert_eq!((answer.number, answer.count, answer.output), (0, 511, Some(text("1 bbbbbbbbbc"))));
    }

    #[test]
    fn a_constant_basis_takes_a_step_for_each_term() {
        let package = crate::generate::families::constant(7, 2, 3).text();
        let formula = text("1 ab,6 b,3 -");
        let answer = short_form(&package, &formula, 3, 99);
        assert_eq!((answer.number, answer.count, answer.output), (0, 3, Some(text(""))));
        assert_eq!(short_form(&package, &formula, 2, 99).number, 18);
    }
}
