//! Packages and formulas over GF(256) whose answers are fixed by the requirements, and other powers of primes
//! in place of p.

use crate::generate::edits::{changed, made, E};
use crate::generate::formula_rows::{text, FormulaRow};
use crate::generate::package_rows::Row;

/// E over GF(256), where minus 1 is 1.
pub fn e_256() -> String {
    E.replacen("7 2 1 2", "256 2 1 2", 1).replace(" 6 ", " 1 ")
}

/// The basis polynomial `ab` + 128 `b` + 3, which overlaps nothing, and two relations: itself, and itself times
/// 2, since 2 × 128 = 29 and 2 × 3 = 6.
pub fn doubled_256() -> String {
    let relations = ["G 1 1 ab", "G 1 128 b", "G 1 3 -", "G 2 2 ab", "G 2 29 b", "G 2 6 -"];
    let basis = ["B 1 1 ab", "B 1 128 b", "B 1 3 -"];
    let sums = ["B 1 1 - 1 -", "G 1 1 - 1 -", "G 2 2 - 1 -"];
    made("256 2 2 1", &[&relations[..], &basis[..]].concat(), &sums)
}

pub fn package_rows_256() -> Vec<Row> {
    let mut rows = Rows(Vec::new());
    rows.fields();
    rows.coefficients();
    rows.table();
    rows.sums();
    rows.products();
    rows.0
}

struct Rows(Vec<Row>);

impl Rows {
    fn put(&mut self, package: String, number: u64, place: u64, overlaps: u64) {
        self.0.push(Row { package: package.into_bytes(), check: (number, place, overlaps) });
    }

    /// 256 and no other power of a prime.
    fn fields(&mut self) {
        self.put(made("256 1 0 0", &[], &[]), 0, 0, 0);
        let small = [4, 8, 9, 16, 25, 27, 32, 49, 64, 81, 121, 125, 128, 243, 255];
        for p in small.into_iter().chain([258, 343, 512, 625, 1_024, 65_025, 65_536]) {
            self.put(made(&format!("{p} 1 0 0"), &[], &[]), 3, 2, 0);
        }
        self.put(made("256 27 0 0", &[], &[]), 4, 2, 0);
        self.put(made("0256 1 0 0", &[], &[]), 2, 2, 0);
        // B 2 is its sum where a coefficient is minus 1: 6 is that in GF(7) and not here, 1 not in GF(257).
        self.put(e_256(), 0, 0, 2);
        self.put(changed(E, "7 2 1 2", "256 2 1 2"), 11, 2, 0);
        self.put(changed(&e_256(), "256 2 1 2", "257 2 1 2"), 11, 2, 0);
    }

    /// 1 to 255, in terms and in sums. A basis polynomial with one coefficient changed is not its sum.
    fn coefficients(&mut self) {
        let e = e_256();
        for (coef, number) in [("0", 5), ("256", 5), ("257", 5), ("99999", 5), ("01", 2), ("0255", 2)] {
            self.put(changed(&e, "G 1 1 b", &format!("G 1 {coef} b")), number, 5, 0);
            self.put(changed(&e, "B 1 1 - 1 -", &format!("B 1 {coef} - 1 -")), number, 11, 0);
        }
        self.put(changed(&e, "G 1 1 b", "G 1 255 b"), 11, 1, 0);
        self.put(changed(&e, "B 1 1 - 1 -", "B 1 255 - 1 -"), 11, 1, 0);
        self.put(changed(&e, "B 1 1 aa", "B 1 255 aa"), 11, 1, 0);
    }

    /// The inputs of the table of refusals, made with E over GF(256).
    fn table(&mut self) {
        let e = e_256();
        self.put(changed(&e, "G 1 1 aa\nG 1 1 b\n", "G 1 1 b\nG 1 1 aa\n"), 6, 5, 0);
        self.put(changed(&e, "B 1 1 aa\nB 1 1 b\n", ""), 8, 1, 0);
        self.put(changed(&e, "256 2 1 2", "256 2 1 3"), 8, 3, 0);
        self.put(changed(&e, "B 2 1 ab", "B 2 1 aab"), 11, 2, 0);
        self.put(changed(&e, "B 2 1 a 1 -\n", ""), 11, 2, 0);
        self.put(changed(&e, "G 1 1 - 1 -\n", ""), 12, 1, 0);
        self.put(changed(&e, "O 1 1 - 2 -\n", ""), 13, 1, 0);
        self.put(changed(&e, "O 1 1 - 2 -", "O 1 1 a 1 -"), 14, 15, 0);
        self.put(format!("{e}O 3 1 - 1 -\n"), 15, 18, 0);
        // The overlap certified by its own two products, and lines that cancel but are not below.
        self.put(changed(&e, "O 1 1 - 2 -", "O 1 1 - 1 a\nO 1 1 a 1 -"), 14, 15, 0);
        self.put(changed(&e, "O 1 1 - 2 -", "O 1 1 - 2 -\nO 1 9 a 1 -\nO 1 9 a 1 -"), 14, 16, 0);
    }

    /// Lines add by exclusive or: 200 + 201 = 1, 128 + 129 = 1, 1 + 2 + 3 = 0, and two equal lines cancel.
    fn sums(&mut self) {
        let e = e_256();
        self.put(changed(&e, "B 1 1 - 1 -", "B 1 200 - 1 -\nB 1 201 - 1 -"), 0, 0, 2);
        let cancelling = "B 1 128 - 1 -\nB 1 129 - 1 -\nB 1 77 b 1 b\nB 1 77 b 1 b";
        self.put(changed(&e, "B 1 1 - 1 -", cancelling), 0, 0, 2);
        let cancelling = "G 1 1 - 1 -\nG 1 1 b 1 -\nG 1 2 b 1 -\nG 1 3 b 1 -";
        self.put(changed(&e, "G 1 1 - 1 -", cancelling), 0, 0, 2);
        // 255 + 2 is 253 here, and 1 modulo 256.
        self.put(changed(&e, "B 1 1 - 1 -", "B 1 255 - 1 -\nB 1 2 - 1 -"), 11, 1, 0);
    }

    /// Products and inverses. 2 × 128 is 29. Modulo x^8 + x^4 + x^3 + x + 1 it would be 27, and modulo 255 it
    /// is 1.
    fn products(&mut self) {
        let doubled = doubled_256();
        self.put(doubled.clone(), 0, 0, 0);
        for wrong in ["G 2 28 b", "G 2 27 b", "G 2 1 b", "G 2 255 b"] {
            self.put(changed(&doubled, "G 2 29 b", wrong), 12, 2, 0);
        }
        self.put(changed(&doubled, "256 2 2 1", "257 2 2 1"), 12, 2, 0);
        // 2 × 142 is x × (x^7 + x^3 + x^2 + x) = x^8 + x^4 + x^3 + x^2 = 1. The inverse of 2 is 129 in
        // GF(257), and would be 141 with the other polynomial.
        for (inverse, number, place) in [("142", 0, 0), ("129", 11, 1), ("141", 11, 1)] {
            let sums = [&format!("B 1 {inverse} - 1 -")[..], "G 1 2 - 1 -"];
            self.put(made("256 1 1 1", &["G 1 2 -", "B 1 1 -"], &sums), number, place, 0);
        }
    }
}

/// Formulas under `doubled_256`.
pub fn formula_rows_256() -> Vec<FormulaRow> {
    let mut rows = Vec::new();
    // A step puts 128 `b` + 3 in place of `ab`, times the coefficient: minus is plus. 128 × 128 = 19, 3 × 3 = 5
    // and 3 × 128 = 128 + 29 = 157.
    for (terms, short, steps) in [
        ("1 ab", "128 b,3 -", 1),
        ("2 ab", "29 b,6 -", 1),
        ("128 ab", "19 b,157 -", 1),
        ("3 ab", "157 b,5 -", 1),
        ("2 ab,29 b,6 -", "", 1),
        ("2 ab,29 b,5 -", "3 -", 1),
        ("2 ab,1 b,6 -", "28 b", 1),
        ("1 aba,128 ba,3 a", "", 1),
        // 3 `a` cancels, and 128 `ab` is left for the second step.
        ("1 aab,3 a", "19 b,157 -", 2),
        ("255 a,255 -", "255 a,255 -", 0),
        ("", "", 0),
    ] {
        for budget in [steps, u32::MAX] {
            rows.push(FormulaRow::reduced(terms, short, steps, budget));
        }
        for budget in 0..steps {
            rows.push(FormulaRow::refused(text(terms), budget, 18, budget.into()));
        }
    }
    for line in ["0 a", "256 a", "257 a", "65535 a", "99999 a", "0255 a", "1 c"] {
        rows.push(FormulaRow::refused(text(line), 9, 16, 2));
    }
    rows.push(FormulaRow::refused(text("255 ab,256 b"), 9, 16, 3));
    rows
}

#[cfg(test)]
mod tests {
    use super::*;

    #[test]
    fn rows_hold() {
        package_rows_256().iter().for_each(Row::assert_holds);
        let package = doubled_256();
        formula_rows_256().iter().for_each(|row| row.assert_holds(package.as_bytes()));
    }
}
