//! Packages whose basis polynomials lead with other coefficients than 1, and formulas under them, with answers
//! that are fixed by the requirements.

use crate::generate::edits::{changed, made};
use crate::generate::formula_rows::{formula_rows, reduced, FormulaRow};
use crate::generate::package_rows::Row;
use crate::generate::rows_256::formula_rows_256;

/// A package of line 2 and of lines parted by commas.
fn package(counts: &str, terms: &str, sums: &str) -> String {
    made(counts, &terms.split(',').collect::<Vec<_>>(), &sums.split(',').collect::<Vec<_>>())
}

/// E, its first basis polynomial times 3 and its second times 5. Modulo 7 each is the inverse of the other.
pub fn scaled_e() -> String {
    let terms = "G 1 1 aa,G 1 6 b,B 1 3 aa,B 1 4 b,B 2 5 ab,B 2 2 ba";
    let sums = "B 1 3 - 1 -,B 2 5 - 1 a,B 2 2 a 1 -,G 1 5 - 1 -,O 1 3 - 2 -,O 2 3 - 2 a,O 2 5 b 1 -";
    package("7 2 1 2", terms, sums)
}

/// E, its first basis polynomial times minus 1.
fn first_negative() -> String {
    let terms = "G 1 1 aa,G 1 6 b,B 1 6 aa,B 1 1 b,B 2 1 ab,B 2 6 ba";
    let sums = "B 1 6 - 1 -,B 2 1 - 1 a,B 2 6 a 1 -,G 1 6 - 1 -,O 1 1 - 2 -,O 2 1 - 2 a,O 2 6 b 1 -";
    package("7 2 1 2", terms, sums)
}

/// E, its second basis polynomial times minus 1.
fn second_negative() -> String {
    let terms = "G 1 1 aa,G 1 6 b,B 1 1 aa,B 1 6 b,B 2 6 ab,B 2 1 ba";
    let sums = "B 1 1 - 1 -,B 2 6 - 1 a,B 2 1 a 1 -,G 1 1 - 1 -,O 1 6 - 2 -,O 2 6 - 2 a,O 2 1 b 1 -";
    package("7 2 1 2", terms, sums)
}

/// E over GF(3), both basis polynomials times 2, which is minus 1 and its own inverse.
fn scaled_e_3() -> String {
    let terms = "G 1 1 aa,G 1 2 b,B 1 2 aa,B 1 1 b,B 2 2 ab,B 2 1 ba";
    let sums = "B 1 2 - 1 -,B 2 2 - 1 a,B 2 1 a 1 -,G 1 2 - 1 -,O 1 2 - 2 -,O 2 2 - 2 a,O 2 2 b 1 -";
    package("3 2 1 2", terms, sums)
}

/// E over GF(65,521), its first basis polynomial times 2, with inverse 32,761, and its second times minus 1.
fn scaled_e_65521() -> String {
    let terms = "G 1 1 aa,G 1 65520 b,B 1 2 aa,B 1 65519 b,B 2 65520 ab,B 2 1 ba";
    let b_sums = "B 1 2 - 1 -,B 2 65520 - 1 a,B 2 1 a 1 -";
    let sums = "G 1 32761 - 1 -,O 1 65520 - 2 -,O 2 65520 - 2 a,O 2 32761 b 1 -";
    package("65521 2 1 2", terms, &format!("{b_sums},{sums}"))
}

/// E over GF(256), its basis polynomials times c and d, with what is said to be their inverses.
fn scaled_e_256([c, over_c]: [u64; 2], [d, over_d]: [u64; 2]) -> String {
    let terms = format!("G 1 1 aa,G 1 1 b,B 1 {c} aa,B 1 {c} b,B 2 {d} ab,B 2 {d} ba");
    let sums = format!("B 1 {c} - 1 -,B 2 {d} - 1 a,B 2 {d} a 1 -,G 1 {over_c} - 1 -");
    let o_sums = format!("O 1 {over_d} - 2 -,O 2 {over_d} - 2 a,O 2 {over_c} b 1 -");
    package("256 2 1 2", &terms, &format!("{sums},{o_sums}"))
}

/// The relation `ab` + 6 `b` + 4 over GF(7), and as its basis polynomial three times that.
fn tripled() -> String {
    let terms = "G 1 1 ab,G 1 6 b,G 1 4 -,B 1 3 ab,B 1 4 b,B 1 5 -";
    package("7 2 1 1", terms, "B 1 3 - 1 -,G 1 5 - 1 -")
}

/// The package `doubled_256`, its basis polynomial `ab` + 128 `b` + 3 times 2, which is its second relation.
fn twice_256() -> String {
    let terms = "G 1 1 ab,G 1 128 b,G 1 3 -,G 2 2 ab,G 2 29 b,G 2 6 -,B 1 2 ab,B 1 29 b,B 1 6 -";
    package("256 2 2 1", terms, "B 1 2 - 1 -,G 1 142 - 1 -,G 2 1 - 1 -")
}

/// The same times 128. There 128 × 128 = 19, 128 × 3 = 157, the inverse is 27, and 2 × 27 = 54.
fn times_128() -> String {
    let terms = "G 1 1 ab,G 1 128 b,G 1 3 -,G 2 2 ab,G 2 29 b,G 2 6 -,B 1 128 ab,B 1 19 b,B 1 157 -";
    package("256 2 2 1", terms, "B 1 128 - 1 -,G 1 27 - 1 -,G 2 54 - 1 -")
}

/// The monomial 3 `aa` over GF(7). It overlaps itself, and the difference is zero.
fn monomial() -> String {
    package("7 2 1 1", "G 1 1 aa,B 1 3 aa", "B 1 3 - 1 -,G 1 5 - 1 -")
}

/// The constant 3 over GF(7).
fn constant() -> String {
    package("7 2 1 1", "G 1 1 -,B 1 3 -", "B 1 3 - 1 -,G 1 5 - 1 -")
}

pub fn scaled_package_rows() -> Vec<Row> {
    let mut rows = Rows(Vec::new());
    rows.accepted();
    rows.lines_of_e();
    rows.differences();
    rows.not_below();
    rows.leads();
    rows.monomials();
    rows.over_256();
    rows.0
}

struct Rows(Vec<Row>);

impl Rows {
    fn put(&mut self, package: String, number: u64, place: u64, overlaps: u64) {
        self.0.push(Row { package: package.into_bytes(), check: (number, place, overlaps) });
    }

    /// Scaled E with one part of it changed, which is refused.
    fn edit(&mut self, old: &str, new: &str, number: u64, place: u64) {
        self.put(changed(&scaled_e(), old, new), number, place, 0);
    }

    fn accepted(&mut self) {
        for package in [scaled_e(), first_negative(), second_negative(), scaled_e_3(), scaled_e_65521()] {
            self.put(package, 0, 0, 2);
        }
        for package in [tripled(), twice_256(), times_128(), constant()] {
            self.put(package, 0, 0, 0);
        }
        // A sum may still have more lines, here 1 + 2 = 3 and 4 + 3 = 0.
        let lines = "O 1 1 - 2 -\nO 1 2 - 2 -\nO 1 4 b 2 -\nO 1 3 b 2 -";
        self.put(changed(&scaled_e(), "O 1 3 - 2 -", lines), 0, 0, 2);
    }

    /// A sum line as E has it, or with the factor in place of its inverse.
    fn lines_of_e(&mut self) {
        for (line, of_e, number, item) in [
            ("B 1 3 - 1 -", "B 1 1 - 1 -", 11, 1),
            ("B 2 5 - 1 a", "B 2 1 - 1 a", 11, 2),
            ("B 2 2 a 1 -", "B 2 6 a 1 -", 11, 2),
            ("G 1 5 - 1 -", "G 1 1 - 1 -", 12, 1),
            ("G 1 5 - 1 -", "G 1 3 - 1 -", 12, 1),
            ("O 1 3 - 2 -", "O 1 1 - 2 -", 13, 1),
            ("O 1 3 - 2 -", "O 1 5 - 2 -", 13, 1),
            ("O 2 3 - 2 a", "O 2 1 - 2 a", 13, 2),
            ("O 2 3 - 2 a", "O 2 5 - 2 a", 13, 2),
            ("O 2 5 b 1 -", "O 2 1 b 1 -", 13, 2),
            ("O 2 5 b 1 -", "O 2 3 b 1 -", 13, 2),
        ] {
            self.edit(line, of_e, number, item);
        }
        // A leading coefficient alone; then the first basis polynomial as E has it, with its B sum, with its G sum.
        self.edit("B 1 3 aa", "B 1 1 aa", 11, 1);
        self.edit("B 2 5 ab", "B 2 1 ab", 11, 2);
        let mut own = changed(&scaled_e(), "B 1 3 aa\nB 1 4 b", "B 1 1 aa\nB 1 6 b");
        self.put(own.clone(), 11, 1, 0);
        own = changed(&own, "B 1 3 - 1 -", "B 1 1 - 1 -");
        self.put(own.clone(), 12, 1, 0);
        own = changed(&own, "G 1 5 - 1 -", "G 1 1 - 1 -");
        self.put(own.clone(), 13, 2, 0);
        own = changed(&own, "O 2 5 b 1 -", "O 2 1 b 1 -");
        self.put(own, 0, 0, 2);
    }

    /// O sums that are another multiple of the difference. The first difference without any division has 2.
    fn differences(&mut self) {
        for coef in [1, 2, 4, 5, 6] {
            self.edit("O 1 3 - 2 -", &format!("O 1 {coef} - 2 -"), 13, 1);
        }
        for (second, first) in [(6, 3), (2, 1), (5, 6), (1, 4), (4, 2)] {
            let lines = format!("O 2 {second} - 2 a\nO 2 {first} b 1 -");
            self.edit("O 2 3 - 2 a\nO 2 5 b 1 -", &lines, 13, 2);
        }
        for line in ["O 1 3 - 2 -\n", "O 2 3 - 2 a\n", "O 2 5 b 1 -\n"] {
            self.edit(line, "", 13, if line.starts_with("O 1") { 1 } else { 2 });
        }
    }

    /// The difference by its own two products, each divided: 5 is the inverse of 3, and 2 is minus 5.
    fn not_below(&mut self) {
        self.edit("O 1 3 - 2 -", "O 1 5 - 1 a\nO 1 2 a 1 -", 14, 15);
        self.edit("O 1 3 - 2 -", "O 1 3 - 2 -\nO 1 2 a 1 -\nO 1 5 a 1 -", 14, 16);
        self.put(format!("{}O 3 1 - 1 -\n", scaled_e()), 15, 18, 0);
    }

    /// 8 for a zero polynomial alone, also where its sum is zero. A leading word may hold another's, whatever the
    /// coefficients are; here a B sum is wrong then.
    fn leads(&mut self) {
        self.edit("7 2 1 2", "7 2 1 3", 8, 3);
        self.edit("B 1 3 aa\nB 1 4 b\n", "", 8, 1);
        self.edit("B 2 5 ab\nB 2 2 ba\n", "", 8, 2);
        self.edit("B 1 3 aa\nB 1 4 b\nB 2 5 ab\nB 2 2 ba\n", "", 8, 1);
        let zero = changed(&scaled_e(), "B 2 5 ab\nB 2 2 ba\n", "");
        self.put(changed(&zero, "B 2 5 - 1 a\nB 2 2 a 1 -\n", ""), 8, 2, 0);
        self.edit("B 2 5 ab", "B 2 5 aa", 11, 2);
        self.edit("B 2 5 ab", "B 2 5 aab", 11, 2);
        self.edit("B 1 3 aa", "B 1 3 aab", 11, 1);
        // Coefficients out of bounds are so in a leading term too.
        for coef in ["0", "7", "8"] {
            self.edit("B 1 3 aa", &format!("B 1 {coef} aa"), 5, 6);
        }
    }

    /// Monomials: each difference is zero, and would not be without a division by two leading coefficients.
    fn monomials(&mut self) {
        self.put(monomial(), 0, 0, 1);
        self.put(package("7 2 1 1", "G 1 3 aa,B 1 3 aa", "B 1 1 - 1 -,G 1 1 - 1 -"), 0, 0, 1);
        // 5 is 3 × 4, and 3 is 5 × 2.
        self.put(package("7 2 1 1", "G 1 3 aa,B 1 5 aa", "B 1 4 - 1 -,G 1 2 - 1 -"), 0, 0, 1);
        self.put(package("7 2 1 1", "G 1 3 aa,B 1 5 aa", "B 1 2 - 1 -,G 1 4 - 1 -"), 11, 1, 0);
        self.put(package("7 2 1 1", "G 1 3 aa,B 1 5 aa", "B 1 4 - 1 -,G 1 4 - 1 -"), 12, 1, 0);
        // 3 `aab` and 5 `ba` overlap in `aaba` and in `baab`.
        let terms = "G 1 1 aab,G 2 1 ba,B 1 3 aab,B 2 5 ba";
        let sums = "B 1 3 - 1 -,B 2 5 - 2 -,G 1 5 - 1 -,G 2 3 - 2 -";
        self.put(package("7 2 2 2", terms, sums), 0, 0, 2);
        self.put(package("7 2 2 2", terms, &format!("{sums},O 2 3 - 2 -")), 13, 2, 0);
        self.put(package("7 2 2 2", terms, &format!("{sums},O 1 3 a 2 -,O 1 4 a 2 -")), 0, 0, 2);
    }

    /// The inverses of 2, 3, 128 and 255 are 142, 244, 27 and 253. Modulo x^8 + x^4 + x^3 + x + 1 those of 2 and
    /// 3 would be 141 and 246, and in GF(257) they are 129 and 86.
    fn over_256(&mut self) {
        self.put(scaled_e_256([2, 142], [3, 244]), 0, 0, 2);
        self.put(scaled_e_256([142, 2], [244, 3]), 0, 0, 2);
        self.put(scaled_e_256([128, 27], [255, 253]), 0, 0, 2);
        self.put(scaled_e_256([1, 1], [255, 253]), 0, 0, 2);
        self.put(scaled_e_256([27, 128], [27, 128]), 0, 0, 2);
        for wrong in [1, 2, 129, 141] {
            self.put(scaled_e_256([2, wrong], [3, 244]), 12, 1, 0);
        }
        for wrong in [1, 3, 86, 246] {
            self.put(scaled_e_256([2, 142], [3, wrong]), 13, 1, 0);
        }
        let scaled = scaled_e_256([2, 142], [3, 244]);
        self.put(changed(&scaled, "O 2 142 b 1 -", "O 2 1 b 1 -"), 13, 2, 0);
        self.put(changed(&scaled, "O 1 244 - 2 -", "O 1 142 - 1 a\nO 1 142 a 1 -"), 14, 15, 0);
        self.put(changed(&scaled, "B 1 2 aa\nB 1 2 b\n", ""), 8, 1, 0);
        self.put(changed(&scaled, "B 2 3 ab", "B 2 3 aab"), 11, 2, 0);
        self.put(changed(&scaled, "B 1 2 b", "B 1 3 b"), 11, 1, 0);
        self.put(format!("{scaled}O 3 1 - 1 -\n"), 15, 18, 0);
    }
}

/// Packages, each with formulas and their answers. Where only leading coefficients differ, the answers are those
/// under E or under `doubled_256`.
pub fn scaled_formula_rows() -> Vec<(String, Vec<FormulaRow>)> {
    let mut rows =
        vec![(tripled(), tripled_rows()), (monomial(), monomial_rows()), (constant(), constant_rows())];
    rows.extend([scaled_e(), first_negative(), second_negative()].map(|package| (package, formula_rows())));
    rows.extend([twice_256(), times_128()].map(|package| (package, formula_rows_256())));
    rows
}

/// A step puts `b` + 3 in place of `ab`: 4 × 5 is 6, which is minus 1, and 5 × 5 is 4, which is minus 3.
fn tripled_rows() -> Vec<FormulaRow> {
    reduced(&[
        ("1 ab", "1 b,3 -", 1),
        ("3 ab", "3 b,2 -", 1),
        ("6 ab", "6 b,4 -", 1),
        ("3 ab,4 b,5 -", "", 1),
        ("1 ab,6 b,4 -", "", 1),
        ("1 ab,6 b,5 -", "1 -", 1),
        ("1 aba", "1 ba,3 a", 1),
        ("1 aab", "3 a,1 b,3 -", 2),
        ("1 abab", "1 bb,6 b,2 -", 3),
        ("2 ba,5 -", "2 ba,5 -", 0),
    ])
}

fn monomial_rows() -> Vec<FormulaRow> {
    reduced(&[("1 aa", "", 1), ("3 aa", "", 1), ("5 baab,1 aa,1 b", "1 b", 2), ("6 aba", "6 aba", 0)])
}

/// Every word is taken away, the empty one too.
fn constant_rows() -> Vec<FormulaRow> {
    reduced(&[("1 -", "", 1), ("3 -", "", 1), ("1 ab,6 b,3 -", "", 3), ("", "", 0)])
}

#[cfg(test)]
mod tests {
    use super::*;
    use crate::generate::draft::Draft;
    use crate::generate::edits::E;
    use crate::generate::scale::scale;
    use crate::package::read;

    #[test]
    fn rows_hold() {
        scaled_package_rows().iter().for_each(Row::assert_holds);
        for (package, rows) in scaled_formula_rows() {
            rows.iter().for_each(|row| row.assert_holds(package.as_bytes()));
        }
    }

    /// What is written here by hand, made out of E.
    #[test]
    fn scaled_e_is_e_scaled() {
        let mut draft = Draft::of_package(&read(E.as_bytes()).expect("a package that reads"));
        scale(&mut draft, 1, 3);
        scale(&mut draft, 2, 5);
        assert_eq!(draft.text(), scaled_e().into_bytes());
    }
}
