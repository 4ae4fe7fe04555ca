//! Packages whose leading words stand inside one another, and formulas under them, with answers that are fixed by the
//! requirements.

use crate::generate::draft::Draft;
use crate::generate::edits::{changed, made};
use crate::generate::formula_rows::{reduced, text, FormulaRow};
use crate::generate::list_rows::basis;
use crate::generate::package_rows::Row;
use crate::generate::untrim::in_order;
use crate::package::read;

/// A package of line 2 and of lines parted by commas.
fn package(counts: &str, terms: &str, sums: &str) -> String {
    made(counts, &terms.split(',').collect::<Vec<_>>(), &sums.split(',').collect::<Vec<_>>())
}

/// E with `aab` - `bb` as its third basis polynomial and `ab` - `ba` again as its fourth. The list has the overlaps
/// `aaa`, `aab`, `aaab` and `aab` again, then 5 to 8: `ab` in `ab`, and in `aab` the words `aa`, `ab` and `ab`. The
/// differences 5 and 6 are zero, 7 and 8 are `aba` - `bb`.
pub fn untrimmed_e() -> String {
    let terms = "G 1 1 aa,G 1 6 b,B 1 1 aa,B 1 6 b,B 2 1 ab,B 2 6 ba,B 3 1 aab,B 3 6 bb,B 4 1 ab,B 4 6 ba";
    let sums = "B 1 1 - 1 -,B 2 1 - 1 a,B 2 6 a 1 -,B 3 1 - 1 b,B 4 1 - 1 a,B 4 6 a 1 -,G 1 1 - 1 -";
    let overlaps = "O 1 1 - 2 -,O 2 1 - 2 a,O 2 1 b 1 -,O 3 1 - 2 b,O 4 1 - 2 a,O 4 1 b 1 -";
    let inclusions = "O 7 1 - 2 a,O 7 1 b 1 -,O 8 1 - 2 a,O 8 1 b 1 -";
    package("7 2 1 4", terms, &format!("{sums},{overlaps},{inclusions}"))
}

/// The same over GF(256), where minus 1 is 1.
pub fn untrimmed_e_256() -> String {
    changed(&untrimmed_e().replace(" 6 ", " 1 "), "7 2 1 4", "256 2 1 4")
}

/// Untrimmed E, its third basis polynomial times 3 and its fourth times 5. No sum is over these two, and each side of a
/// difference is divided by its own leading coefficient.
pub fn scaled_untrimmed_e() -> String {
    let third = changed(&untrimmed_e(), "B 3 1 aab\nB 3 6 bb", "B 3 3 aab\nB 3 4 bb");
    let third = changed(&third, "B 3 1 - 1 b", "B 3 3 - 1 b");
    let fourth = changed(&third, "B 4 1 ab\nB 4 6 ba", "B 4 5 ab\nB 4 2 ba");
    changed(&fourth, "B 4 1 - 1 a\nB 4 6 a 1 -", "B 4 5 - 1 a\nB 4 2 a 1 -")
}

/// The same over GF(256), times 2 and times 3.
pub fn scaled_untrimmed_e_256() -> String {
    let third = changed(&untrimmed_e_256(), "B 3 1 aab\nB 3 1 bb", "B 3 2 aab\nB 3 2 bb");
    let third = changed(&third, "B 3 1 - 1 b", "B 3 2 - 1 b");
    let fourth = changed(&third, "B 4 1 ab\nB 4 1 ba", "B 4 3 ab\nB 4 3 ba");
    changed(&fourth, "B 4 1 - 1 a\nB 4 1 a 1 -", "B 4 3 - 1 a\nB 4 3 a 1 -")
}

/// The constants 1 and 1, and `ab` + 3 `b` between them. The difference of the constants is zero, and each of the
/// other six is 3 `b`.
fn constants() -> String {
    let terms = "G 1 1 -,B 1 1 -,B 2 1 ab,B 2 3 b,B 3 1 -";
    let sums = "B 1 1 - 1 -,B 2 1 ab 1 -,B 2 3 - 1 b,B 3 1 - 1 -,G 1 1 - 1 -";
    let inclusions = "O 2 3 - 1 b,O 3 3 b 3 -,O 4 3 - 3 b,O 5 3 - 1 b,O 6 3 b 1 -,O 7 3 b 3 -";
    package("7 2 1 3", terms, &format!("{sums},{inclusions}"))
}

/// E with `aab` - `aba` as one more basis polynomial, in an order of the three. Its G and O sums are made by reduction.
pub fn longer_way(order: &[u64]) -> String {
    let terms = "G 1 1 aa,G 1 6 b,B 1 1 aa,B 1 6 b,B 2 1 ab,B 2 6 ba,B 3 1 aab,B 3 6 aba";
    let sums = "B 1 1 - 1 -,B 2 1 - 1 a,B 2 6 a 1 -,B 3 1 a 1 a,B 3 6 aa 1 -";
    turned(&package("7 2 1 3", terms, sums), order)
}

/// A package with its basis in another order, and with G and O sums for that.
fn turned(package: &str, order: &[u64]) -> String {
    let draft = Draft::of_package(&read(package.as_bytes()).expect("a package that reads"));
    let turned = in_order(&draft, order).expect("differences of polynomials of an ideal");
    String::from_utf8(turned.text()).expect("text")
}

pub fn untrimmed_package_rows() -> Vec<Row> {
    let mut rows = Rows(Vec::new());
    for (e, minus_one) in
        [(untrimmed_e(), 6), (scaled_untrimmed_e(), 6), (untrimmed_e_256(), 1), (scaled_untrimmed_e_256(), 1)]
    {
        rows.put(e.clone(), 0, 0, 8);
        rows.sums(&e, minus_one);
        rows.not_below(&e, minus_one);
        rows.items(&e);
    }
    rows.scaled_differences();
    rows.constants();
    rows.copies();
    rows.judged_on();
    rows.0
}

struct Rows(Vec<Row>);

impl Rows {
    fn put(&mut self, package: String, number: u64, place: u64, count: u64) {
        self.0.push(Row { package: package.into_bytes(), check: (number, place, count) });
    }

    /// A package with one part of it changed, which is refused.
    fn edit(&mut self, package: &str, old: &str, new: &str, number: u64, place: u64) {
        self.put(changed(package, old, new), number, place, 0);
    }

    /// Untrimmed E without a line, and with lines for a difference that is zero. 8, 11 and 12 come before 13 and 15.
    fn sums(&mut self, e: &str, minus_one: u64) {
        for (line, item) in [("O 1 1 - 2 -", 1), ("O 3 1 - 2 b", 3), ("O 7 1 - 2 a", 7), ("O 8 1 b 1 -", 8)] {
            self.edit(e, &format!("{line}\n"), "", 13, item);
        }
        self.edit(e, "O 8 1 - 2 a\nO 8 1 b 1 -\n", "", 13, 8);
        self.edit(e, "O 7 1 - 2 a\n", "O 6 1 b 1 -\nO 7 1 - 2 a\n", 13, 6);
        let cancelling = format!("O 6 1 b 1 -\nO 6 {minus_one} b 1 -\nO 7 1 - 2 a\n");
        self.put(changed(e, "O 7 1 - 2 a\n", &cancelling), 0, 0, 8);
        let above = changed(e, "O 8 1 b 1 -\n", "O 9 1 b 1 -\n");
        self.edit(&above, " 2 1 4\n", " 2 1 5\n", 8, 5);
        self.edit(&above, "B 2 1 - 1 a\n", "", 11, 2);
        self.edit(&above, "G 1 1 - 1 -\n", "", 12, 1);
    }

    /// The overlap word of 5 is `ab`, and that of 6 to 8 is `aab`: equal is not below, nor is greater. The O lines of
    /// untrimmed E are lines 22 to 31.
    fn not_below(&mut self, e: &str, minus_one: u64) {
        let cancelling =
            |line: &str| format!("{line}\n{}\n", line.replacen(" 1 ", &format!(" {minus_one} "), 1));
        for line in ["O 5 1 - 2 -", "O 5 1 - 4 -", "O 5 1 - 1 -", "O 5 1 b 1 -", "O 6 1 - 1 b", "O 6 1 - 3 -"]
        {
            self.edit(e, "O 7 1 - 2 a\n", &format!("{}O 7 1 - 2 a\n", cancelling(line)), 14, 28);
        }
        for line in ["O 8 1 - 1 b", "O 8 1 a 2 -", "O 8 1 a 4 -", "O 8 1 - 3 -", "O 8 1 bb 1 -"] {
            self.edit(e, "O 8 1 - 2 a\n", &format!("O 8 1 - 2 a\n{}", cancelling(line)), 14, 31);
        }
        // `aba` and `bab` are below `aab`.
        let below = cancelling("O 8 1 b 2 -") + &cancelling("O 8 1 - 4 a");
        self.put(changed(e, "O 8 1 - 2 a\n", &format!("O 8 1 - 2 a\n{below}")), 0, 0, 8);
    }

    /// 15 for what is above the whole list. A list without the equal words would have 6 and 7 in place of 7 and 8, and
    /// one with both their orders 8 and 9.
    fn items(&mut self, e: &str) {
        self.put(format!("{e}O 9 1 - 1 -\n"), 15, 32, 0);
        self.edit(e, "O 8 1 - 2 a\nO 8 1 b 1 -\n", "O 9 1 - 2 a\nO 9 1 b 1 -\n", 15, 30);
        let lines = |seven, eight| {
            let pair = |item| format!("O {item} 1 - 2 a\nO {item} 1 b 1 -\n");
            pair(seven) + &pair(eight)
        };
        self.edit(e, &lines(7, 8), &lines(6, 7), 13, 6);
        self.edit(e, &lines(7, 8), &lines(8, 9), 15, 30);
    }

    /// O sums that are another multiple of a difference: 7 is divided by 3 and by 1, 8 by 3 and by 5.
    fn scaled_differences(&mut self) {
        let e = scaled_untrimmed_e();
        for factor in 2..7 {
            for item in [7, 8] {
                let lines = format!("O {item} 1 - 2 a\nO {item} 1 b 1 -\n");
                let times = format!("O {item} {factor} - 2 a\nO {item} {factor} b 1 -\n");
                self.edit(&e, &lines, &times, 13, item);
            }
        }
        // The difference by its own two products: 5 is the inverse of 3, and 4 is minus the inverse of 5.
        self.edit(&e, "O 8 1 - 2 a\nO 8 1 b 1 -\n", "O 8 5 - 3 -\nO 8 4 a 4 -\n", 14, 30);
        self.edit(&e, "B 3 3 - 1 b", "B 3 1 - 1 b", 11, 3);
        self.edit(&e, "B 4 5 - 1 a", "B 4 1 - 1 a", 11, 4);
    }

    /// Empty leading words: the places in `ab` are 0, 1 and 2. Nothing is below the empty overlap word.
    fn constants(&mut self) {
        let constants = constants();
        self.put(constants.clone(), 0, 0, 7);
        for (line, item) in [("O 2 3 - 1 b\n", 2), ("O 4 3 - 3 b\n", 4), ("O 7 3 b 3 -\n", 7)] {
            self.edit(&constants, line, "", 13, item);
        }
        self.edit(&constants, "O 2 3 - 1 b\n", "O 1 3 - 1 b\nO 2 3 - 1 b\n", 14, 15);
        self.edit(&constants, "O 2 3 - 1 b\n", "O 1 1 - 1 -\nO 1 6 - 3 -\nO 2 3 - 1 b\n", 14, 15);
        self.edit(&constants, "O 7 3 b 3 -\n", "O 7 3 b 3 -\nO 7 1 a 1 b\nO 7 6 a 3 b\n", 14, 21);
        self.put(changed(&constants, "O 7 3 b 3 -\n", "O 7 3 b 3 -\nO 7 1 a 1 -\nO 7 6 - 3 a\n"), 0, 0, 7);
        self.put(format!("{constants}O 8 1 - 1 -\n"), 15, 21, 0);
        // Without a lower term, and with other leading coefficients: every difference is zero.
        let sums = "B 1 1 - 1 -,B 2 1 a 1 b,B 3 1 - 1 -,G 1 1 - 1 -";
        self.put(package("7 2 1 3", "G 1 1 -,B 1 1 -,B 2 1 ab,B 3 1 -", sums), 0, 0, 7);
        let sums = "B 1 2 - 1 -,B 2 3 - 1 ab,B 3 6 - 1 -,G 1 4 - 1 -";
        self.put(package("7 2 1 3", "G 1 1 -,B 1 2 -,B 2 3 ab,B 3 6 -", sums), 0, 0, 7);
    }

    /// A polynomial twice, and times 3; one with the same leading word that is another modulo the first; `aa` twice.
    fn copies(&mut self) {
        let sums = "B 1 1 - 1 -,B 2 1 - 1 -,G 1 1 - 1 -";
        let terms = "G 1 1 ab,G 1 6 b,B 1 1 ab,B 1 6 b,B 2 1 ab,B 2 6 b";
        self.put(package("7 2 1 2", terms, sums), 0, 0, 1);
        let by_both = sums.replace("G 1 1 - 1 -", "G 1 3 - 1 -,G 1 5 - 2 -");
        self.put(package("7 2 1 2", terms, &by_both), 0, 0, 1);
        let terms = "G 1 1 ab,G 1 6 b,B 1 1 ab,B 1 6 b,B 2 3 ab,B 2 4 b";
        self.put(package("7 2 1 2", terms, &sums.replace("B 2 1", "B 2 3")), 0, 0, 1);
        self.put(package("7 2 1 2", terms, sums), 11, 2, 0);
        // The difference is 1 - `b`, and no O sum says so.
        let terms = "G 1 1 ab,G 1 6 b,G 2 1 ab,G 2 6 -,B 1 1 ab,B 1 6 b,B 2 1 ab,B 2 6 -";
        self.put(package("7 2 2 2", terms, "B 1 1 - 1 -,B 2 1 - 2 -,G 1 1 - 1 -,G 2 1 - 2 -"), 13, 1, 0);
        // Four overlaps and one inclusion.
        self.put(package("7 2 1 2", "G 1 1 aa,B 1 1 aa,B 2 1 aa", sums), 0, 0, 5);
        self.put(package("7 2 1 2", "G 1 1 aa,B 1 1 aa,B 2 1 aa", &format!("{sums},O 6 1 - 1 -")), 15, 11, 0);
    }

    /// Leading words inside one another are no refusal: what is wrong behind them is told, here the first B sum.
    fn judged_on(&mut self) {
        for words in ["aab,aa", "aa,aab", "aa,aa", "bab,ab", "-,a", "a,-", "-,-"] {
            self.put(basis(words), 11, 1, 0);
        }
        self.edit(&basis("aab,aa"), "7 2 0 2", "7 2 0 3", 8, 3);
        self.edit(&basis("aab,b,aa"), "B 2 1 b\n", "", 8, 2);
        self.edit(&basis("-,-,-"), "B 1 1 -\n", "", 8, 1);
    }
}

/// Packages, each with formulas and their answers.
pub fn untrimmed_formula_rows() -> Vec<(String, Vec<FormulaRow>)> {
    let mut rows = Vec::new();
    let under_e =
        [("1 baab", "1 bbb", 1), ("1 aab", "1 bb", 1), ("1 aabab", "1 bbba", 2), ("1 bba", "1 bba", 0)];
    for (package, member) in [
        (untrimmed_e(), "1 aba,6 bb"),
        (scaled_untrimmed_e(), "1 aba,6 bb"),
        (untrimmed_e_256(), "1 aba,1 bb"),
        (scaled_untrimmed_e_256(), "1 aba,1 bb"),
    ] {
        let mut answers = reduced(&[&under_e[..], &[(member, "", 2)]].concat());
        answers.push(FormulaRow::refused(text("1 aab,0 a"), 9, 16, 3));
        rows.push((package, answers));
    }
    // By `aab` - `aba` the word `aab` goes to `aba`, `baa`, `bb`, and by `aa` - `b` to `bb`. Both stand at its place
    // 0, so the lower number decides; `ab` at place 1 is never taken.
    let both = [("1 ab", "1 ba", 1), ("1 aaa", "1 ba", 1), ("1 aba", "1 bb", 2)];
    for (orders, steps) in [([[1, 2, 3], [2, 1, 3], [1, 3, 2]], 1), ([[3, 1, 2], [3, 2, 1], [2, 3, 1]], 3)] {
        let decided = [("1 aab", "1 bb", steps), ("1 baab", "1 bbb", steps)];
        for order in orders {
            rows.push((longer_way(&order), reduced(&[&decided[..], &both].concat())));
        }
    }
    // A constant stands at place 0 of every word. With the lower number `ab` + 3 `b` is taken there, and 3 `b` is
    // left.
    rows.push((constants(), reduced(&[("1 ab", "", 1), ("1 ab,1 b,1 -", "", 3), ("", "", 0)])));
    let before = reduced(&[("1 ab", "", 2), ("1 bab", "", 1), ("1 ab,3 b", "", 1)]);
    rows.push((turned(&constants(), &[2, 1, 3]), before));
    rows
}

#[cfg(test)]
mod tests {
    use super::*;
    use crate::generate::edits::E;

    #[test]
    fn rows_hold() {
        untrimmed_package_rows().iter().for_each(Row::assert_holds);
        for (package, rows) in untrimmed_formula_rows() {
            rows.iter().for_each(|row| row.assert_holds(package.as_bytes()));
        }
    }

    /// What is written here by hand, made out of E.
    #[test]
    fn untrimmed_e_is_e_with_more() {
        let [e, more] = [E.to_string(), untrimmed_e()].map(|text| read(text.as_bytes()).expect("reads"));
        assert_eq!((&more.basis[..2], &more.relations), (&e.basis[..], &e.relations));
        assert_eq!(more.basis[3], e.basis[1]);
        assert_eq!(turned(&untrimmed_e(), &[1, 2, 3, 4]), untrimmed_e());
    }
}
