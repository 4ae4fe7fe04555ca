//! Packages whose answers are fixed by the requirements: E and edits of it, one fault each.

use crate::generate::edits::{first, made, with, without, E};

/// A package and what the check answers: number, place, overlaps.
pub struct Row {
    pub package: Vec<u8>,
    pub check: (u64, u64, u64),
}

#[cfg(test)]
impl Row {
    /// Fails where the oracle's check answers something else.
    pub fn assert_holds(&self) {
        let answer = crate::services::check(&self.package);
        let text = String::from_utf8_lossy(&self.package[..self.package.len().min(600)]);
        assert_eq!((answer.number, answer.place, answer.count), self.check, "{text}");
    }
}

pub fn package_rows() -> Vec<Row> {
    let mut rows = Rows(Vec::new());
    rows.table();
    rows.ends_of_lines();
    rows.shapes();
    rows.bounds();
    rows.orders();
    rows.leads();
    rows.sums();
    rows.0
}

struct Rows(Vec<Row>);

impl Rows {
    fn put(&mut self, package: impl Into<Vec<u8>>, number: u64, place: u64) {
        self.0.push(Row { package: package.into(), check: (number, place, 0) });
    }

    fn accepted(&mut self, package: impl Into<Vec<u8>>, overlaps: u64) {
        self.0.push(Row { package: package.into(), check: (0, 0, overlaps) });
    }

    /// E with one line changed.
    fn line(&mut self, line: usize, text: &str, number: u64, place: u64) {
        self.put(with(&[(line, text)]), number, place);
    }

    /// The inputs of the table of refusals.
    fn table(&mut self) {
        self.accepted(E, 2);
        self.line(1, "p letters basis gens", 2, 1);
        self.line(2, "9 2 1 2", 3, 2);
        self.line(2, "7 27 1 2", 4, 2);
        self.line(4, "G 1 7 aa", 5, 4);
        self.put(with(&[(4, "G 1 6 b"), (5, "G 1 1 aa")]), 6, 5);
        self.put(without(&[6, 7], &[]), 8, 1);
        // The leading word of B 2 holds that of B 1, which is no refusal. B 2 is not its sum.
        self.line(8, "B 2 1 aab", 11, 2);
        self.put(without(&[13], &[]), 11, 2);
        self.put(without(&[14], &[]), 12, 1);
        self.put(without(&[15], &[]), 13, 1);
        self.line(15, "O 1 1 a 1 -", 14, 15);
        self.line(18, "O 3 1 - 1 -", 15, 18);
        // E without B 2 has its overlap with itself alone, and no sum for it.
        let terms = ["G 1 1 aa", "G 1 6 b", "B 1 1 aa", "B 1 6 b"];
        self.put(made("7 2 1 1", &terms, &["B 1 1 - 1 -", "G 1 1 - 1 -"]), 13, 1);
    }

    /// Unfinished, missing and empty lines, and the size of the package.
    fn ends_of_lines(&mut self) {
        self.put(&E[..E.len() - 1], 2, 17);
        self.put("p letters gens basis\n9 2 1 2", 2, 2);
        self.put(format!("{E}O 9 9 c 9 c"), 2, 18);
        let ten = first(10);
        self.put(&ten[..ten.len() - 1], 2, 10);
        for lines in [0, 1, 2, 9] {
            self.put(first(lines), 2, lines as u64 + 1);
        }
        self.put("p letters gens basis\n7 2 0 0\nkind item coef word\n", 2, 4);
        self.put(format!("{E}\n"), 2, 18);
        self.put("\n", 2, 1);
        self.put(without(&[10], &[]), 2, 10);
        self.line(10, "kind item coef left of right ", 2, 10);
        self.line(11, "kind item coef left of right", 2, 11);
        self.line(6, "kind item coef word", 2, 6);
        self.line(3, "7 2 1 2", 2, 3);
        self.put(vec![b'x'; 65_537], 1, 0);
        self.put(vec![b'x'; 65_536], 2, 1);
        self.put(vec![10; 65_537], 1, 0);
        self.put(vec![10; 65_536], 2, 1);
    }

    /// Fields, kinds, numbers and words of wrong form.
    fn shapes(&mut self) {
        for text in ["G  1 1 aa", " G 1 1 aa", "G 1 1 aa ", "G 1 1 aa\r", "G\t1 1 aa", "G 1 1\0aa"] {
            self.line(4, text, 2, 4);
        }
        for text in ["G 1 1 aA", "G 1 1 a-", "G 1 1 --", "G 1 1 ", "G 1 1", "G 1 1 aa aa", "G 1 1 a{"] {
            self.line(4, text, 2, 4);
        }
        for text in ["O 1 1 aa", "g 1 1 aa", "GG 1 1 aa", " 1 1 aa", "G 1 a 1", "G 1 - aa", ""] {
            self.line(4, text, 2, 4);
        }
        for text in ["G 01 1 aa", "G 1 00 aa", "G 1 +1 aa", "G 1 -1 aa", "G 1 100000 aa", "G 000001 1 aa"] {
            self.line(4, text, 2, 4);
        }
        self.line(4, &format!("G 1 1 {}", "A".repeat(25)), 2, 4);
        for text in ["100003 2 1 2", "07 2 1 2", "9 2 1 x", "7 2 1", "7 2 1 2 2", "7  1 2", "x 27 1 2"] {
            self.line(2, text, 2, 2);
        }
        self.line(11, "B 1 1 1 - -", 2, 11);
        self.line(11, "B 1 1 - 1", 2, 11);
        self.line(11, "B 1 1 - 1 - -", 2, 11);
        self.line(11, "B 1 1 - - -", 2, 11);
        self.line(15, "C 1 1 - 2 -", 2, 15);
        self.line(18, "O 100000 1 - 1 -", 2, 18);
        self.line(18, "O 99999 1 - 1 -", 15, 18);
    }

    /// p, counts, coefficients, letters, lengths, items and `of`.
    fn bounds(&mut self) {
        for p in [0, 1, 4, 6, 63_001, 65_519 + 1, 65_535, 65_536, 65_537, 99_999] {
            self.line(2, &format!("{p} 2 1 2"), 3, 2);
        }
        for p in [2, 3, 5, 251, 257, 65_519, 65_521] {
            self.accepted(made(&format!("{p} 1 0 0"), &[], &[]), 0);
        }
        self.line(2, "9 27 1 2", 3, 2);
        for text in ["7 0 1 2", "7 2 33 2", "7 2 1 65", "7 27 33 65"] {
            self.line(2, text, 4, 2);
        }
        self.accepted(made("7 26 32 0", &[], &[]), 0);
        let word = |letters: usize| format!("G 1 1 {}", "a".repeat(letters));
        self.line(4, "G 1 1 ac", 5, 4);
        self.line(4, &word(25), 5, 4);
        self.line(4, &word(500), 5, 4);
        self.line(4, &word(24), 11, 1);
        for text in ["G 0 1 aa", "G 2 1 aa", "G 1 0 aa", "G 1 8 aa", "B 3 1 aa"] {
            self.line(4, text, 5, 4);
        }
        let (long, longer) = ("b".repeat(24), "b".repeat(25));
        self.line(11, &format!("B 1 1 {long} 1 {long}"), 11, 1);
        self.line(11, &format!("B 1 1 {longer} 1 -"), 5, 11);
        self.line(11, &format!("B 1 1 - 1 {longer}"), 5, 11);
        for text in ["B 1 0 - 1 -", "B 1 7 - 1 -", "B 1 8 - 1 -", "B 1 1 - 2 -", "B 1 1 - 0 -", "B 3 1 - 1 -"]
        {
            self.line(11, text, 5, 11);
        }
        for text in ["B 1 1 c 1 -", "B 1 1 - 1 c", "B 0 1 - 1 -"] {
            self.line(11, text, 5, 11);
        }
        self.line(14, "G 1 1 - 3 -", 5, 14);
        self.line(15, "O 0 1 - 2 -", 5, 15);
        self.put(made("7 2 0 0", &["G 1 1 a"], &[]), 5, 4);
        self.put(made("7 2 0 1", &["B 1 1 a"], &["B 1 1 - 1 -"]), 5, 6);
    }

    /// Kinds, items and words out of order, and what comes before and behind refusal 6 in a line.
    fn orders(&mut self) {
        self.line(5, "G 1 6 aa", 6, 5);
        self.put(made("7 2 1 0", &["G 1 1 -", "G 1 1 -"], &[]), 6, 5);
        self.line(9, "G 1 6 ba", 6, 9);
        self.line(18, "B 2 1 - 1 -", 6, 18);
        self.line(18, "G 1 1 - 1 -", 6, 18);
        self.line(5, "G 1 7 aa", 5, 5);
        self.put(with(&[(8, "B 2 1 ba"), (9, "B 2 6 ab")]), 6, 9);
        self.put(with(&[(6, "B 2 1 ab"), (7, "B 2 6 ba"), (8, "B 1 1 aa"), (9, "B 1 6 b")]), 6, 8);
        self.put(with(&[(11, "B 2 1 - 1 a"), (12, "B 1 1 - 1 -")]), 6, 12);
    }

    /// Refusal 8. Only a zero polynomial gets it: one that leads with another coefficient than 1, or whose leading word
    /// holds another's, is judged on.
    fn leads(&mut self) {
        let basis = |terms: &[&str]| {
            let items = terms.iter().filter(|term| term.starts_with('B')).count();
            made(&format!("7 2 0 {items}"), terms, &[])
        };
        self.put(basis(&["B 1 1 aab", "B 2 2 aa"]), 11, 1);
        self.put(made("7 2 0 3", &["B 1 1 aab", "B 2 2 aa"], &[]), 8, 3);
        self.put(made("7 2 0 3", &["B 1 1 aab", "B 3 1 aa"], &[]), 8, 2);
        self.put(made("7 2 0 1", &[], &[]), 8, 1);
        self.put(made("7 2 0 64", &[], &[]), 8, 1);
        self.put(without(&[2, 3, 4, 5, 6, 7, 8, 9], &[]), 2, 2);
        self.line(2, "7 2 1 3", 8, 3);
        self.put(without(&[8, 9], &[]), 8, 2);
        self.put(without(&[6, 7, 8, 9], &[]), 8, 1);
        self.line(6, "B 1 2 aa", 11, 1);
        self.line(8, "B 2 6 ab", 11, 2);
        self.line(8, "B 2 1 aa", 11, 2);
        self.put(basis(&["B 1 1 aaaa"]), 11, 1);
        self.put(basis(&["B 1 1 a"]), 11, 1);
    }

    /// Refusals 11 to 15 in their order, repeats, and zero polynomials.
    fn sums(&mut self) {
        self.put(made("7 2 1 1", &["B 1 1 a"], &["B 1 1 - 1 -"]), 11, 1);
        self.put(without(&[11], &[]), 11, 1);
        self.put(without(&[13, 14], &[]), 11, 2);
        self.put(without(&[14, 15], &[]), 12, 1);
        self.put(with(&[(15, "O 1 1 a 1 -"), (18, "O 3 1 - 1 -")]), 15, 18);
        self.put(without(&[14], &["O 3 1 - 1 -"]), 12, 1);
        let mut lines: Vec<String> = E.lines().map(str::to_string).collect();
        lines[15] = "O 2 1 - 1 b".to_string();
        lines.remove(14);
        self.put(lines.iter().map(|line| format!("{line}\n")).collect::<String>(), 13, 1);
        self.line(15, &format!("O 1 1 {} 2 -", "b".repeat(24)), 14, 15);
        self.put(with(&[(11, "B 1 1 - 1 -\nB 1 1 - 1 -")]), 11, 1);
        self.accepted(with(&[(12, "B 2 4 - 1 a\nB 2 4 - 1 a")]), 2);
        self.accepted(with(&[(15, "O 1 1 - 2 -\nO 1 1 a 2 -\nO 1 6 a 2 -")]), 2);
        self.put(with(&[(15, "O 1 1 - 2 -\nO 1 1 a 1 -\nO 1 6 a 1 -")]), 14, 16);
        self.put(made("7 2 1 0", &["G 1 1 a"], &[]), 12, 1);
        self.accepted(made("7 2 1 1", &["G 1 3 -", "B 1 1 -"], &["B 1 5 - 1 -", "G 1 3 - 1 -"]), 0);
    }
}

#[cfg(test)]
mod tests {
    use super::{package_rows, Row};

    #[test]
    fn rows_hold() {
        package_rows().iter().for_each(Row::assert_holds);
    }
}
