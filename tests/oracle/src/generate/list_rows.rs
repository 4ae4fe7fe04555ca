//! Packages whose lists are fixed by the requirements.

use crate::generate::edits::{made, E};
use crate::generate::untrimmed_rows::{scaled_untrimmed_e, untrimmed_e};

/// A package and its list.
pub struct ListRow {
    pub package: Vec<u8>,
    pub output: String,
}

/// A basis of these monomials, parted by commas, without relations.
pub fn basis(words: &str) -> String {
    let items = words.split(',').zip(1..);
    let terms: Vec<String> = items.map(|(word, item): (&str, u64)| format!("B {item} 1 {word}")).collect();
    let lines: Vec<&str> = terms.iter().map(String::as_str).collect();
    made(&format!("7 2 0 {}", terms.len()), &lines, &[])
}

/// A package, and the lines of its list without their numbers, parted by commas.
fn row(package: &str, lines: &str) -> ListRow {
    let lines = lines.split(',').filter(|line| !line.is_empty()).zip(1..);
    let below: String = lines.map(|(line, item): (&str, u64)| format!("{item} {line}\n")).collect();
    ListRow { package: package.into(), output: format!("item first second shared at word\n{below}") }
}

pub fn list_rows() -> Vec<ListRow> {
    let overlaps = "1 1 1 1 aaa,1 2 1 1 aab,1 3 1 1 aaab,1 4 1 1 aab";
    let untrimmed = format!("{overlaps},2 4 2 0 ab,3 1 2 0 aab,3 2 2 1 aab,3 4 2 1 aab");
    let mut rows = vec![
        row(E, "1 1 1 1 aaa,1 2 1 1 aab"),
        row(&untrimmed_e(), &untrimmed),
        row(&scaled_untrimmed_e(), &untrimmed),
    ];
    let in_ab = "2 1 0 0 ab,2 1 0 1 ab,2 1 0 2 ab,2 3 0 0 ab,2 3 0 1 ab,2 3 0 2 ab";
    let in_abab =
        "1 2 0 0 abab,1 2 0 1 abab,1 2 0 2 abab,1 2 0 3 abab,1 2 0 4 abab,1 3 2 0 abab,1 3 2 2 abab";
    for (words, lines) in [
        // Equal words, once and with all their overlaps.
        ("aa,aa", "1 1 1 1 aaa,1 2 1 1 aaa,2 1 1 1 aaa,2 2 1 1 aaa,1 2 2 0 aa"),
        ("ab,ab", "1 2 2 0 ab"),
        ("ab,ba,ab", "1 2 1 1 aba,2 1 1 1 bab,2 3 1 1 bab,3 2 1 1 aba,1 3 2 0 ab"),
        ("b,b,b", "1 2 1 0 b,1 3 1 0 b,2 3 1 0 b"),
        // The empty word.
        ("-", ""),
        ("-,-", "1 2 0 0 -"),
        ("-,-,-", "1 2 0 0 -,1 3 0 0 -,2 3 0 0 -"),
        ("b,-", "1 2 0 0 b,1 2 0 1 b"),
        ("-,b", "2 1 0 0 b,2 1 0 1 b"),
        ("-,ab,-", &format!("1 3 0 0 -,{in_ab}")),
        ("abab,-,ab", &format!("1 1 2 2 ababab,{in_abab},3 2 0 0 ab,3 2 0 1 ab,3 2 0 2 ab")),
        // A word at one place and at several, of a lower and of a higher number.
        ("bab,ab", "1 1 1 2 babab,2 1 1 1 abab,1 2 2 1 bab"),
        ("a,aba", "2 2 1 2 ababa,2 1 1 0 aba,2 1 1 2 aba"),
        ("aaa,a", "1 1 1 2 aaaaa,1 1 2 1 aaaa,1 2 1 0 aaa,1 2 1 1 aaa,1 2 1 2 aaa"),
        ("a,b", ""),
    ] {
        rows.push(row(&basis(words), lines));
    }
    rows
}

#[cfg(test)]
mod tests {
    use super::*;
    use crate::services::{list_overlaps, printed};

    #[test]
    fn lists_hold() {
        for ListRow { package, output } in list_rows() {
            let answer = list_overlaps(&package, output.len());
            let text = answer.output.map(|text| String::from_utf8(text).expect("text"));
            assert_eq!((answer.number, text), (0, Some(output.clone())));
            assert_eq!(answer.count, output.lines().count() as u64 - 1);
            let refused = list_overlaps(&package, output.len() - 1);
            assert_eq!((refused.number, refused.place), (19, output.len() as u64));
            assert_eq!(printed(&package), output.into_bytes());
        }
    }
}
