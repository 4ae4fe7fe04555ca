//! Words at places of other words whose answers are fixed by the requirements.

use crate::generate::places::AtPlace;
use crate::standing::Stood;

/// The answers are counted by hand on the letters. The empty word is written `-`.
pub fn place_rows() -> Vec<(AtPlace, Stood)> {
    let mut rows = Rows(Vec::new());
    rows.table();
    rows.one_letter();
    rows.some_letters();
    rows.about_the_end();
    rows.empty_words();
    rows.long_words();
    rows.0
}

struct Rows(Vec<(AtPlace, Stood)>);

impl Rows {
    fn put(&mut self, [word, other]: [&str; 2], place: usize, stands: bool, compared: usize) {
        let letters = |word: &str| word.replace('-', "").into_bytes();
        let at = AtPlace { word: letters(word), other: letters(other), place };
        self.0.push((at, Stood { stands, compared }));
    }

    fn yes(&mut self, words: [&str; 2], place: usize, compared: usize) {
        self.put(words, place, true, compared);
    }

    fn no(&mut self, words: [&str; 2], place: usize, compared: usize) {
        self.put(words, place, false, compared);
    }

    /// The examples that the reading of P3 gives.
    fn table(&mut self) {
        self.no(["ab", "bb"], 0, 2);
        self.no(["ab", "aa"], 0, 1);
        self.no(["ab", "ab"], 1, 0);
        self.yes(["-", "ab"], 2, 0);
        self.no(["-", "ab"], 3, 0);
    }

    fn one_letter(&mut self) {
        self.yes(["a", "a"], 0, 1);
        self.no(["a", "b"], 0, 1);
        self.no(["a", "a"], 1, 0);
        self.no(["a", "ba"], 0, 1);
        self.yes(["a", "ba"], 1, 1);
    }

    fn some_letters(&mut self) {
        self.yes(["abc", "abc"], 0, 3);
        self.yes(["abc", "babca"], 1, 3);
        // The letter in the middle differs: c agrees, b is the second from the end.
        self.no(["abc", "acc"], 0, 2);
        self.no(["abcde", "xabzde"], 1, 3);
        // Two letters differ: the one nearer the end is the first met.
        self.no(["abcde", "azcze"], 0, 2);
        self.no(["abcde", "zbcdz"], 0, 1);
        // At place 1 `bab` is met, and at place 2 the word.
        self.no(["aba", "ababa"], 1, 1);
        self.yes(["aba", "ababa"], 2, 3);
    }

    fn about_the_end(&mut self) {
        self.yes(["ab", "cab"], 1, 2);
        self.no(["ab", "cab"], 2, 0);
        self.no(["ab", "cab"], 3, 0);
        self.no(["ab", "cab"], 4, 0);
        // A longer word: nothing is compared, whatever its letters are.
        self.no(["abc", "ab"], 0, 0);
        self.no(["abc", "bc"], 0, 0);
        self.no(["a", "-"], 0, 0);
        // Place and length added in 64 bits give 1, 0, 0 and 2 here.
        self.no(["ab", "ab"], usize::MAX, 0);
        self.no(["ab", "ab"], usize::MAX - 1, 0);
        self.no(["a", "a"], usize::MAX, 0);
        self.no(["abab", "ab"], usize::MAX - 1, 0);
    }

    fn empty_words(&mut self) {
        self.yes(["-", "-"], 0, 0);
        self.no(["-", "-"], 1, 0);
        self.yes(["-", "ab"], 0, 0);
        self.yes(["-", "ab"], 1, 0);
        self.no(["-", "ab"], usize::MAX, 0);
    }

    /// 72 letters, where one differs at the front, at the end, or with 36 before it.
    fn long_words(&mut self) {
        let (long, less) = ("a".repeat(72), "a".repeat(71));
        let (front, end) = (format!("b{less}"), format!("{less}b"));
        let middle = format!("{}b{}", "a".repeat(36), "a".repeat(35));
        self.yes([&long, &long], 0, 72);
        self.no([&front, &long], 0, 72);
        self.no([&end, &long], 0, 1);
        self.no([&middle, &long], 0, 36);
        self.no([&long, &front], 0, 72);
        self.no([&long, &end], 0, 1);
        self.no([&long, &long], 1, 0);
        self.yes([&less, &front], 1, 71);
        self.no([&less, &front], 0, 71);
        self.yes([&less, &end], 0, 71);
        self.no([&less, &end], 1, 1);
    }
}

#[cfg(test)]
mod tests {
    use super::place_rows;
    use crate::standing::stands_at;

    #[test]
    fn rows_hold() {
        for (at, answer) in place_rows() {
            assert_eq!(stands_at(&at.word, &at.other, at.place), answer, "{at}");
        }
    }
}
