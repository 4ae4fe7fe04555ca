//! Lines, fields, and the forms of numbers and words.

use crate::word::Word;

/// The lines of a text, numbered from 1. Every finished line is ended by byte 10.
pub struct Lines<'a> {
    finished: Vec<&'a [u8]>,
    /// Whether bytes stand behind the last byte 10: one line that is not finished.
    pub unfinished: bool,
}

impl<'a> Lines<'a> {
    pub fn of(bytes: &'a [u8]) -> Lines<'a> {
        let mut finished: Vec<&[u8]> = bytes.split(|byte| *byte == 10).collect();
        let rest = finished.pop().expect("split gives one part at least");
        Lines { finished, unfinished: !rest.is_empty() }
    }

    /// The finished line with this number. None: it is missing or unfinished.
    pub fn get(&self, number: u64) -> Option<&'a [u8]> {
        self.finished.get(number as usize - 1).copied()
    }
}

/// The fields of a line. One space parts two fields, so two spaces make an empty field.
pub fn fields(line: &[u8]) -> Vec<&[u8]> {
    line.split(|byte| *byte == b' ').collect()
}

/// A number: one to five digits, no leading zero except `0` itself.
pub fn number(field: &[u8]) -> Option<u64> {
    let digits = (1..=5).contains(&field.len()) && field.iter().all(u8::is_ascii_digit);
    if !digits || (field.len() > 1 && field[0] == b'0') {
        return None;
    }
    Some(field.iter().fold(0, |value, digit| value * 10 + u64::from(digit - b'0')))
}

/// A word: `-`, or one or more letters `a` to `z`, however many.
pub fn word(field: &[u8]) -> Option<Word> {
    if field == b"-" {
        return Some(Word::empty());
    }
    let letters = !field.is_empty() && field.iter().all(u8::is_ascii_lowercase);
    letters.then(|| Word(field.to_vec()))
}

#[cfg(test)]
mod tests {
    use super::*;

    #[test]
    fn lines_are_ended_by_byte_10() {
        let lines = Lines::of(b"a\n\nb");
        assert_eq!(lines.get(1), Some(&b"a"[..]));
        assert_eq!(lines.get(2), Some(&b""[..]));
        assert_eq!(lines.get(3), None);
        assert!(lines.unfinished);
        assert!(!Lines::of(b"a\n").unfinished && !Lines::of(b"").unfinished);
    }

    #[test]
    fn forms() {
        for (text, value) in [("0", Some(0)), ("99999", Some(99999)), ("00", None), ("07", None)] {
            assert_eq!(number(text.as_bytes()), value);
        }
        for text in ["", "+1", "-1", "100000", "1a", "000000", " 1"] {
            assert_eq!(number(text.as_bytes()), None);
        }
        assert_eq!(word(b"-"), Some(Word::empty()));
        assert_eq!(word(b"az"), Some(Word::new("az")));
        for text in ["", "--", "a-", "aA", "1", "a1", "{", "`"] {
            assert_eq!(word(text.as_bytes()), None);
        }
    }
}
