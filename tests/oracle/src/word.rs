//! Words and their order.

use std::cmp::Ordering;

/// A word: its letters as bytes `a` to `z`. No bytes: the empty word.
#[derive(Clone, Debug, Default, PartialEq, Eq, Hash)]
pub struct Word(pub Vec<u8>);

impl Word {
    pub fn empty() -> Word {
        Word(Vec::new())
    }

    pub fn new(letters: &str) -> Word {
        Word(letters.bytes().collect())
    }

    pub fn len(&self) -> usize {
        self.0.len()
    }

    pub fn is_empty(&self) -> bool {
        self.0.is_empty()
    }

    /// The product of words is one written after the other.
    pub fn times(&self, right: &Word) -> Word {
        let mut letters = self.0.clone();
        letters.extend_from_slice(&right.0);
        Word(letters)
    }

    /// Whether `inner` stands in this word: this word is left × inner × right, either side possibly empty.
    pub fn holds(&self, inner: &Word) -> bool {
        (0..=self.len()).any(|begin| self.0[begin..].starts_with(&inner.0))
    }

    /// The word as it stands in a field: `-` for the empty word.
    pub fn text(&self) -> Vec<u8> {
        if self.is_empty() {
            b"-".to_vec()
        } else {
            self.0.clone()
        }
    }
}

impl Ord for Word {
    /// The longer word is greater. At equal length the first differing letter decides, and `a` is greater
    /// than `b`: the order of bytes turned around.
    fn cmp(&self, other: &Word) -> Ordering {
        self.len().cmp(&other.len()).then_with(|| other.0.cmp(&self.0))
    }
}

impl PartialOrd for Word {
    fn partial_cmp(&self, other: &Word) -> Option<Ordering> {
        Some(self.cmp(other))
    }
}

#[cfg(test)]
mod tests {
    use super::Word;

    #[test]
    fn order_of_document_01() {
        let w = Word::new;
        assert!(w("ab") > w("ba"));
        assert!(w("aa") > w("b"));
        assert!(w("a") > w(""));
        assert!(w("a") > w("b") && w("b") > w("c"));
        assert!(w("bbb") > w("aa"));
    }

    #[test]
    fn holding() {
        let w = Word::new;
        assert!(w("baab").holds(&w("aa")) && w("ab").holds(&w("ab")) && w("").holds(&w("")));
        assert!(w("ab").holds(&w("")) && !w("").holds(&w("a")) && !w("aba").holds(&w("aa")));
    }
}
