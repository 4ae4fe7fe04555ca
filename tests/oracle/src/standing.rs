//! Whether a word stands at a place in another, and how many letters that takes: document 02, P3.
//!
//! A word is here its letters alone. Only whether two letters are the same matters, so any byte is a letter.

/// The yes or no, and how many letters were compared.
#[derive(Clone, Copy, Debug, PartialEq, Eq)]
pub struct Stood {
    pub stands: bool,
    pub compared: usize,
}

/// Whether `word` stands in `other` at `place`: so many letters stand before it, and any number behind it.
pub fn stands_at(word: &[u8], other: &[u8], place: usize) -> Stood {
    let Some(met) = met(word, other, place) else {
        // 0 where the word would run past the end.
        return Stood { stands: false, compared: 0 };
    };
    let back = word.iter().rev().zip(met.iter().rev());
    let agreeing = back.take_while(|(letter, its)| letter == its).count();
    // Back from the end to the first that differs, that one counted; all when none does.
    let compared = if agreeing < word.len() { agreeing + 1 } else { word.len() };
    Stood { stands: word == met, compared }
}

/// The letters of `other` that the letters of `word` at `place` would meet. None: it would run past the end.
fn met<'a>(word: &[u8], other: &'a [u8], place: usize) -> Option<&'a [u8]> {
    other.get(place..)?.get(..word.len())
}

#[cfg(test)]
mod tests {
    use super::{stands_at, Stood};
    use crate::generate::places::every_small;

    /// The yes by the product: the other word is left × word × right, and left has `place` letters.
    #[test]
    fn yes_by_the_product() {
        for at in every_small() {
            let left = at.other.iter().take(at.place);
            let right = at.other.iter().skip(at.place.saturating_add(at.word.len()));
            let product: Vec<u8> = left.clone().chain(&at.word).chain(right).copied().collect();
            let stands = left.count() == at.place && product == at.other;
            assert_eq!(stands_at(&at.word, &at.other, at.place).stands, stands, "{at}");
        }
    }

    /// The count by the places from the end: of the compared letters the last to be compared alone may differ,
    /// and where it does not, there is none before it.
    #[test]
    fn count_by_the_ends() {
        for at in every_small() {
            let Stood { stands, compared } = stands_at(&at.word, &at.other, at.place);
            let (length, all) = (at.word.len() as u128, at.other.len() as u128);
            let end = at.place as u128 + length;
            if end > all {
                assert_eq!((stands, compared), (false, 0), "{at}");
                continue;
            }
            // The letters number `back` from the end, 1 the last.
            let same = |back: usize| at.word[at.word.len() - back] == at.other[end as usize - back];
            assert!(compared <= at.word.len() && (1..compared).all(same), "{at}");
            if compared == 0 || same(compared) {
                assert!(stands && compared == at.word.len(), "{at}");
            } else {
                assert!(!stands, "{at}");
            }
        }
    }
}
