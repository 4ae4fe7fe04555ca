//! Longer words: every letter of a package becomes a code word.

use crate::generate::draft::Draft;
use crate::generate::random::Random;
use crate::package::LETTERS;
use crate::poly::Poly;
use crate::word::Word;

/// Replaces letter number i (from 0) by `a`, some `b`, and letter number i + 1. Code words have one length and
/// their `a` stands at the begin alone, so they keep the order of words, and leading words overlap and hold one
/// another as before, but for the empty word: it stands at more places of a longer word. A valid package stays
/// valid unless a word becomes too long or the empty word leads beside others; then None.
pub fn stretched(random: &mut Random, draft: &Draft) -> Option<Draft> {
    let leads_with_none = |f: &Poly| f.keys().all(Word::is_empty);
    if draft.letters > 25 || (draft.basis > 1 && draft.polys('B').iter().any(leads_with_none)) {
        return None;
    }
    let middle = random.below(3) as usize;
    let stretch = |word: &mut Word| {
        let code = |letter: u8| [vec![b'a'], vec![b'b'; middle], vec![letter + 1]].concat();
        word.0 = word.0.iter().flat_map(|letter| code(*letter)).collect();
    };
    let mut result = draft.clone();
    result.letters = draft.letters.max(1) + 1;
    result.terms.iter_mut().for_each(|term| stretch(&mut term.word));
    for sum in &mut result.sums {
        stretch(&mut sum.left);
        stretch(&mut sum.right);
    }
    let terms_fit = result.terms.iter().all(|term| term.word.len() <= LETTERS);
    let sums_fit = result.sums.iter().all(|sum| sum.left.len() <= LETTERS && sum.right.len() <= LETTERS);
    (terms_fit && sums_fit && result.text().len() <= 60_000).then_some(result)
}
