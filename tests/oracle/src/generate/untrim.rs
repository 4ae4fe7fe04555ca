//! More basis polynomials for a valid package, so that leading words stand inside one another.

use crate::generate::certify::certified;
use crate::generate::draft::Draft;
use crate::generate::known::{apart, Known};
use crate::generate::random::Random;
use crate::list::list;
use crate::package::LETTERS;
use crate::poly::{lead_word, Poly};
use crate::word::Word;

/// The most basis polynomials of a package, and the most term lines and entries of the list here.
const BASIS: usize = 64;
const TERM_LINES: usize = 1_000;
const ENTRIES: usize = 3_000;

/// The most terms of a polynomial that is added, and the most lines of its sum.
const TERMS: usize = 40;
const SUM_LINES: usize = 100;

/// The package with one to four more polynomials of its ideal among its basis, or with 64 in all, in any order and all
/// certified. None: there is nothing to add, or the package or its list becomes too long.
pub fn untrimmed(random: &mut Random, draft: &Draft) -> Option<Draft> {
    let mut basis = Known::basis(draft);
    if basis.is_empty() {
        return None;
    }
    let (before, crowded) = (basis.len(), random.one_in(12));
    let more = if crowded { BASIS } else { random.between(1, 4) as usize };
    let mut lines = draft.terms.len();
    for _ in 0..more.min(BASIS - before) {
        let kind = if crowded { random.below(3) } else { random.below(9) };
        let Some(added) = addition(random, draft, &basis, kind) else { break };
        lines += added.poly.len();
        if lines > TERM_LINES {
            break;
        }
        basis.push(added);
    }
    random.shuffle(&mut basis);
    let polys: Vec<Poly> = basis.iter().map(|known| known.poly.clone()).collect();
    if polys.len() == before || list(&polys).len() > ENTRIES {
        return None;
    }
    certified_again(draft, basis)
}

/// The package with copies of these basis polynomials behind the others, certified again.
pub fn with_copies(draft: &Draft, items: &[u64]) -> Option<Draft> {
    let mut basis = Known::basis(draft);
    items.iter().for_each(|item| basis.push(basis[*item as usize - 1].clone()));
    certified_again(draft, basis)
}

/// The package with its basis in another order: the polynomial with number order[0] is the first now.
pub fn in_order(draft: &Draft, order: &[u64]) -> Option<Draft> {
    let basis = Known::basis(draft);
    certified_again(draft, order.iter().map(|item| basis[*item as usize - 1].clone()).collect())
}

fn certified_again(draft: &Draft, basis: Vec<Known>) -> Option<Draft> {
    let (polys, sums) = apart(basis);
    certified(draft.p, draft.letters, &draft.polys('G'), &polys, &sums)
}

/// A polynomial of the ideal that leads with 1 and whose leading word holds one of the basis: a copy, a multiple, a
/// product, or one of these with another tail. None: ten tries gave nothing within the bounds.
fn addition(random: &mut Random, draft: &Draft, basis: &[Known], kind: u64) -> Option<Known> {
    let alphabet: Vec<u8> = (b'a'..b'a' + draft.letters.min(3) as u8).collect();
    for _ in 0..10 {
        let g = random.pick(basis).clone();
        let mut added = match kind {
            0 | 1 => g,
            2 | 3 => multiple(random, draft.p, &alphabet, &g),
            4 => repeated(random, draft.p, &g),
            5 => product(draft.p, &g, &random.word_between(&alphabet, 0, 1), random.pick(basis)),
            6 | 7 => with_lower(random, draft.p, &alphabet, g, basis),
            _ => {
                let g = multiple(random, draft.p, &alphabet, &g);
                with_lower(random, draft.p, &alphabet, g, basis)
            }
        };
        let small = added.poly.len() <= TERMS && added.sum.len() <= SUM_LINES;
        if !added.poly.is_empty() && small && lead_word(&added.poly).len() <= LETTERS {
            added.make_monic(draft.p);
            return Some(added);
        }
    }
    None
}

/// Left × g × right.
fn multiple(random: &mut Random, p: u64, alphabet: &[u8], g: &Known) -> Known {
    let (left, right) = (random.word_between(alphabet, 0, 3), random.word_between(alphabet, 0, 3));
    let mut f = Known::zero();
    f.add(p, 1, &left, g, &right);
    f
}

/// g × a power of its leading word, which stands in the product at several places.
fn repeated(random: &mut Random, p: u64, g: &Known) -> Known {
    let word = lead_word(&g.poly);
    let power = Word(word.0.repeat(random.between(1, 3) as usize));
    let mut f = Known::zero();
    f.add(p, 1, &Word::empty(), g, &power);
    f
}

/// g × middle × h, whose leading word holds both leading words.
fn product(p: u64, g: &Known, middle: &Word, h: &Known) -> Known {
    let mut f = Known::zero();
    for (word, coef) in &h.poly {
        f.add(p, *coef, &Word::empty(), g, &middle.times(word));
    }
    f
}

/// f and a multiple of a basis polynomial below its leading word, so that it has another tail. It stays as it is where
/// no such multiple is found.
fn with_lower(random: &mut Random, p: u64, alphabet: &[u8], mut f: Known, basis: &[Known]) -> Known {
    for _ in 0..6 {
        let h = random.pick(basis);
        let (left, right) = (random.word_between(alphabet, 0, 2), random.word_between(alphabet, 0, 2));
        if left.times(lead_word(&h.poly)).times(&right) < *lead_word(&f.poly) {
            f.add(p, random.coef(p), &left, h, &right);
            break;
        }
    }
    f
}

#[cfg(test)]
mod tests {
    use super::*;
    use crate::generate::edits::E;
    use crate::generate::families::constant;
    use crate::generate::formulas::Ground;
    use crate::generate::relations::PRIMES;
    use crate::inclusions::is_untrimmed;
    use crate::package::read;
    use crate::services::{check, short_form};

    fn e() -> Draft {
        Draft::of_package(&read(E.as_bytes()).expect("a package that reads"))
    }

    #[test]
    fn more_polynomials_are_accepted() {
        let mut made = 0;
        for round in 0..200 {
            let random = &mut Random::new(20, round);
            let p = *random.pick(&[&PRIMES[..], &[256]].concat());
            let draft = if random.one_in(2) { constant(p, 2, random.coef(p)) } else { e() };
            if let Some(more) = untrimmed(random, &draft) {
                let text = more.text();
                assert_eq!(check(&text).number, 0, "{}", String::from_utf8_lossy(&text));
                assert!(is_untrimmed(&more.polys('B')));
                made += 1;
            }
        }
        assert!(made >= 180, "{made} of 200");
    }

    /// Short forms stay unique: of a formula they are the same under each basis of one ideal.
    #[test]
    fn short_forms_are_those_of_the_trimmed_basis() {
        let (trimmed, mut compared) = (e(), 0);
        for round in 0..200 {
            let random = &mut Random::new(21, round);
            let Some(more) = untrimmed(random, &trimmed) else { continue };
            let formula = Ground::of(&more).formula(random);
            let answers = [&trimmed, &more].map(|draft| short_form(&draft.text(), &formula, 1_000, 9_999));
            if answers.iter().all(|answer| answer.number == 0) {
                assert_eq!(answers[0].output, answers[1].output, "{}", String::from_utf8_lossy(&formula));
                compared += 1;
            }
        }
        assert!(compared >= 120, "{compared} of 200");
    }

    #[test]
    fn copies_and_orders() {
        let copied = with_copies(&e(), &[2, 1]).expect("certified");
        // The overlaps of `aa`, `ab`, `ab` and `aa`, and the two inclusions.
        let answer = check(&copied.text());
        assert_eq!((answer.number, answer.count), (0, 10));
        let turned = in_order(&copied, &[4, 3, 2, 1]).expect("certified");
        assert_eq!(turned.polys('B'), copied.polys('B').into_iter().rev().collect::<Vec<_>>());
        assert_eq!(check(&turned.text()), answer);
    }
}
