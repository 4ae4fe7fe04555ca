//! Random relations of several kinds, from which a completion often ends.

use crate::coefficients::{negative, GF_256};
use crate::generate::random::Random;
use crate::poly::{add_multiple, add_term, Poly};
use crate::word::Word;

pub const PRIMES: [u64; 12] = [2, 3, 5, 7, 11, 13, 251, 257, 997, 32_749, 65_519, 65_521];

/// A field, a number of letters, and relations in these letters.
pub struct Setting {
    pub p: u64,
    pub letters: u64,
    pub relations: Vec<Poly>,
}

/// What stands in place of p: in one of five cases GF(256), else a prime.
pub fn field(random: &mut Random) -> u64 {
    if random.one_in(5) {
        GF_256
    } else if random.one_in(4) {
        *random.pick(&PRIMES)
    } else {
        *random.pick(&[2, 3, 7, 997, 65_521])
    }
}

/// A few letters in rising order, and how many letters are in use so that they are among them.
pub fn alphabet(random: &mut Random, size: u64) -> (u64, Vec<u8>) {
    let letters = match random.below(4) {
        0 => 26,
        1 => random.between(size, 26),
        _ => size,
    };
    let mut all: Vec<u8> = (b'a'..b'a' + letters as u8).collect();
    while all.len() > size as usize {
        let out = random.index(&all);
        all.remove(out);
    }
    (letters, all)
}

pub fn setting(random: &mut Random) -> Setting {
    let p = field(random);
    let size = random.between(1, 4);
    let (letters, alphabet) = alphabet(random, size);
    let mut relations = match random.below(6) {
        0 => univariate(random, p, &alphabet),
        1 => commuting(random, p, &alphabet),
        2 => binomials(random, p, &alphabet),
        3 => involutions(random, p, &alphabet),
        4 => monomials_and_one(random, p, &alphabet),
        _ => any(random, p, &alphabet),
    };
    if random.one_in(3) && relations.iter().any(|f| !f.is_empty()) {
        relations.push(consequence(random, p, &alphabet, &relations));
    }
    if random.one_in(6) {
        relations.insert(random.below(relations.len() as u64 + 1) as usize, Poly::new());
    }
    Setting { p, letters, relations }
}

/// A polynomial of random terms.
pub fn polynomial(random: &mut Random, p: u64, alphabet: &[u8], terms: u64, length: u64) -> Poly {
    let mut f = Poly::new();
    for _ in 0..terms {
        add_term(p, &mut f, random.coef(p), random.word_between(alphabet, 0, length));
    }
    f
}

/// One letter: the completion is Euclid's algorithm and always ends.
fn univariate(random: &mut Random, p: u64, alphabet: &[u8]) -> Vec<Poly> {
    let count = random.between(1, 3);
    (0..count).map(|_| polynomial(random, p, &alphabet[..1], 4, 7)).collect()
}

/// For each two letters x before y: xy minus a multiple of yx minus lower terms.
fn commuting(random: &mut Random, p: u64, alphabet: &[u8]) -> Vec<Poly> {
    let plain = random.one_in(2);
    let mut relations = Vec::new();
    for (i, x) in alphabet.iter().enumerate() {
        for y in &alphabet[i + 1..] {
            let lower = random.below(3);
            let mut f =
                if random.one_in(2) { polynomial(random, p, alphabet, lower, 1) } else { Poly::new() };
            let coef = if plain { negative(p, 1) } else { random.coef(p) };
            add_term(p, &mut f, coef, Word(vec![*y, *x]));
            add_term(p, &mut f, 1, Word(vec![*x, *y]));
            relations.push(f);
        }
    }
    relations
}

/// Differences of two words with coefficients.
fn binomials(random: &mut Random, p: u64, alphabet: &[u8]) -> Vec<Poly> {
    let count = random.between(1, 3);
    (0..count).map(|_| polynomial(random, p, alphabet, 2, 4)).collect()
}

/// xx - c for each letter, and a braid or a power of a product.
fn involutions(random: &mut Random, p: u64, alphabet: &[u8]) -> Vec<Poly> {
    let constant = random.coef(p);
    let mut relations = Vec::new();
    for x in alphabet {
        let mut f = Poly::from([(Word(vec![*x, *x]), 1)]);
        add_term(p, &mut f, constant, Word::empty());
        if random.one_in(3) {
            add_term(p, &mut f, random.coef(p), Word(vec![*x]));
        }
        relations.push(f);
    }
    if let [x, y, ..] = *alphabet {
        let length = random.between(2, 4) as usize;
        let side = |x: u8, y: u8| Word((0..length).map(|i| if i % 2 == 0 { x } else { y }).collect());
        relations.push(Poly::from([(side(x, y), 1), (side(y, x), negative(p, 1))]));
    }
    relations
}

fn monomials_and_one(random: &mut Random, p: u64, alphabet: &[u8]) -> Vec<Poly> {
    let count = random.between(1, 5);
    let mut relations: Vec<Poly> = (0..count).map(|_| polynomial(random, p, alphabet, 1, 4)).collect();
    relations.push(polynomial(random, p, alphabet, 3, 3));
    relations
}

fn any(random: &mut Random, p: u64, alphabet: &[u8]) -> Vec<Poly> {
    let count = random.between(1, 3);
    let terms = random.between(2, 5);
    (0..count).map(|_| polynomial(random, p, alphabet, terms, 3)).collect()
}

/// A sum of multiples of the relations: one more relation that changes nothing.
fn consequence(random: &mut Random, p: u64, alphabet: &[u8], relations: &[Poly]) -> Poly {
    let mut f = Poly::new();
    for _ in 0..random.between(1, 3) {
        let (left, right) = (random.word_between(alphabet, 0, 2), random.word_between(alphabet, 0, 2));
        add_multiple(p, &mut f, random.coef(p), &left, random.pick(relations), &right);
    }
    f
}
