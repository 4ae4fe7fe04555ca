//! Packages of any size up to all bounds of the format, with a certificate that is easy to write.
//!
//! Relations: aa - b, and for each pair of words x, y in the letters c to z: ax - Y, where Y is a polynomial with the
//! leading word y. Basis: aa - b, ab - ba, and for each pair ax - Y and aY - bx. Only aa overlaps others (itself, ab,
//! ax and ay), so a package of n pairs has 2 + 2n overlaps. With 31 pairs it has 32 relations, 64 basis polynomials,
//! 1,023 term lines and words of 24 letters; the first pair's polynomials have 48 terms. Sum lines that cancel each
//! other fill it up to the bytes that are asked for.

use crate::random::Random;
use std::fmt::Write;

/// Minus c in GF(p), or in GF(256) where p is 256.
pub fn minus(p: usize, c: usize) -> usize {
    match p {
        256 => c,
        _ => p - c,
    }
}

/// x, and Y as coefficients and words in falling order, the first coefficient 1.
pub struct Pair {
    pub x: String,
    pub y: Vec<(usize, String)>,
}

/// Pair i, with so many terms in Y and so many letters in each word: the first two letters say which pair, and x or y, so
/// that no word begins another.
pub fn pair(random: &mut Random, p: usize, i: usize, terms: usize, len: usize) -> Pair {
    let prefix = |code: usize| [b'c' + (code / 24) as u8, b'c' + (code % 24) as u8].map(char::from);
    let mut word = |code| String::from_iter(prefix(code)) + &random.word(b'c', b'z', len - 2);
    let x = word(2 * i);
    let mut words: Vec<String> = (0..terms).map(|_| word(2 * i + 1)).collect();
    words.sort();
    words.dedup();
    assert_eq!(words.len(), terms, "distinct words");
    let coef = |k| if k == 0 { 1 } else { 1 + random.below(p - 1) };
    let coefs: Vec<usize> = (0..terms).map(coef).collect();
    Pair { x, y: coefs.into_iter().zip(words).collect() }
}

/// The package over GF(p), or over GF(256), of so many pairs, 1 to 31, in at most so many bytes.
pub fn package(p: usize, pairs: usize, bytes: usize) -> Vec<u8> {
    let mut random = Random::new(pairs as u64);
    let size = |i: usize| match i {
        0 => (47, 23),
        _ => (if i <= 21 { 9 } else { 8 }, 5 + i * 7 % 19),
    };
    let pairs = (0..pairs).map(|i| pair(&mut random, p, i, size(i).0, size(i).1));
    let pairs: Vec<Pair> = pairs.collect();
    let n = pairs.len();
    let mut head = format!("p letters gens basis\n{p} 26 {} {}\nkind item coef word\n", 1 + n, 2 + 2 * n);
    terms(&mut head, p, &pairs);
    head += "kind item coef left of right\n";
    let mut basis = basis_sums(p, &pairs);
    let mut rest = "G 1 1 - 1 -\n".to_string();
    for i in 0..n {
        writeln!(rest, "G {} 1 - {} -", 2 + i, 3 + 2 * i).unwrap();
    }
    overlap_sums(&mut rest, p, &pairs);
    let used = head.len() + rest.len() + basis.iter().map(String::len).sum::<usize>();
    assert!(used <= bytes, "{n} pairs need {used} bytes");
    fill(&mut random, p, &mut basis, n, bytes - used);
    (head + &basis.concat() + &rest).into_bytes()
}

/// Block 2.
fn terms(text: &mut String, p: usize, pairs: &[Pair]) {
    let minus = |c: usize| minus(p, c);
    writeln!(text, "G 1 1 aa\nG 1 {} b", minus(1)).unwrap();
    let write_ax = |text: &mut String, kind: char, item: usize, pair: &Pair| {
        writeln!(text, "{kind} {item} 1 a{}", pair.x).unwrap();
        for (c, y) in &pair.y {
            writeln!(text, "{kind} {item} {} {y}", minus(*c)).unwrap();
        }
    };
    for (i, pair) in pairs.iter().enumerate() {
        write_ax(text, 'G', 2 + i, pair);
    }
    writeln!(text, "B 1 1 aa\nB 1 {} b\nB 2 1 ab\nB 2 {} ba", minus(1), minus(1)).unwrap();
    for (i, pair) in pairs.iter().enumerate() {
        write_ax(text, 'B', 3 + 2 * i, pair);
        let item = 4 + 2 * i;
        for (c, y) in &pair.y {
            writeln!(text, "B {item} {c} a{y}").unwrap();
        }
        writeln!(text, "B {item} {} b{}", minus(1), pair.x).unwrap();
    }
}

/// The lines of each B item: ab - ba is (aa - b) a - a (aa - b), and aY - bx is (aa - b) x - a (ax - Y).
fn basis_sums(p: usize, pairs: &[Pair]) -> Vec<String> {
    let minus = minus(p, 1);
    let mut sums = vec!["B 1 1 - 1 -\n".to_string(), format!("B 2 1 - 1 a\nB 2 {minus} a 1 -\n")];
    for (i, pair) in pairs.iter().enumerate() {
        let (item, relation) = (3 + 2 * i, 2 + i);
        sums.push(format!("B {item} 1 - {relation} -\n"));
        sums.push(format!("B {} 1 - 1 {}\nB {} {minus} a {relation} -\n", item + 1, pair.x, item + 1));
    }
    sums
}

/// The O lines. aa with ay: the difference is (ab - ba) x + b (ax - Y) - the sum of c (aa - b) y' over the other terms
/// c y' of Y.
fn overlap_sums(text: &mut String, p: usize, pairs: &[Pair]) {
    text.push_str("O 1 1 - 2 -\nO 2 1 - 2 a\nO 2 1 b 1 -\n");
    for (i, pair) in pairs.iter().enumerate() {
        let item = 3 + 2 * i;
        writeln!(text, "O {item} 1 - {} -", item + 1).unwrap();
        writeln!(text, "O {} 1 - 2 {}\nO {} 1 b {item} -", item + 1, pair.x, item + 1).unwrap();
        for (c, y) in &pair.y[1..] {
            writeln!(text, "O {} {} - 1 {y}", item + 1, minus(p, *c)).unwrap();
        }
    }
}

/// Adds lines that cancel each other, with short and long words, in turn to all B items. Every 16th item first gets ten
/// multiples of the relation with 48 terms and then takes them away, so that 480 terms are held.
fn fill(random: &mut Random, p: usize, items: &mut [String], pairs: usize, mut room: usize) {
    let line = |item: usize, c: usize, left: &str, of: usize, right: &str| {
        format!("B {} {c} {left} {of} {right}\n", item + 1)
    };
    for k in 0.. {
        let item = k % items.len();
        let (count, len, of) = match k {
            _ if k < items.len() && k % 16 == 0 => (10, 24, 2),
            _ if k % 8 == 7 => (1, 1 + random.below(24), 1 + random.below(1 + pairs)),
            _ => (1, 1, 1),
        };
        let (mut added, mut taken) = (String::new(), String::new());
        for _ in 0..count {
            let (c, left) = (1 + random.below(p - 1), random.word(b'c', b'z', len));
            let right = random.word(b'c', b'z', len);
            added += &line(item, c, &left, of, &right);
            taken += &line(item, minus(p, c), &left, of, &right);
        }
        if room < added.len() + taken.len() {
            return;
        }
        room -= added.len() + taken.len();
        items[item] += &added;
        items[item] += &taken;
    }
}
