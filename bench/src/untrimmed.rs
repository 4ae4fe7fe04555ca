//! A package whose basis is not trimmed: 64 polynomials, half of whose leading words hold others.
//!
//! Relations: A = aa - b, and F = ax - Y for 15 pairs of words x, y as in `near_bounds`, where Y has the leading word y.
//! Basis: 16 groups of four. Those of a pair are P = A x and Q = a F, which both lead with aax, and F and H = aY - bx;
//! the group in the middle has F = ab - ba, so that x is b and Y is ba, and A in the place of H.
//!
//! Only aa overlaps others: all 64, itself too. Each aax holds aa at 0 and ax at 1, and P and Q lead with the same word:
//! five inclusions a group. So there are 64 overlaps and 80 inclusions. As aa stands in the middle, a step at aax takes P in
//! the groups before and A in those behind.

use crate::near_bounds::{minus, pair, Pair};
use crate::random::Random;
use std::fmt::Write;

const P: usize = 65_521;
const MINUS: usize = P - 1;
/// How many groups there are, and which is the one in the middle.
const GROUPS: usize = 16;
const MIDDLE: usize = 8;
/// The numbers of aa - b and of ab - ba.
const A: usize = 4 * MIDDLE + 4;
const C: usize = 4 * MIDDLE + 3;

type Poly = Vec<(usize, String)>;

/// left × (a polynomial times a coefficient).
fn times(coef: usize, left: &str, poly: &Poly) -> Poly {
    poly.iter().map(|(c, word)| (coef * c % P, format!("{left}{word}"))).collect()
}

/// What is taken away from a word with the coefficient 1.
fn word_less(word: String, less: &Poly) -> Poly {
    [vec![(1, word)], times(MINUS, "", less)].concat()
}

/// A sum line behind its kind and item: coefficient, left, number and right.
type Line<'a> = (usize, &'a str, usize, &'a str);

/// A word as text.
fn shown(word: &str) -> &str {
    if word.is_empty() {
        return "-";
    }
    word
}

fn write_sum(text: &mut String, kind: char, item: usize, lines: &[Line]) {
    for (coef, left, of, right) in lines {
        writeln!(text, "{kind} {item} {coef} {} {of} {}", shown(left), shown(right)).unwrap();
    }
}

fn write_terms(text: &mut String, kind: char, item: usize, poly: &Poly) {
    for (coef, word) in poly {
        writeln!(text, "{kind} {item} {coef} {word}").unwrap();
    }
}

/// x and Y of all groups.
fn groups() -> Vec<Pair> {
    let mut random = Random::new(2);
    let mut pairs: Vec<Pair> = (1..GROUPS).map(|i| pair(&mut random, P, i, 15, 5 + i * 7 % 18)).collect();
    pairs.insert(MIDDLE, Pair { x: "b".into(), y: vec![(1, "ba".into())] });
    pairs
}

/// The relation of a group other than the middle one.
fn relation(g: usize) -> usize {
    2 + g - usize::from(g > MIDDLE)
}

pub fn package() -> Vec<u8> {
    let groups = groups();
    let mut text = format!("p letters gens basis\n{P} 26 {GROUPS} {}\nkind item coef word\n", 4 * GROUPS);
    let square = word_less("aa".into(), &vec![(1, "b".into())]);
    let f = |group: &Pair| word_less(format!("a{}", group.x), &group.y);
    write_terms(&mut text, 'G', 1, &square);
    for (g, group) in groups.iter().enumerate().filter(|(g, _)| *g != MIDDLE) {
        write_terms(&mut text, 'G', relation(g), &f(group));
    }
    for (g, group) in groups.iter().enumerate() {
        let bx = vec![(1, format!("b{}", group.x))];
        let aax = format!("aa{}", group.x);
        let h = [times(1, "a", &group.y), times(MINUS, "", &bx)].concat();
        let last = if g == MIDDLE { square.clone() } else { h };
        let four = [word_less(aax.clone(), &bx), word_less(aax, &times(1, "a", &group.y)), f(group), last];
        for (item, poly) in (4 * g + 1..).zip(&four) {
            write_terms(&mut text, 'B', item, poly);
        }
    }
    text += "kind item coef left of right\n";
    groups.iter().enumerate().for_each(|(g, group)| basis_sums(&mut text, g, &group.x));
    write_sum(&mut text, 'G', 1, &[(1, "", A, "")]);
    for g in (0..GROUPS).filter(|g| *g != MIDDLE) {
        write_sum(&mut text, 'G', relation(g), &[(1, "", 4 * g + 3, "")]);
    }
    groups.iter().enumerate().for_each(|(g, group)| overlap_sums(&mut text, g, group));
    inclusion_sums(&mut text);
    text.into_bytes()
}

/// The B lines of a group: over the relations A is 1 A, and ab - ba is A a - a A.
fn basis_sums(text: &mut String, g: usize, x: &str) {
    let item = 4 * g + 1;
    let of = relation(g);
    write_sum(text, 'B', item, &[(1, "", 1, x)]);
    if g == MIDDLE {
        write_sum(text, 'B', item + 1, &[(1, "a", 1, "a"), (MINUS, "aa", 1, "")]);
        write_sum(text, 'B', item + 2, &[(1, "", 1, "a"), (MINUS, "a", 1, "")]);
        write_sum(text, 'B', item + 3, &[(1, "", 1, "")]);
    } else {
        write_sum(text, 'B', item + 1, &[(1, "a", of, "")]);
        write_sum(text, 'B', item + 2, &[(1, "", of, "")]);
        write_sum(text, 'B', item + 3, &[(1, "", 1, x), (MINUS, "a", of, "")]);
    }
}

/// aY - bx over the basis: H, and in the middle aba - bb = (ab - ba) a + b (aa - b).
fn h_lines(g: usize, coef: usize) -> Vec<Line<'static>> {
    match g {
        MIDDLE => vec![(coef, "", C, "a"), (coef, "b", A, "")],
        _ => vec![(coef, "", 4 * g + 4, "")],
    }
}

/// The O lines of aa with the words of a group, with C = ab - ba:
/// A ax - a P = C x; A ax - a Q = A Y - b F; A x - a F = aY - bx; A y - a H = C x + b F - A (Y - y); and A a - a A = C.
fn overlap_sums(text: &mut String, g: usize, Pair { x, y }: &Pair) {
    let (item, f) = (4 * g + 1, 4 * g + 3);
    write_sum(text, 'O', item, &[(1, "", C, x)]);
    let mut lines: Vec<Line> = y.iter().map(|(c, word)| (*c, "", A, word.as_str())).collect();
    lines.push((MINUS, "b", f, ""));
    write_sum(text, 'O', item + 1, &lines);
    write_sum(text, 'O', item + 2, &h_lines(g, 1));
    let mut lines: Vec<Line> = vec![(1, "", C, x), (1, "b", f, "")];
    lines.extend(y[1..].iter().map(|(c, word)| (minus(P, *c), "", A, word.as_str())));
    write_sum(text, 'O', item + 3, if g == MIDDLE { &[(1, "", C, "")] } else { &lines });
}

/// The O lines of the inclusions: P - Q and P - a F are aY - bx, Q - A x is minus that, P - A x and Q - a F are zero.
fn inclusion_sums(text: &mut String) {
    let mut item = 4 * GROUPS;
    for g in 0..GROUPS {
        let (q, f) = (4 * g + 2, 4 * g + 3);
        for mut seconds in [vec![(q, 1), (f, 1), (A, 0)], vec![(f, 0), (A, MINUS)]] {
            seconds.sort();
            for (_, coef) in seconds {
                item += 1;
                let lines = if coef == 0 { vec![] } else { h_lines(g, coef) };
                write_sum(text, 'O', item, &lines);
            }
        }
    }
}
