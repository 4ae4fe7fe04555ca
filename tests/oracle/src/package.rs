//! Reading a package: refusals 1 to 7, line by line from the top.

use crate::coefficients::is_field;
use crate::lines::{fields, number, word, Lines};
use crate::poly::Poly;
use crate::refusal::{refuse, Refusal};
use crate::word::Word;
use std::collections::BTreeMap;

pub const PACKAGE_BYTES: usize = 65_536;
pub const TERM_LINES: u64 = 1_024;
pub const TERMS: usize = 48;
pub const LETTERS: usize = 24;

const NAMES_1: &[u8] = b"p letters gens basis";
const NAMES_2: &[u8] = b"kind item coef word";
const NAMES_3: &[u8] = b"kind item coef left of right";

/// A sum line adds coef × left × (polynomial number `of`) × right.
#[derive(Clone, Debug)]
pub struct SumLine {
    /// The number of the line in the package, for places.
    pub line: u64,
    pub coef: u64,
    pub left: Word,
    pub of: u64,
    pub right: Word,
}

/// A package that reads. Polynomials and items are numbered from 1; item i stands at index i - 1.
#[derive(Debug)]
pub struct Package {
    pub p: u64,
    pub letters: u64,
    pub relations: Vec<Poly>,
    pub basis: Vec<Poly>,
    pub b_sums: Vec<Vec<SumLine>>,
    pub g_sums: Vec<Vec<SumLine>>,
    /// By item. An O item has no upper bound here.
    pub o_sums: BTreeMap<u64, Vec<SumLine>>,
}

/// Whether a word has at most 24 letters, all among the first `letters` of the alphabet.
pub fn word_in_bounds(word: &Word, letters: u64) -> bool {
    word.len() <= LETTERS && word.0.iter().all(|letter| u64::from(letter - b'a') < letters)
}

/// Reads a package or refuses it by 1 to 7.
pub fn read(bytes: &[u8]) -> Result<Package, Refusal> {
    if bytes.len() > PACKAGE_BYTES {
        return refuse(1, 0);
    }
    let lines = Lines::of(bytes);
    names(&lines, 1, NAMES_1)?;
    let mut package = counts(&lines)?;
    names(&lines, 3, NAMES_2)?;
    let line = read_terms(&lines, &mut package)?;
    read_sums(&lines, line, &mut package)?;
    Ok(package)
}

/// Line `line` must be exactly these names.
fn names(lines: &Lines, line: u64, expected: &[u8]) -> Result<(), Refusal> {
    if lines.get(line) == Some(expected) {
        Ok(())
    } else {
        refuse(2, line)
    }
}

/// Line 2, where it has its shape: p and three counts.
fn values(lines: &Lines) -> Option<[u64; 4]> {
    let numbers: Option<Vec<u64>> = fields(lines.get(2)?).into_iter().map(number).collect();
    numbers?.try_into().ok()
}

/// What stands in place of p, where lines 1 and 2 have their shape, whatever else is wrong.
pub fn stated_p(bytes: &[u8]) -> Option<u64> {
    let lines = Lines::of(bytes);
    names(&lines, 1, NAMES_1).ok()?;
    values(&lines).map(|[p, ..]| p)
}

/// Line 2: p and three counts. 2 for the whole line, then 3, then 4.
fn counts(lines: &Lines) -> Result<Package, Refusal> {
    let Some([p, letters, gens, basis]) = values(lines) else {
        return refuse(2, 2);
    };
    if !is_field(p) {
        return refuse(3, 2);
    }
    if !(1..=26).contains(&letters) || gens > 32 || basis > 64 {
        return refuse(4, 2);
    }
    Ok(Package {
        p,
        letters,
        relations: vec![Poly::new(); gens as usize],
        basis: vec![Poly::new(); basis as usize],
        b_sums: vec![Vec::new(); basis as usize],
        g_sums: vec![Vec::new(); gens as usize],
        o_sums: BTreeMap::new(),
    })
}

/// Block 2, from line 4 to the names line of block 3. Gives the number of the line behind that names line.
fn read_terms(lines: &Lines, package: &mut Package) -> Result<u64, Refusal> {
    let mut line = 4;
    let mut count = 0;
    // Kind, item and word of the line above, kinds in their order: G is 0, B is 1.
    let mut above: Option<(u64, u64, Word)> = None;
    loop {
        let Some(text) = lines.get(line) else {
            return refuse(2, line);
        };
        if text == NAMES_3 {
            return Ok(line + 1);
        }
        let Some((kind, item, coef, word)) = term_shape(text) else {
            return refuse(2, line);
        };
        let polys = if kind == 0 { &mut package.relations } else { &mut package.basis };
        let item_in_bounds = 1 <= item && item <= polys.len() as u64;
        if !item_in_bounds || coef == 0 || coef >= package.p || !word_in_bounds(&word, package.letters) {
            return refuse(5, line);
        }
        if let Some((kind_above, item_above, word_above)) = &above {
            let same_item = (kind, item) == (*kind_above, *item_above);
            if (kind, item) < (*kind_above, *item_above) || (same_item && word >= *word_above) {
                return refuse(6, line);
            }
        }
        let poly = &mut polys[item as usize - 1];
        count += 1;
        if poly.len() == TERMS || count > TERM_LINES {
            return refuse(7, line);
        }
        poly.insert(word.clone(), coef);
        above = Some((kind, item, word));
        line += 1;
    }
}

/// The shape of a term line: four fields, a kind of block 2, two numbers, a word.
fn term_shape(text: &[u8]) -> Option<(u64, u64, u64, Word)> {
    let &[kind, item, coef, letters] = fields(text).as_slice() else {
        return None;
    };
    let kind = match kind {
        b"G" => 0,
        b"B" => 1,
        _ => return None,
    };
    Some((kind, number(item)?, number(coef)?, word(letters)?))
}

/// Block 3, from `line` to the end of the bytes.
fn read_sums(lines: &Lines, mut line: u64, package: &mut Package) -> Result<(), Refusal> {
    let gens = package.relations.len() as u64;
    let basis = package.basis.len() as u64;
    // Kind and item of the line above, kinds in their order: B is 0, G is 1, O is 2.
    let mut above = (0, 0);
    while let Some(text) = lines.get(line) {
        let Some((kind, item, sum)) = sum_shape(text, line) else {
            return refuse(2, line);
        };
        // What the items and `of` are bounded by: a B sum is over relations, G and O sums over the basis.
        let (items, polys) = match kind {
            0 => (basis, gens),
            1 => (gens, basis),
            _ => (u64::MAX, basis),
        };
        let in_bounds = (1..=items).contains(&item)
            && (1..package.p).contains(&sum.coef)
            && (1..=polys).contains(&sum.of)
            && word_in_bounds(&sum.left, package.letters)
            && word_in_bounds(&sum.right, package.letters);
        if !in_bounds {
            return refuse(5, line);
        }
        if (kind, item) < above {
            return refuse(6, line);
        }
        above = (kind, item);
        match kind {
            0 => package.b_sums[item as usize - 1].push(sum),
            1 => package.g_sums[item as usize - 1].push(sum),
            _ => package.o_sums.entry(item).or_default().push(sum),
        }
        line += 1;
    }
    if lines.unfinished {
        return refuse(2, line);
    }
    Ok(())
}

/// The shape of a sum line: six fields, a kind of block 3, two numbers, a word, a number, a word.
fn sum_shape(text: &[u8], line: u64) -> Option<(u64, u64, SumLine)> {
    let &[kind, item, coef, left, of, right] = fields(text).as_slice() else {
        return None;
    };
    let kind = match kind {
        b"B" => 0,
        b"G" => 1,
        b"O" => 2,
        _ => return None,
    };
    let sum = SumLine { line, coef: number(coef)?, left: word(left)?, of: number(of)?, right: word(right)? };
    Some((kind, number(item)?, sum))
}
