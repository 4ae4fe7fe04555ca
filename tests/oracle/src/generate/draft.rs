//! A package as lines that can be edited before it is written.

use crate::package::{Package, SumLine};
use crate::poly::Poly;
use crate::word::Word;

#[derive(Clone, Debug)]
pub struct Term {
    pub kind: char,
    pub item: u64,
    pub coef: u64,
    pub word: Word,
}

#[derive(Clone, Debug)]
pub struct Sum {
    pub kind: char,
    pub item: u64,
    pub coef: u64,
    pub left: Word,
    pub of: u64,
    pub right: Word,
}

/// A draft holds whatever lines were put into it; nothing in it needs to be right.
#[derive(Clone, Debug)]
pub struct Draft {
    pub p: u64,
    pub letters: u64,
    pub gens: u64,
    pub basis: u64,
    pub terms: Vec<Term>,
    pub sums: Vec<Sum>,
}

impl Sum {
    pub fn new(kind: char, item: u64, coef: u64, left: &Word, of: u64, right: &Word) -> Sum {
        Sum { kind, item, coef, left: left.clone(), of, right: right.clone() }
    }
}

impl Draft {
    /// The draft with these polynomials and no sum lines.
    pub fn of(p: u64, letters: u64, relations: &[Poly], basis: &[Poly]) -> Draft {
        let mut terms = Vec::new();
        for (kind, polys) in [('G', relations), ('B', basis)] {
            for (f, item) in polys.iter().zip(1..) {
                let falling = f.iter().rev();
                terms.extend(falling.map(|(word, coef)| Term {
                    kind,
                    item,
                    coef: *coef,
                    word: word.clone(),
                }));
            }
        }
        let (gens, basis) = (relations.len() as u64, basis.len() as u64);
        Draft { p, letters, gens, basis, terms, sums: Vec::new() }
    }

    /// The lines of a package that reads.
    pub fn of_package(package: &Package) -> Draft {
        let mut draft = Draft::of(package.p, package.letters, &package.relations, &package.basis);
        let mut put = |kind, item, lines: &[SumLine]| {
            for SumLine { coef, left, of, right, .. } in lines {
                draft.sums.push(Sum::new(kind, item, *coef, left, *of, right));
            }
        };
        for (kind, items) in [('B', &package.b_sums), ('G', &package.g_sums)] {
            items.iter().zip(1..).for_each(|(lines, item)| put(kind, item, lines));
        }
        package.o_sums.iter().for_each(|(item, lines)| put('O', *item, lines));
        draft
    }

    /// Puts the sum lines into the order of kinds and items. Lines of one item keep their order.
    pub fn sort_sums(&mut self) {
        let rank = |kind: char| "BGO".find(kind).unwrap_or(3);
        self.sums.sort_by_key(|sum| (rank(sum.kind), sum.item));
    }

    /// The polynomials of one kind, as far as the draft's lines give them.
    pub fn polys(&self, kind: char) -> Vec<Poly> {
        let count = if kind == 'G' { self.gens } else { self.basis };
        let mut polys = vec![Poly::new(); count as usize];
        for term in self.terms.iter().filter(|term| term.kind == kind) {
            if let Some(poly) = polys.get_mut((term.item as usize).wrapping_sub(1)) {
                poly.insert(term.word.clone(), term.coef);
            }
        }
        polys
    }

    /// The package's bytes.
    pub fn text(&self) -> Vec<u8> {
        let mut text = String::from("p letters gens basis\n");
        text += &format!("{} {} {} {}\n", self.p, self.letters, self.gens, self.basis);
        text += "kind item coef word\n";
        for Term { kind, item, coef, word } in &self.terms {
            text += &format!("{kind} {item} {coef} {}\n", field(word));
        }
        text += "kind item coef left of right\n";
        for Sum { kind, item, coef, left, of, right } in &self.sums {
            text += &format!("{kind} {item} {coef} {} {of} {}\n", field(left), field(right));
        }
        text.into_bytes()
    }
}

fn field(word: &Word) -> String {
    String::from_utf8_lossy(&word.text()).into_owned()
}
