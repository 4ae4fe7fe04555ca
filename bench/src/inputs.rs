//! Packages and formulas: those of the files, and random formulas under a package.

use crate::random::Random;
use std::fs;
use std::path::{Path, PathBuf};

pub struct Named {
    pub name: String,
    pub bytes: Vec<u8>,
}

/// The files of a directory with this ending, by name.
fn files(directory: &Path, ending: &str) -> Vec<Named> {
    let entries = fs::read_dir(directory).unwrap_or_else(|error| panic!("{}: {error}", directory.display()));
    let paths = entries.map(|entry| entry.expect("an entry").path());
    let mut paths: Vec<PathBuf> =
        paths.filter(|path| path.extension().is_some_and(|e| e == ending)).collect();
    paths.sort();
    let named = |path: PathBuf| Named {
        name: path.file_stem().expect("a name").to_string_lossy().into_owned(),
        bytes: fs::read(&path).unwrap_or_else(|error| panic!("{}: {error}", path.display())),
    };
    paths.into_iter().map(named).collect()
}

fn here() -> &'static Path {
    Path::new(env!("CARGO_MANIFEST_DIR"))
}

/// The packages of examples/ and of bench/packages/, smallest first.
pub fn packages() -> Vec<Named> {
    let mut packages = files(&here().join("../examples"), "pkg");
    packages.extend(files(&here().join("packages"), "pkg"));
    packages.sort_by_key(|package| package.bytes.len());
    packages
}

/// The stored formulas of a package, smallest first: bench/formulas/PACKAGE.CLASS.formula.
pub fn stored_formulas(package: &str) -> Vec<Named> {
    let mut formulas = files(&here().join("formulas"), "formula");
    formulas.retain(|formula| formula.name.split('.').next() == Some(package));
    for formula in &mut formulas {
        formula.name = formula.name.split('.').nth(1).expect("a class").to_string();
    }
    formulas.sort_by_key(|formula| formula.bytes.len());
    formulas
}

/// The number in place of p, the last letter in use, and the leading words of the basis.
pub fn leads(package: &[u8]) -> (usize, u8, Vec<String>) {
    let text = String::from_utf8_lossy(package);
    let mut lines = text.lines().map(|line| line.split(' ').collect::<Vec<_>>());
    let counts: Vec<usize> =
        lines.nth(1).expect("line 2").iter().map(|n| n.parse().expect("a number")).collect();
    let mut leads: Vec<(String, String)> = Vec::new();
    for fields in lines {
        if fields.len() == 4 && fields[0] == "B" && leads.last().is_none_or(|(item, _)| item != fields[1]) {
            leads.push((fields[1].to_string(), fields[3].to_string()));
        }
    }
    (counts[0], b'a' + counts[1] as u8 - 1, leads.into_iter().map(|(_, word)| word).collect())
}

/// A formula of so many terms of so many letters. Half of the pieces of a word are leading words of the package.
pub fn random_formula(seed: u64, package: &[u8], terms: usize, len: usize) -> Vec<u8> {
    let random = &mut Random::new(seed);
    let (p, last, leads) = leads(package);
    let mut words: Vec<String> = Vec::new();
    while words.len() < terms {
        let mut word = String::new();
        while word.len() < len {
            let lead = &leads[random.below(leads.len())];
            if random.below(2) == 0 && word.len() + lead.len() <= len {
                word += lead;
            } else {
                word += &random.word(b'a', last, 1);
            }
        }
        if !words.contains(&word) {
            words.push(word);
        }
    }
    words.sort();
    let lines = words.iter().map(|word| format!("{} {word}\n", 1 + random.below(p - 1)));
    format!("coef word\n{}", lines.collect::<String>()).into_bytes()
}
