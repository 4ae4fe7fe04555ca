//! How many letters a comparison one by one takes to say whether one word stands at a place of another, counted on the
//! leading words of a package: from the last letter back to the first that differs, and from the first letter on. The
//! letter that differs is counted; where none does, all are. The library compares two letters at once and passes over
//! most numbers of shared letters, so it does less than the table's tests.

use crate::inputs::{leads, Named};

/// Tests of one kind, and the letters that they compare from either side.
#[derive(Default)]
struct Compared {
    tests: usize,
    front: usize,
    end: usize,
}

impl Compared {
    /// One more test of two words of the same length.
    fn add(&mut self, b: &str, w: &str) {
        let differs = |(x, y): (u8, u8)| x != y;
        let pairs = || b.bytes().zip(w.bytes());
        self.tests += 1;
        self.front += pairs().position(differs).map_or(b.len(), |place| place + 1);
        self.end += pairs().rev().position(differs).map_or(b.len(), |place| place + 1);
    }

    fn a_test(&self, letters: usize) -> f64 {
        letters as f64 / self.tests.max(1) as f64
    }

    fn columns(&self) -> String {
        format!("{:>7} {:>7.2} {:>7.2}", self.tests, self.a_test(self.front), self.a_test(self.end))
    }
}

/// A test of overlaps for each two leading words and each number of letters below both lengths: whether the last
/// letters of the first are the first of the second.
fn overlap_tests(leads: &[String]) -> Compared {
    let mut compared = Compared::default();
    for u in leads {
        for v in leads {
            for shared in 1..u.len().min(v.len()) {
                compared.add(&v[..shared], &u[u.len() - shared..]);
            }
        }
    }
    compared
}

/// A test of inclusions for each leading word, each other one that is shorter, or as long with a higher number, and each
/// place: whether the other one stands there.
fn inclusion_tests(leads: &[String]) -> Compared {
    let mut compared = Compared::default();
    for (i, w) in leads.iter().enumerate() {
        let sought = |k: usize, b: &String| b.len() < w.len() || (b.len() == w.len() && i < k);
        for (_, b) in leads.iter().enumerate().filter(|(k, b)| sought(*k, b)) {
            for at in 0..=w.len() - b.len() {
                compared.add(b, &w[at..at + b.len()]);
            }
        }
    }
    compared
}

/// Tests and letters a test, package by package.
pub fn table<'a>(packages: impl Iterator<Item = &'a Named>) {
    println!("letters compared a test, from the front and from the end\n");
    println!("{:16} {:>23}   {:>23}", "", "overlaps", "inclusions");
    println!("{:16} {heads}   {heads}", "package", heads = "  tests   front     end");
    for Named { name, bytes } in packages {
        let (_, _, leads) = leads(bytes);
        println!("{name:16} {}   {}", overlap_tests(&leads).columns(), inclusion_tests(&leads).columns());
    }
    println!();
}
