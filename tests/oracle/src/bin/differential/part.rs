//! Parts of the inputs, which are counted each by itself.

use crate::input::Service;

/// A part of the inputs: those whose package has every property that has a bit here.
#[derive(Clone, Copy, PartialEq)]
pub struct Part(usize);

/// The package states 256 in place of p.
const OVER_256: usize = 1;
/// The package reads, and a basis polynomial leads with another coefficient than 1.
const SCALED: usize = 2;
/// The package reads, and a leading word stands inside another polynomial's.
const UNTRIMMED: usize = 4;

/// All inputs, and the parts by one, two and three properties.
pub const PARTS: [Part; 8] = [Part(0), Part(1), Part(2), Part(3), Part(4), Part(5), Part(6), Part(7)];

impl Part {
    /// The parts that inputs under a package with these properties belong to.
    pub fn with(over_256: bool, scaled: bool, untrimmed: bool) -> Vec<Part> {
        let has = [(over_256, OVER_256), (scaled, SCALED), (untrimmed, UNTRIMMED)];
        let had: usize = has.into_iter().filter(|(is, _)| *is).map(|(_, property)| property).sum();
        PARTS.into_iter().filter(|part| part.0 & !had == 0).collect()
    }

    pub fn index(self) -> usize {
        self.0
    }

    fn asks(self, property: usize) -> bool {
        self.0 & property != 0
    }

    pub fn name(self) -> String {
        let names = [(UNTRIMMED, "untrimmed"), (SCALED, "leading otherwise"), (OVER_256, "over GF(256)")];
        let asked: Vec<&str> =
            names.into_iter().filter(|(property, _)| self.asks(*property)).map(|(_, name)| name).collect();
        if asked.is_empty() {
            "all inputs".to_string()
        } else {
            asked.join(", ")
        }
    }

    /// So many random rounds must reach the part: one in five is over GF(256), and about half have each of the other
    /// properties.
    pub fn rounds(self) -> u64 {
        [20, 20, 60, 150][self.0.count_ones() as usize]
    }

    /// Whether a service can answer with this number. Over GF(256) none gives 3: p is in order. A package that reads
    /// gets none of 1 to 7.
    pub fn can_answer(self, service: Service, number: usize) -> bool {
        let reads = self.asks(SCALED) || self.asks(UNTRIMMED);
        let out_of_part = (self.asks(OVER_256) && number == 3) || (reads && (1..=7).contains(&number));
        !out_of_part && service.can_answer(number)
    }

    /// Whether its packages all have another leading coefficient than 1.
    pub fn is_scaled(self) -> bool {
        self.asks(SCALED)
    }

    /// Whether its packages all have a leading word inside another's.
    pub fn is_untrimmed(self) -> bool {
        self.asks(UNTRIMMED)
    }
}
