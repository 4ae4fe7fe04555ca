//! Compares the oracle with the static library, input by input, and with the trial archive, word by word.
//!
//! `differential [--inputs N] [--seed S] [--round R] [--write-cases FILE]`
//!
//! A run has the fixed inputs and then random rounds until there are N inputs. With `--round R` it has that
//! round alone. It ends at the first difference. A random round has a word at a place of another and a word to be
//! packed for each of its inputs, and the fixed inputs begin with all small ones.

mod casefile;
mod compare;
mod exhaustive;
mod facts;
mod fixed;
mod input;
mod inside;
mod options;
mod packing;
mod part;
mod round;
mod standing;
mod surround;
mod tally;
mod ways;

use casefile::CaseFile;
use compare::shown;
use facts::Facts;
use input::Input;
use options::Options;
use oracle::generate::draft::Draft;
use oracle::generate::examples::examples;
use oracle::generate::packed_rows::packed_rows;
use oracle::generate::packed_words;
use oracle::generate::place_rows::place_rows;
use oracle::generate::places::{drawn, every_small, AtPlace};
use oracle::generate::random::Random;
use std::process::exit;
use tally::Tally;
use ways::Ways;

/// The project's example packages.
const EXAMPLES: &str = concat!(env!("CARGO_MANIFEST_DIR"), "/../../examples");

/// The run so far.
struct Run {
    seed: u64,
    /// None during the fixed inputs.
    round: Option<u64>,
    bytes: Random,
    cases: Option<CaseFile>,
    facts: Facts,
    tally: Tally,
    inside: Ways<14>,
    places: Ways<8>,
    packings: Ways<7>,
}

impl Run {
    /// Compares one input. A difference is printed and ends the program.
    fn take(&mut self, input: &Input) {
        let expected = compare::expect(input);
        if let Some(cases) = &mut self.cases {
            written(cases.write(input, &expected));
        }
        let facts = self.facts.of(input.package);
        self.tally.count(&facts.parts, input.service, &expected);
        if let Some(package) = &facts.untrimmed {
            let ways = inside::found(package, input, &expected);
            ways.into_iter().for_each(|way| self.inside.count(way, self.round.is_some()));
        }
        if let Some(message) = compare::difference(&mut self.bytes, input, &expected) {
            println!("DIFFERENCE in input {}, {}", self.tally.inputs(), input.service.name());
            self.report_round();
            report(input, &message);
            exit(1);
        }
    }

    /// The same for a word at a place.
    fn take_place(&mut self, at: &AtPlace) {
        let expected = standing::expect(at);
        if let Some(cases) = &mut self.cases {
            written(cases.write_place(at, expected));
        }
        self.places.count(standing::way(at, expected), self.round.is_some());
        if let Some(message) = standing::difference(at, expected) {
            println!("DIFFERENCE in word at a place {}", self.places.all());
            self.report_round();
            print!("{message}");
            exit(1);
        }
    }

    /// The same for a word that is packed.
    fn take_packed(&mut self, word: &[u8]) {
        let expected = packing::expect(word);
        if let Some(cases) = &mut self.cases {
            written(cases.write_packed(word, expected));
        }
        self.packings.count(packing::way(word, expected), self.round.is_some());
        if let Some(message) = packing::difference(word, expected) {
            println!("DIFFERENCE in word packed {}", self.packings.all());
            self.report_round();
            print!("{message}");
            exit(1);
        }
    }

    fn fixed(&mut self) {
        place_rows().iter().for_each(|(at, _)| self.take_place(at));
        every_small().for_each(|at| self.take_place(&at));
        packed_rows().iter().for_each(|(word, _)| self.take_packed(word));
        packed_words::every_small().for_each(|word| self.take_packed(&word));
        fixed::fixed(&mut |input| self.take(input));
        exhaustive::exhaustive(&mut |input| self.take(input));
    }

    /// A random round: its inputs, as many words at places, and as many words to be packed.
    fn round(&mut self, number: u64, examples: &[Draft]) {
        self.round = Some(number);
        let random = &mut Random::new(self.seed, number);
        let before = self.tally.inputs();
        round::round(random, examples, &mut |input| self.take(input));
        let inputs = self.tally.inputs() - before;
        for _ in 0..inputs {
            self.take_place(&drawn(random));
        }
        for _ in 0..inputs {
            self.take_packed(&packed_words::drawn(random));
        }
    }

    fn report_round(&self) {
        match self.round {
            Some(round) => {
                println!("seed {}, round {round}: --seed {} --round {round}", self.seed, self.seed)
            }
            None => println!("one of the fixed inputs"),
        }
    }

    fn print_totals(&self) {
        println!("{} words at places, no difference", self.places.all());
        println!("{} words packed, no difference", self.packings.all());
        println!("{} inputs, no difference", self.tally.inputs());
    }
}

fn written(case: std::io::Result<()>) {
    case.unwrap_or_else(|error| options::stop(&format!("cases: {error}")));
}

fn report(input: &Input, message: &str) {
    println!("budget {}, output of {} bytes, NULL for no bytes: {}", input.budget, input.out_len, input.null);
    print!("{message}");
    println!("package of {} bytes:\n{}", input.package.len(), shown(input.package));
    println!("formula of {} bytes:\n{}", input.formula.len(), shown(input.formula));
}

fn main() {
    let options = Options::read();
    let cases = options.write_cases.as_ref().map(|path| {
        CaseFile::create(path).unwrap_or_else(|error| options::stop(&format!("{path}: {error}")))
    });
    let examples = examples(EXAMPLES).unwrap_or_else(|error| options::stop(&error));
    let mut run = Run {
        seed: options.seed,
        round: None,
        bytes: Random::new(options.seed, u64::MAX),
        cases,
        facts: Facts::default(),
        tally: Tally::default(),
        inside: inside::ways(),
        places: standing::ways(),
        packings: packing::ways(),
    };
    if let Some(number) = options.round {
        run.round(number, &examples);
        println!("round {number} of seed {}", options.seed);
        run.print_totals();
        return;
    }
    run.fixed();
    for number in 0.. {
        if run.tally.inputs() >= options.inputs {
            break;
        }
        run.tally.rounds += 1;
        run.round(number, &examples);
    }
    run.tally.print();
    run.inside.print();
    run.places.print();
    run.places.print_all();
    run.packings.print();
    run.packings.print_all();
    let rounds = run.tally.rounds;
    let words = [run.places.missing(rounds), run.packings.missing(rounds)].concat();
    let missing = [run.tally.missing(), run.inside.missing(rounds), words].concat();
    missing.iter().for_each(|line| println!("{line}"));
    run.print_totals();
    if !missing.is_empty() {
        exit(1);
    }
}
