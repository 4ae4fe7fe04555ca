//! The command line.

use std::process::exit;

pub struct Options {
    pub inputs: u64,
    pub seed: u64,
    pub round: Option<u64>,
    pub write_cases: Option<String>,
}

pub fn stop(message: &str) -> ! {
    eprintln!("{message}");
    exit(2)
}

impl Options {
    pub fn read() -> Options {
        let mut options = Options { inputs: 50_000, seed: 1, round: None, write_cases: None };
        let mut arguments = std::env::args().skip(1);
        while let Some(name) = arguments.next() {
            let value = arguments.next().unwrap_or_else(|| stop(&format!("{name} needs a value")));
            let number = || value.parse::<u64>().unwrap_or_else(|_| stop(&format!("{name} needs a number")));
            match name.as_str() {
                "--inputs" => options.inputs = number(),
                "--seed" => options.seed = number(),
                "--round" => options.round = Some(number()),
                "--write-cases" => options.write_cases = Some(value),
                _ => stop("usage: differential [--inputs N] [--seed S] [--round R] [--write-cases FILE]"),
            }
        }
        options
    }
}
