//! How often each service gave each number, over all inputs and over parts of them, so that the test cannot
//! silently stop testing.

use crate::compare::Expected;
use crate::input::{Service, SERVICES};
use crate::part::{Part, PARTS};

#[derive(Default)]
struct Counts {
    numbers: [[u64; 20]; 4],
    /// Short forms that took steps.
    stepped: u64,
    /// Formulas that are members.
    members: u64,
    /// Steps with a polynomial that leads with another coefficient than 1.
    divided: u64,
}

impl Counts {
    fn count(&mut self, service: Service, expected: &Expected) {
        let numbers = &expected.numbers;
        self.numbers[service as usize][numbers.number as usize] += 1;
        self.stepped += u64::from(service == Service::ShortForm && numbers.count > 0);
        self.members += u64::from(service == Service::Member && numbers.last == 1);
        self.divided += expected.divided;
    }

    fn of(&self, service: Service, number: usize) -> u64 {
        self.numbers[service as usize][number]
    }

    fn inputs(&self) -> u64 {
        self.numbers.iter().flatten().sum()
    }

    /// Inputs whose package was judged whole and accepted: the answer is 0 or what comes after the package. Listing
    /// does not judge a package whole.
    fn accepted(&self) -> u64 {
        let accepted = |service| [0, 16, 17, 18, 19].map(|number| self.of(service, number)).iter().sum();
        [Service::Check, Service::ShortForm, Service::Member].map(accepted).iter().sum::<u64>()
    }

    /// What is to be reached in a part, each with its count.
    fn reached(&self, part: Part) -> Vec<(&'static str, u64)> {
        let mut reached = vec![
            ("inputs", self.inputs()),
            ("under accepted packages", self.accepted()),
            ("packages accepted", self.of(Service::Check, 0)),
            ("short forms", self.of(Service::ShortForm, 0)),
            ("short forms after steps", self.stepped),
            ("memberships answered", self.of(Service::Member, 0)),
            ("members", self.members),
        ];
        if part.is_scaled() {
            reached.push(("steps with another leading coefficient", self.divided));
        }
        if part.is_untrimmed() {
            reached.push(("lists with inclusions", self.of(Service::List, 0)));
        }
        reached
    }
}

#[derive(Default)]
pub struct Tally {
    /// By part.
    whole: [Counts; PARTS.len()],
    /// Those of random rounds.
    drawn: [Counts; PARTS.len()],
    /// How many random rounds there were.
    pub rounds: u64,
}

impl Tally {
    /// Counts an input of these parts.
    pub fn count(&mut self, parts: &[Part], service: Service, expected: &Expected) {
        for part in parts {
            self.whole[part.index()].count(service, expected);
            if self.rounds > 0 {
                self.drawn[part.index()].count(service, expected);
            }
        }
    }

    pub fn inputs(&self) -> u64 {
        self.whole[0].inputs()
    }

    /// Prints the tables of numbers, and what was reached in each part.
    pub fn print(&self) {
        for two in PARTS.chunks(2) {
            self.print_numbers(two);
        }
        let rounds = format!(" in {} random rounds", self.rounds);
        for part in PARTS {
            for (what, counts) in [("", &self.whole), (&rounds, &self.drawn)] {
                let reached = counts[part.index()].reached(part);
                let shown: Vec<String> =
                    reached.iter().map(|(name, count)| format!("{count} {name}")).collect();
                println!("{}{what}: {}", part.name(), shown.join(", "));
            }
        }
    }

    /// Prints a table of numbers: a column for each service in each of these parts.
    fn print_numbers(&self, parts: &[Part]) {
        let row = |head: &str, cell: &dyn Fn(Part, Service) -> String| {
            let side =
                |part: &Part| SERVICES.map(|service| format!("{:>11}", cell(*part, service))).join(" ");
            println!("{head:<10} {}", parts.iter().map(side).collect::<Vec<_>>().join("    "));
        };
        let names: Vec<String> = parts.iter().map(|part| format!("{:^47}", part.name())).collect();
        println!("{:10} {}", "", names.join("    "));
        row("number", &|_, service| service.name().to_string());
        for number in (0..20).filter(|number| *number != 9) {
            row(&number.to_string(), &|part, service| match self.whole[part.index()].of(service, number) {
                0 if !part.can_answer(service, number) => "-".to_string(),
                count => count.to_string(),
            });
        }
        row("all", &|part, service| {
            self.whole[part.index()].numbers[service as usize].iter().sum::<u64>().to_string()
        });
    }

    /// The numbers that a service can give and never gave, and what was not reached, in each part.
    pub fn missing(&self) -> Vec<String> {
        let mut missing = Vec::new();
        for part in PARTS {
            let counts = &self.whole[part.index()];
            for service in SERVICES {
                for number in (0..20).filter(|number| part.can_answer(service, *number)) {
                    if counts.of(service, number) == 0 {
                        missing.push(format!("{} never answered {number}, {}", service.name(), part.name()));
                    }
                }
            }
            let mut sides = vec![("", counts)];
            if self.rounds >= part.rounds() {
                sides.push((" in random rounds", &self.drawn[part.index()]));
            }
            for (what, counts) in sides {
                for (name, _) in counts.reached(part).into_iter().filter(|(_, count)| *count == 0) {
                    missing.push(format!("no {name}, {}{what}", part.name()));
                }
            }
        }
        missing
    }
}
