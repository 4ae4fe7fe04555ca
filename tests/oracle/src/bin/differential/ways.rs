//! How often each way to answer was met, for what is compared below the services.

/// A way by its name, and how many random rounds must meet it.
pub type Named = (&'static str, u64);

/// The ways, and how often each was met in the fixed inputs and in random rounds.
pub struct Ways<const N: usize> {
    title: &'static str,
    names: [Named; N],
    fixed: [u64; N],
    drawn: [u64; N],
}

impl<const N: usize> Ways<N> {
    pub fn new(title: &'static str, names: [Named; N]) -> Ways<N> {
        Ways { title, names, fixed: [0; N], drawn: [0; N] }
    }

    pub fn count(&mut self, way: usize, drawn: bool) {
        let counts = if drawn { &mut self.drawn } else { &mut self.fixed };
        counts[way] += 1;
    }

    pub fn all(&self) -> u64 {
        self.fixed.iter().chain(&self.drawn).sum()
    }

    /// Prints the table of ways.
    pub fn print(&self) {
        let row = |name, fixed, drawn| println!("{name:<34} {fixed:>11} {drawn:>11}");
        println!("{:<34} {:>11} {:>11}", self.title, "fixed", "random");
        for ((name, _), (fixed, drawn)) in self.names.iter().zip(self.fixed.iter().zip(self.drawn)) {
            row(name, *fixed, drawn);
        }
    }

    /// Prints how often any way was met, where each input has one.
    pub fn print_all(&self) {
        let [fixed, drawn] = [self.fixed, self.drawn].map(|counts| counts.iter().sum::<u64>());
        println!("{:<34} {fixed:>11} {drawn:>11}", "all");
    }

    /// The ways that were never met, in so many random rounds.
    pub fn missing(&self, rounds: u64) -> Vec<String> {
        let mut missing = Vec::new();
        for ((name, needed), (fixed, drawn)) in self.names.iter().zip(self.fixed.iter().zip(self.drawn)) {
            if *fixed == 0 {
                missing.push(format!("never met in fixed inputs: {name}"));
            }
            if drawn == 0 && rounds >= *needed {
                missing.push(format!("never met in random rounds: {name}"));
            }
        }
        missing
    }
}
