//! What the programs here count: comparisons, by what came of them.

use crate::rng::Random;
use std::fmt::{Arguments, Debug};
use std::process::exit;

/// One kind of comparison, run.
pub type Kind = fn(&mut Random) -> Tally;

/// The comparisons of one kind, counted by what came of them.
pub struct Tally {
    kind: &'static str,
    /// The outcomes by number; one without a name can't come.
    outcomes: &'static [&'static str],
    met: Vec<u64>,
}

impl Tally {
    pub fn new(kind: &'static str, outcomes: &'static [&'static str]) -> Self {
        Tally { kind, outcomes, met: vec![0; outcomes.len()] }
    }

    pub fn compare<A: Debug + PartialEq>(&mut self, input: Arguments, rattle: A, rust: A, outcome: usize) {
        if rattle != rust {
            println!("{}: the answers differ (numbers in base 16)", self.kind);
            println!("  input:  {input}\n  Rattle: {rattle:x?}\n  Rust:   {rust:x?}");
            exit(1);
        }
        self.met[outcome] += 1;
    }

    fn total(&self) -> u64 {
        self.met.iter().sum()
    }

    /// Prints the counts. An outcome that never came ends the program: the comparison would have been empty there.
    fn report(&self) {
        let named = || self.outcomes.iter().zip(&self.met).filter(|(name, _)| !name.is_empty());
        let parts: Vec<String> = named().map(|(name, n)| format!("{name} {n}")).collect();
        println!("{:16} {:8}: {}", self.kind, self.total(), parts.join(", "));
        if let Some((name, _)) = named().find(|(_, n)| **n == 0) {
            println!("{} never came to {name}", self.kind);
            exit(1);
        }
    }
}

/// Runs each kind and reports it; the first difference ends the program.
pub fn run(program: &str, kinds: &[Kind], random: &mut Random) {
    let mut total = 0;
    for kind in kinds {
        let tally = kind(random);
        tally.report();
        total += tally.total();
    }
    println!("{program}: {total} comparisons, none differ");
}
