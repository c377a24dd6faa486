//! The model against a program under test, on random, directed and damaged tapes.

use crate::damage;
use crate::directed;
use crate::play::{play, Player};
use crate::report::disagreement;
use crate::rng::Rng;
use crate::shrink;
use crate::stored::Stored;
use crate::subject::{Case, Model, Subject};
use crate::tally::{Refusals, Tally};
use crate::write::History;

/// Cases handed to a program at a time.
pub const BATCH: usize = 2000;
/// Disagreements that are shrunk and printed; the rest are counted.
pub const SHOWN: u64 = 2;

struct Plug<'a> {
    program: &'a mut dyn Subject,
    waiting: Vec<Case>,
    cases: u64,
    wrong: u64,
    refusals: Refusals,
}

impl Plug<'_> {
    fn add(&mut self, cases: Vec<Case>) {
        self.waiting.extend(cases);
        while self.waiting.len() >= BATCH {
            let rest = self.waiting.split_off(BATCH);
            let batch = std::mem::replace(&mut self.waiting, rest);
            self.compare(&batch);
        }
    }

    fn flush(&mut self) {
        let batch = std::mem::take(&mut self.waiting);
        self.compare(&batch);
    }

    fn compare(&mut self, batch: &[Case]) {
        self.cases += batch.len() as u64;
        let found = self.program.run(batch);
        for (case, found) in batch.iter().zip(found) {
            if let Ok(found) = &found {
                self.refusals.add(found);
            }
            if found != Ok(Model::outcome(case)) {
                self.wrong += 1;
                if self.wrong <= SHOWN {
                    show(self.program, case);
                }
            }
        }
    }

    fn report(&mut self, what: &str) {
        self.flush();
        println!("{what}: {} tapes, {} disagreements", self.cases, self.wrong);
    }
}

/// Takes bytes away while the program and the model still differ, and prints what is left.
pub fn show(program: &mut dyn Subject, case: &Case) {
    let small = shrink::bytes(&case.tape, &mut |tape| {
        let case = Case { tape: tape.to_vec(), room: case.room };
        program.one(&case) != Ok(Model::outcome(&case))
    });
    let small = Case { tape: small, room: case.room };
    let found = program.one(&small);
    println!("--- disagreement, answer buffer of {} bytes", small.room);
    println!("{}", disagreement(&small.tape, &Model::outcome(&small), &found));
}

/// How much of each is tried.
pub struct Amounts {
    pub histories: u64,
    /// Damaged tapes from each sound one.
    pub damaged: usize,
    pub arbitrary: u64,
}

/// True if the program says what the model says of every tape.
pub fn run(program: &mut dyn Subject, stored: &[Stored], amounts: &Amounts, seed: u64) -> bool {
    let refusals = Refusals::default();
    let mut plug = Plug { program, waiting: Vec::new(), cases: 0, wrong: 0, refusals };
    let mut rng = Rng::new(seed);
    let mut tally = Tally::default();
    let mut bases: Vec<Vec<u8>> = directed::entries().into_iter().map(|e| e.tape).collect();
    let random = stored.iter().filter(|s| s.name.starts_with("random"));
    bases.extend(random.map(|s| s.case.tape.clone()));
    plug.add(bases.iter().map(|tape| Case::new(tape.clone())).collect());
    plug.report("directed and stored");
    for number in 0..amounts.histories {
        let mut player = Player::new(Rng::nth(seed, number));
        let history: History = match model::Machine::new(&player.configuration.body()) {
            Ok(mut machine) => {
                let played = play(&mut player, &mut machine, |_, _| {});
                tally.add(&played.depth, played.shape);
                played.history
            }
            Err(_) => continue,
        };
        let tape = history.tape();
        if number % 50 == 0 {
            bases.push(tape.clone());
        }
        plug.add(vec![Case::new(tape)]);
    }
    plug.report("and random histories");
    for tape in &bases {
        let needed = Model::outcome(&Case::new(tape.clone())).answers.len();
        let variants = damage::variants(&mut rng, tape, amounts.damaged);
        plug.add(damage::in_any_room(&mut rng, variants));
        let bodies = damage::bodies(&mut rng, tape, amounts.damaged / 2);
        plug.add(damage::in_any_room(&mut rng, bodies));
        plug.add(damage::rooms(&mut rng, tape, needed, amounts.damaged / 8));
    }
    plug.report("and damaged ones");
    for _ in 0..amounts.arbitrary {
        let player = Player::new(Rng::new(rng.draw()));
        plug.add(vec![damage::arbitrary(&mut rng, &player.configuration.body())]);
    }
    plug.report("and arbitrary bytes");
    tally.print();
    plug.refusals.print();
    plug.wrong == 0
}
