//! Random histories inside the domain: the original against the model or a program.

use compare::play::{ask, play, Player, Referee};
use compare::read::{answer, Answer, Reader};
use compare::report::disagreement;
use compare::rng::Rng;
use compare::shrink::shrink;
use compare::subject::{Case, Outcome, Subject};
use compare::tally::Tally;
use compare::words;
use compare::write::History;
use judge::adapter::{Exceptions, Oracle};
use std::time::Instant;

/// Histories handed to the subject at a time: many, since a program is started for each batch.
const BATCH: u64 = 2000;
/// Of so many histories one has its listings compared after every event.
const LISTED: u64 = 8;
/// Disagreements that are shrunk and printed; the rest are counted.
const SHOWN: u64 = 3;

/// The figures of a run.
#[derive(Default)]
pub struct Figures {
    pub tally: Tally,
    exceptions: Exceptions,
    spoken: u64,
    silent: u64,
    listings: u64,
    outside: u64,
    parted: u64,
    pub wrong: u64,
}

/// What the original says of a whole history, unless it leaves the domain.
pub fn expected(history: &History) -> Option<Outcome> {
    let mut oracle = Oracle::new(&history.configuration.body())?;
    let mut answers = Vec::new();
    for event in &history.events {
        let answer = ask(&mut oracle, event.moment, &event.body.bytes());
        if oracle.over() {
            return None;
        }
        answers.extend(answer);
    }
    Some(outcome(history, answers))
}

/// The outcome of a history, which has no framing fault, from its answers.
fn outcome(history: &History, answers: Vec<u8>) -> Outcome {
    let mut reader = Reader::new(&answers);
    let (mut calls, mut check) = (0, 0);
    while let Some(heard) = answer(&mut reader) {
        match heard {
            Answer::Input(number) if check == 0 && number <= 6 => check = number,
            Answer::Input(_) => {}
            _ => calls += 1,
        }
    }
    Outcome { status: 0, place: history.tape().len() as u64, calls, check, answers }
}

impl Figures {
    /// Plays one history against the original.
    pub fn play(&mut self, seed: u64, number: u64) -> Option<(History, Outcome)> {
        let mut player = Player::new(Rng::nth(seed, number));
        let body = player.configuration.body();
        let Some(mut oracle) = Oracle::new(&body) else {
            self.outside += 1;
            return None;
        };
        let mut beside = match number % LISTED {
            0 => model::Machine::new(&body).ok(),
            _ => None,
        };
        let mut differs = None;
        let listings = &mut self.listings;
        let played = play(&mut player, &mut oracle, |oracle, event| {
            let Some(machine) = &mut beside else { return };
            ask(machine, event.moment, &event.body.bytes());
            *listings += 1;
            let (ours, theirs) = (model::listing(machine), oracle.listing());
            if differs.is_none() && ours != theirs {
                differs = Some((ours, theirs));
            }
        });
        if let Some((ours, theirs)) = differs {
            self.wrong += 1;
            if self.wrong <= SHOWN {
                println!("the listings differ in history {number} of seed {seed}");
                println!("{}", words::tape(&played.history.tape(), &played.answers));
                println!("model    {ours:02X?}\noriginal {theirs:02X?}");
            }
        }
        self.tally.add(&played.depth, played.shape);
        self.exceptions.reason += oracle.exceptions.reason;
        self.exceptions.saturated += oracle.exceptions.saturated;
        self.spoken += oracle.spoken;
        self.silent += oracle.silent;
        self.parted += u64::from(oracle.over());
        let outcome = outcome(&played.history, played.answers);
        Some((played.history, outcome))
    }

    /// Answers so far that document 01 set against the original.
    pub fn excepted(&self) -> u64 {
        self.exceptions.reason + self.exceptions.saturated
    }

    pub fn print(&self) {
        self.tally.print();
        println!(
            "answers that the original gave: {}; that document 01's numbers and limits gave: {}",
            self.spoken, self.silent
        );
        println!("listings compared: {}", self.listings);
        println!(
            "exceptions of docs/DIFFERENCES.md: Failed with no query and no attempt {}, delay above 64 bits {} ({} histories end where it parts them)",
            self.exceptions.reason, self.exceptions.saturated, self.parted
        );
        println!("configurations outside the domain, left out: {}", self.outside);
        println!("disagreements: {}", self.wrong);
    }
}

/// Compares the subject with the original on `count` histories; true if all agree.
pub fn run(subject: &mut dyn Subject, count: u64, seed: u64) -> bool {
    let started = Instant::now();
    let mut figures = Figures::default();
    let mut first = 0;
    while first < count && figures.wrong < 100 {
        let end = (first + BATCH).min(count);
        let batch: Vec<(History, Outcome)> =
            (first..end).filter_map(|n| figures.play(seed, n)).collect();
        let cases: Vec<Case> = batch.iter().map(|(h, _)| Case::new(h.tape())).collect();
        let found = subject.run(&cases);
        for ((history, expected), found) in batch.iter().zip(found) {
            if found.as_ref() != Ok(expected) {
                figures.wrong += 1;
                if figures.wrong <= SHOWN {
                    show(subject, history);
                }
            }
        }
        first = end;
        if first % 10_000 == 0 {
            let seconds = started.elapsed().as_secs();
            eprintln!("{first} histories, {} disagreements, {seconds} s", figures.wrong);
        }
    }
    figures.print();
    println!("seed {seed}, {} s", started.elapsed().as_secs());
    figures.wrong == 0
}

/// Shrinks a disagreement and prints it.
fn show(subject: &mut dyn Subject, history: &History) {
    let mut fails = |candidate: &History| match expected(candidate) {
        Some(expected) => subject.one(&Case::new(candidate.tape())) != Ok(expected),
        None => false,
    };
    let small = shrink(history, &mut fails);
    let tape = small.tape();
    let found = subject.one(&Case::new(tape.clone()));
    let expected = expected(&small).expect("inside the domain");
    println!("--- disagreement\n{}", disagreement(&tape, &expected, &found));
}
