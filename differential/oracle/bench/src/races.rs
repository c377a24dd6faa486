//! Whole races on both sides: the calls and inputs of the original, and the proved replay of the same events.

use crate::clocked;
use crate::proved::{replay, tape_check};
use compare::play::ask;
use compare::read::{answer, Answer, Reader};
use compare::write::{Body, Configuration, History, Service, V4, V6};
use happy_eyeballs::{HappyEyeballs, Input};
use judge::adapter::Oracle;
use judge::decode;
use std::hint::black_box;
use std::time::{Duration, Instant};

/// Each race comes up so many times, for so many batches of each side.
const TURNS: usize = 8;
const BATCHES: usize = 200;
/// How long a batch of the original's lasts.
const BATCH_NS: f64 = 200_000.0;
const MS: u64 = 1_000_000;
const ORIGIN: &str = "www.example.org";
/// Of an answer's flags.
const FAILED: u64 = 2;

/// What the host does at a moment, as the original takes it.
#[derive(Clone)]
enum Step {
    Call(Instant),
    Input(Input, Instant),
}

/// A race on both sides, and the least times so far, each of a whole batch.
struct Race {
    name: &'static str,
    calls: u64,
    inputs: usize,
    machine: HappyEyeballs,
    steps: Vec<Step>,
    tape: Vec<u8>,
    /// The tape's configuration alone.
    head: Vec<u8>,
    room: Vec<u8>,
    rounds: usize,
    original: f64,
    whole: f64,
    read: f64,
    made: f64,
    head_read: f64,
}

/// Times each race and prints a line for it.
pub fn run() {
    let mut races = [
        Race::of("small, HTTPS failed", small()),
        Race::of("small, HTTPS answered", answered(vec![])),
        Race::of("small, one service", answered(vec![sealed()])),
        Race::of("16 attempts", raced(16, 1)),
        Race::of("32 attempts, 2 services", raced(32, 2)),
    ];
    for _ in 0..TURNS {
        races.iter_mut().for_each(Race::time);
    }
    println!(
        "{:26} {:>5} {:>6} {:>8} {:>8} {:>8} {:>8} {:>8} {:>6} {:>6}",
        "race",
        "calls",
        "inputs",
        "Rust ns",
        "replay",
        "making",
        "reading",
        "ours ns",
        "ratio",
        "whole"
    );
    races.iter().for_each(Race::print);
    println!(
        "ns for one race: the least of {} batches of {} us, the sides in turn. The Rust's events are made before.",
        TURNS * BATCHES,
        BATCH_NS / 1000.0
    );
    println!("Ours is replay less making the machine and less reading (tape check); `whole` is replay less making, by the Rust's.");
}

impl Race {
    /// Stops unless the two sides give the same answers.
    fn of(name: &'static str, history: History) -> Race {
        let body = history.configuration.body();
        let mut oracle = Oracle::new(&body).expect("inside the domain");
        let machine = oracle.clone().into_machine();
        let start = Instant::now();
        let mut answers = Vec::new();
        let mut steps = Vec::new();
        for event in &history.events {
            let body = event.body.bytes();
            let said = ask(&mut oracle, event.moment, &body);
            let now = start + Duration::from_nanos(event.moment);
            if event.body.is_call() {
                steps.push(Step::Call(now));
            } else {
                assert_eq!(said, [8, 0], "{name}: an input was refused");
                steps.push(Step::Input(decode::input(&body).expect("a sound body"), now));
            }
            answers.extend(said);
        }
        let tape = history.tape();
        let mut room = vec![0; answers.len()];
        let done = replay(&tape, &mut room);
        assert_eq!((done.status, &room), (0, &answers), "{name}: they differ");
        let mut race = Race {
            name,
            calls: done.calls,
            inputs: steps.iter().filter(|step| matches!(step, Step::Input(..))).count(),
            machine,
            steps,
            tape,
            head: History::new(history.configuration).tape(),
            room,
            rounds: 10,
            original: f64::MAX,
            whole: f64::MAX,
            read: f64::MAX,
            made: f64::MAX,
            head_read: f64::MAX,
        };
        let ns = race.original_batch();
        race.rounds = (10.0 * BATCH_NS / ns) as usize + 1;
        race
    }

    /// The original's calls and inputs, on machines and events that are made before the clock starts.
    fn original_batch(&self) -> f64 {
        let fresh = || (self.machine.clone(), self.steps.clone());
        let batch: Vec<(HappyEyeballs, Vec<Step>)> = (0..self.rounds).map(|_| fresh()).collect();
        let (kept, ns) = clocked(|| {
            batch.into_iter().map(|(machine, steps)| ran(machine, steps)).collect::<Vec<_>>()
        });
        drop(kept);
        ns
    }

    fn time(&mut self) {
        for _ in 0..BATCHES {
            self.original = self.original.min(self.original_batch());
            let Race { tape, head, room, rounds, .. } = self;
            let many = |run: &mut dyn FnMut() -> u64| {
                clocked(|| (0..*rounds).map(|_| run()).sum::<u64>()).1
            };
            self.whole = self.whole.min(many(&mut || replay(tape, room).calls));
            self.made = self.made.min(many(&mut || replay(head, room).calls));
            self.read = self.read.min(many(&mut || tape_check(tape)));
            self.head_read = self.head_read.min(many(&mut || tape_check(head)));
        }
    }

    fn print(&self) {
        let one = |ns: f64| ns / self.rounds as f64;
        let (original, replay, making) = (one(self.original), one(self.whole), one(self.made));
        let reading = one(self.read - self.head_read);
        let ours = replay - making - reading;
        println!(
            "{:26} {:5} {:6} {original:8.0} {replay:8.0} {making:8.0} {reading:8.0} {ours:8.0} {:6.2} {:6.2}",
            self.name,
            self.calls,
            self.inputs,
            ours / original,
            (replay - making) / original
        );
    }
}

/// Runs the steps; the machine is handed back, so that freeing it isn't timed.
fn ran(mut machine: HappyEyeballs, steps: Vec<Step>) -> HappyEyeballs {
    for step in steps {
        match step {
            Step::Call(now) => drop(black_box(machine.process_output(now))),
            Step::Input(input, now) => machine.process_input(input, now),
        }
    }
    machine
}

fn v4(n: u8) -> V4 {
    [192, 0, 2, n]
}

fn v6(n: u8) -> V6 {
    [0x20, 0x01, 0x0d, 0xb8, 0, 0, 0, 0, 0, 0, 0, 0, 0, 0, 0, n]
}

/// Eleven calls and inputs: three queries, nothing to do, HTTPS failed and two addresses of each family, an attempt, a timer, its
/// success, the end.
fn small() -> History {
    History::new(Configuration::named(ORIGIN))
        .calls(0, 4)
        .tell(9 * MS, Body::Https { id: 0, flags: FAILED, items: vec![] })
        .tell(9 * MS, Body::Aaaa { id: 1, flags: 0, items: vec![(v6(1), 0), (v6(2), 0)] })
        .tell(9 * MS, Body::A { id: 2, flags: 0, items: vec![v4(1), v4(2)] })
        .calls(9 * MS, 2)
        .tell(30 * MS, Body::Success(3))
        .call(30 * MS)
}

/// A service of the origin's own name with ECH and a hint of each family.
fn sealed() -> Service {
    Service {
        ech: Some(vec![7; 64]),
        v4: vec![v4(1)],
        v6: vec![v6(1)],
        ..Service::new(1, ORIGIN, 3)
    }
}

/// Eleven calls beside four inputs: HTTPS is answered with these services, an attempt over IPv6 and, when its timer is over, one
/// over IPv4, which wins.
fn answered(items: Vec<Service>) -> History {
    History::new(Configuration::named(ORIGIN))
        .calls(0, 4)
        .tell(9 * MS, Body::A { id: 2, flags: 0, items: vec![v4(1)] })
        .call(9 * MS)
        .tell(14 * MS, Body::Aaaa { id: 1, flags: 0, items: vec![(v6(1), 0)] })
        .tell(20 * MS, Body::Https { id: 0, flags: 0, items })
        .calls(20 * MS, 2)
        .calls(270 * MS, 2)
        .tell(300 * MS, Body::Success(4))
        .calls(300 * MS, 2)
}

/// So many attempts, each when the timer before it is over; the last one wins and the others are cancelled. Every name has eight
/// addresses of each family.
fn raced(attempts: usize, services: u64) -> History {
    let mut history = History::new(Configuration::named(ORIGIN));
    let mut machine =
        model::Machine::new(&history.configuration.body()).expect("a sound configuration");
    let (mut now, mut asked, mut won) = (0, 0, false);
    loop {
        let said = ask(&mut machine, now, &Body::Call.bytes());
        history.push(now, Body::Call);
        let told = match answer(&mut Reader::new(&said)).expect("an answer") {
            Answer::Query { id, kind, name, .. } => Some(records(id, kind, &name, services)),
            Answer::Timer(ns) => {
                now += ns;
                None
            }
            Answer::Attempt { id, .. } => {
                asked += 1;
                won = asked == attempts;
                won.then_some(Body::Success(id))
            }
            Answer::Succeeded => return history,
            other => {
                assert!(won, "no end before the win: {other:?}");
                None
            }
        };
        if let Some(body) = told {
            ask(&mut machine, now, &body.bytes());
            history.push(now, body);
        }
    }
}

fn records(id: u64, kind: u64, name: &[u8], services: u64) -> Body {
    let of = 8 * (name[0] % 8);
    let targets = ["a.example.org", "b.example.org"];
    match kind {
        0 => Body::Https {
            id,
            flags: 0,
            items: (0..services)
                .map(|n| {
                    Service::new(n + 1, if services == 1 { ORIGIN } else { targets[n as usize] }, 3)
                })
                .collect(),
        },
        1 => Body::Aaaa { id, flags: 0, items: (0..8).map(|n| (v6(of + n), 0)).collect() },
        _ => Body::A { id, flags: 0, items: (0..8).map(|n| v4(of + n)).collect() },
    }
}
