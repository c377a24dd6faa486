//! Demand 3 by simulation on the model: asks, the end after the last input, Waiting, the last sentence.
//! What is demanded is counted here from the answers alone; only the listing is the model's.
//! A program under test replays the tapes of all that is simulated, and what it answers is counted too.

use crate::book::Book;
use crate::directed;
use crate::play::{ask, Player};
use crate::plug::{show, BATCH, SHOWN};
use crate::read::{answer, Answer, Reader};
use crate::rng::Rng;
use crate::subject::{Case, Model, Subject};
use crate::write::{frame, Body, Configuration, Event, History, Host};
use model::Machine;

pub const MOST_ASKS: u64 = 95;
pub const MOST_CALLS: u64 = 288;
/// Of so many inputs one is taken as the last, beside the history that goes on.
const QUIET: u64 = 6;

/// The largest seen, and how often each claim was tested.
#[derive(Default)]
pub struct Maxima {
    pub histories: u64,
    pub quiet: u64,
    pub asks: u64,
    pub calls: u64,
    pub listed: u64,
    pub waiting: u64,
    pub covered: u64,
    /// Quiet runs left where a timer would end off the clock.
    pub off: u64,
    pub wrong: Vec<String>,
    /// Simulated, and not yet replayed.
    tapes: Vec<Tape>,
}

/// The tape of a simulated history; a quiet one ends with the calls of a host that calls as each timer ends.
struct Tape {
    case: Case,
    quiet: bool,
}

/// A program that replays the tapes, and what its own answers show.
struct Replays {
    program: Box<dyn Subject>,
    tapes: u64,
    calls: u64,
    asks: u64,
    end: u64,
    wrong: u64,
}

impl Replays {
    fn replay(&mut self, tapes: &[Tape]) {
        let cases: Vec<Case> = tapes.iter().map(|tape| tape.case.clone()).collect();
        let found = self.program.run(&cases);
        for (tape, found) in tapes.iter().zip(found) {
            self.tapes += 1;
            match found {
                Ok(outcome) if outcome == Model::outcome(&tape.case) => {
                    self.calls += outcome.calls;
                    self.hear(&outcome.answers, tape.quiet);
                }
                _ => {
                    self.wrong += 1;
                    if self.wrong <= SHOWN {
                        show(self.program.as_mut(), &tape.case);
                    }
                }
            }
        }
    }

    /// Counts the asks, and for a quiet tape the calls after the last input up to the end.
    fn hear(&mut self, answers: &[u8], quiet: bool) {
        let mut reader = Reader::new(answers);
        let (mut asks, mut calls, mut ended) = (0, 0, false);
        while let Some(heard) = answer(&mut reader) {
            asks += u64::from(heard.is_ask());
            calls = if matches!(heard, Answer::Input(_)) { 0 } else { calls + 1 };
            ended = heard.is_end();
        }
        self.asks = self.asks.max(asks);
        if quiet && ended {
            self.end = self.end.max(calls);
        }
    }

    fn print(&self) {
        println!(
            "the program: {} tapes, {} calls, {} disagreements; most asks {}, latest end call {}",
            self.tapes, self.calls, self.wrong, self.asks, self.end
        );
    }
}

/// A machine, its tape so far, the host's book of it, and which records hold an address.
#[derive(Clone)]
struct Sitting {
    machine: Machine,
    tape: Vec<u8>,
    book: Book,
    /// Kind and name of each record answered, and whether its answer carries an address.
    held: Vec<(u64, Vec<u8>, bool)>,
    by_address: bool,
    by_name: bool,
    with_https: bool,
}

impl Sitting {
    fn new(configuration: &Configuration) -> Option<Sitting> {
        Some(Sitting {
            machine: Machine::new(&configuration.body()).ok()?,
            tape: History::new(configuration.clone()).tape(),
            book: Book::default(),
            held: Vec::new(),
            by_address: !matches!(configuration.host, Host::Name(_)),
            by_name: configuration.mode == 1,
            with_https: configuration.mode == 2,
        })
    }

    /// Demand 3's last sentence speaks of this machine.
    fn covered(&self) -> bool {
        self.by_address
            || self.by_name
            || self.with_https && self.held.iter().any(|(kind, _, _)| *kind == 0)
            || self.held.iter().any(|(_, _, address)| *address)
    }

    /// An event's answer, with every claim that can be tested at it.
    fn step(&mut self, event: &Event, maxima: &mut Maxima) -> Vec<u8> {
        let body = event.body.bytes();
        let bytes = ask(&mut self.machine, event.moment, &body);
        frame(&mut self.tape, event.moment, &body);
        self.book.hear(event, &bytes);
        let heard = answer(&mut Reader::new(&bytes));
        if heard == Some(Answer::Input(0)) {
            self.hold(&event.body);
        }
        let asks = self.book.depth.asks();
        maxima.asks = maxima.asks.max(asks);
        if asks > MOST_ASKS {
            maxima.wrong.push(format!("{asks} asks"));
        }
        if heard == Some(Answer::Waiting) {
            maxima.waiting += 1;
            if self.book.asked().is_empty() && self.book.running().is_empty() {
                maxima.wrong.push("Waiting with nothing unanswered".into());
            }
        }
        if matches!(heard, Some(Answer::Waiting | Answer::Failed(_))) {
            self.attempted(event.moment, maxima);
        }
        bytes
    }

    /// Notes for the answer's record whether it now carries an address.
    fn hold(&mut self, body: &Body) {
        let (id, address) = match body {
            Body::Aaaa { id, flags, items } => (id, *flags < 2 && !items.is_empty()),
            Body::A { id, flags, items } => (id, *flags < 2 && !items.is_empty()),
            Body::Https { id, .. } => (id, false),
            _ => return,
        };
        let Some(query) = self.book.queries.iter().find(|q| q.id == *id) else {
            return;
        };
        let (kind, name) = (query.kind, query.name.clone());
        self.held.retain(|(k, n, _)| (*k, n) != (kind, &name));
        self.held.push((kind, name, address));
    }

    /// The last sentence: every listed endpoint has been attempted.
    fn attempted(&self, moment: u64, maxima: &mut Maxima) {
        let view = self.machine.view(moment);
        if view.covered != self.covered() {
            maxima.wrong.push(format!("the model's view says covered: {}", view.covered));
        }
        if !self.covered() {
            return;
        }
        let listing = model::listing(&self.machine);
        maxima.covered += 1;
        maxima.listed = maxima.listed.max(listing.len() as u64);
        for endpoint in listing {
            if !self.book.attempts.iter().any(|a| a.endpoint == endpoint) {
                maxima.wrong.push(format!("listed and not attempted: {endpoint:02X?}"));
            }
        }
    }

    /// No input any more: the host calls at once, and exactly as each timer ends.
    fn quiet(mut self, now: u64, maxima: &mut Maxima) {
        maxima.quiet += 1;
        self.calls(now, maxima);
        maxima.tapes.push(Tape { case: Case::new(self.tape), quiet: true });
    }

    fn calls(&mut self, mut now: u64, maxima: &mut Maxima) {
        for call in 1..=2 * MOST_CALLS {
            let event = Event { moment: now, body: Body::Call };
            let bytes = self.step(&event, maxima);
            match answer(&mut Reader::new(&bytes)) {
                Some(Answer::Timer(left)) => match now.checked_add(left) {
                    Some(end) => now = end,
                    None => {
                        maxima.off += 1;
                        return;
                    }
                },
                Some(heard) if heard.is_end() => {
                    maxima.calls = maxima.calls.max(call);
                    if call > MOST_CALLS {
                        maxima.wrong.push(format!("the end came at call {call}"));
                    }
                    return;
                }
                _ => {}
            }
        }
        maxima.wrong.push("no end".into());
    }
}

/// Simulates, and prints the maxima; true if every claim held, and the program answered as the model did.
pub fn run(histories: u64, seed: u64, program: Option<Box<dyn Subject>>) -> bool {
    let mut maxima = Maxima::default();
    let mut replays =
        program.map(|program| Replays { program, tapes: 0, calls: 0, asks: 0, end: 0, wrong: 0 });
    for history in [directed::most_asks(), directed::longest(), directed::longest_quiet()] {
        told(&history, &mut maxima);
    }
    for number in 0..histories {
        let mut player = Player::new(Rng::nth(seed, number));
        player.onward();
        played(&mut player, &mut maxima);
        if !maxima.wrong.is_empty() {
            println!("history {number} of seed {seed}");
            break;
        }
        if maxima.tapes.len() >= BATCH {
            replay(&mut replays, &mut maxima.tapes);
        }
    }
    replay(&mut replays, &mut maxima.tapes);
    maxima.print();
    replays.iter().for_each(Replays::print);
    maxima.wrong.is_empty() && replays.is_none_or(|replays| replays.wrong == 0)
}

/// Empties the list of tapes, which the program replays, if there is one.
fn replay(replays: &mut Option<Replays>, tapes: &mut Vec<Tape>) {
    let tapes = std::mem::take(tapes);
    if let Some(replays) = replays {
        replays.replay(&tapes);
    }
}

/// A history written before: each of its inputs is once the last.
fn told(history: &History, maxima: &mut Maxima) {
    let Some(mut sitting) = Sitting::new(&history.configuration) else {
        return;
    };
    maxima.histories += 1;
    for event in &history.events {
        sitting.step(event, maxima);
        if !event.body.is_call() {
            sitting.clone().quiet(event.moment, maxima);
        }
    }
    maxima.tapes.push(Tape { case: Case::new(sitting.tape), quiet: false });
}

fn played(player: &mut Player, maxima: &mut Maxima) {
    let Some(mut sitting) = Sitting::new(&player.configuration) else {
        return;
    };
    maxima.histories += 1;
    // With no input, it counts from the making.
    sitting.clone().quiet(player.now(), maxima);
    while let Some(event) = player.choose() {
        let bytes = sitting.step(&event, maxima);
        player.hear(&event, &bytes);
        if !event.body.is_call() && player.rng.below(QUIET) == 0 {
            sitting.clone().quiet(event.moment, maxima);
        }
    }
    maxima.tapes.push(Tape { case: Case::new(sitting.tape), quiet: false });
}

impl Maxima {
    fn print(&self) {
        println!(
            "demand 3: {} histories, {} runs after a last input ({} left where a timer ends off the clock)",
            self.histories, self.quiet, self.off
        );
        println!("most asks {} (of {MOST_ASKS})", self.asks);
        println!("latest end after the last input: call {} (of {MOST_CALLS})", self.calls);
        println!(
            "Waiting tested {} times, the last sentence {} times, longest listing then {}",
            self.waiting, self.covered, self.listed
        );
        for wrong in self.wrong.iter().take(5) {
            println!("WRONG: {wrong}");
        }
    }
}
