//! Document 01 in plain Rust, std only: numbers, names, bodies, refusals and
//! their order, sizes, Full, the machine, replay, tape check, attempt delay.
//!
//! Each module stands beside a part of the document, each rule under a few
//! words of it or its number in docs/RULES.md. House rules, marked (H), are as the Rust corrects them;
//! `within_delay` and `failed` are as the document has them. Each rule is a line
//! of its own, so that a reader can point at it and a test can spoil it.

mod answers;
mod bodies;
pub mod flat;
mod input;
mod listing;
mod names;
mod numbers;
mod output;
mod pacing;
mod refusals;
mod replay;
mod sizes;
mod starting;
mod state;

pub use names::name_ok;
pub use numbers::{read_number, write_number};
pub use pacing::attempt_delay;
pub use replay::{replay, tape_check, Replayed};

use bodies::{Mode, Type};
use state::{Refresh, Stage, State};

/// The machine of document 01 over bytes.
#[derive(Clone, Debug)]
pub struct Machine {
    state: State,
}

impl Machine {
    /// A configuration body: a machine, or its refusal number 1..=6.
    pub fn new(configuration: &[u8]) -> Result<Machine, u8> {
        let state = State::new(bodies::configuration(configuration)?);
        Ok(Machine { state })
    }

    /// An input body at a moment (kind 7 is OutOfRange here): the number, 0
    /// accepted, 1..=12.
    pub fn input(&mut self, now: u64, body: &[u8]) -> u8 {
        match bodies::input(body) {
            Ok(input) => input::take(&mut self.state, now, input),
            Err(number) => number,
        }
    }

    /// A call: the answer's bytes (kinds 0..=7).
    pub fn output(&mut self, now: u64) -> Vec<u8> {
        let wish = output::wish(&self.state, now);
        output::grant(&mut self.state, now, wish)
    }

    /// What demand 3 and the statistics ask. Nothing in it rests on the moment.
    pub fn view(&self, _now: u64) -> View {
        view(&self.state)
    }
}

/// Read-only answers about a machine.
#[derive(Clone, Copy, PartialEq, Eq, Debug)]
pub struct View {
    /// Query records.
    pub queries: usize,
    /// Queries, refreshes and attempts unanswered.
    pub unanswered: usize,
    pub attempts: usize,
    pub in_progress: usize,
    pub cancelled: usize,
    /// Refreshes asked for so far.
    pub refreshes: usize,
    /// Queries, refreshes, attempts and cancels asked for so far.
    pub asks: usize,
    /// The length of the present listing.
    pub listed: usize,
    /// Listed endpoints that weren't attempted.
    pub untried: usize,
    /// Rule D.3 (d) speaks of this machine.
    pub covered: bool,
}

fn view(m: &State) -> View {
    let cancelled = m.attempts.iter().filter(|a| a.stage == Stage::Cancelled).count();
    let refreshes = m.queries.iter().filter(|q| q.refresh != Refresh::Idle).count();
    let in_progress = m.in_progress().count();
    let listed = listing::endpoints(m);
    View {
        queries: m.queries.len(),
        unanswered: m.unanswered_queries() + m.refreshes_in_flight() + in_progress,
        attempts: m.attempts.len(),
        in_progress,
        cancelled,
        refreshes,
        asks: m.queries.len() + refreshes + m.attempts.len() + cancelled,
        listed: listed.len(),
        untried: listed.iter().filter(|endpoint| !m.attempted(endpoint)).count(),
        covered: covered(m),
    }
}

fn covered(m: &State) -> bool {
    let https_answered = starting::answered(m, Type::Https);
    m.origin_name().is_none()
        || m.configuration.mode == Mode::Name
        || (m.configuration.mode == Mode::NameWithHttpsRr && https_answered)
        || starting::held_address(m)
}

/// The present listing, each endpoint as an attempt answer ends: rank, target
/// with its port, ECH.
pub fn listing(m: &Machine) -> Vec<Vec<u8>> {
    let listed = listing::endpoints(&m.state);
    listed.iter().map(answers::endpoint).collect()
}

/// What the listing rests on, as flat numbers; `turn` chooses among equal names.
pub fn flat(m: &Machine, turn: usize) -> flat::Flat {
    flat::flat(&m.state, turn)
}
