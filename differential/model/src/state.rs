//! What a machine holds, and the plain questions that the rules ask of it.
//! "Records aren't freed."

use crate::bodies::{Address, Answer, Bytes, Configuration, Host, Service, Type};
use crate::pacing::attempt_delay;

#[derive(Clone, Debug)]
pub struct Held {
    pub when: u64,
    pub stale: bool,
    pub answer: Answer,
}

#[derive(Clone, Copy, PartialEq, Eq, Debug)]
pub enum Refresh {
    Idle,
    InFlight(u64),
    Done,
}

/// A query record.
#[derive(Clone, Debug)]
pub struct Query {
    pub id: u64,
    pub name: Bytes,
    pub kind: Type,
    pub held: Option<Held>,
    pub refresh: Refresh,
}

#[derive(Clone, PartialEq, Eq, Debug)]
pub enum Target {
    Address(Address),
    Name(Bytes),
}

#[derive(Clone, Debug)]
pub struct Endpoint {
    /// "rank H3, H2OrH1, H2, H1", from 0.
    pub rank: u8,
    pub target: Target,
    pub port: u16,
    pub ech: Option<Bytes>,
}

#[derive(Clone, Copy, PartialEq, Eq, Debug)]
pub enum Stage {
    InProgress,
    Succeeded,
    Failed,
    Cancelled,
}

#[derive(Clone, Debug)]
pub struct Attempt {
    pub id: u64,
    pub endpoint: Endpoint,
    pub started: u64,
    pub stage: Stage,
    pub retry: bool,
}

#[derive(Clone, Debug)]
pub struct State {
    pub configuration: Configuration,
    pub queries: Vec<Query>,
    pub attempts: Vec<Attempt>,
    /// Attempt's place and new ECH bytes, in order of arrival.
    pub retries: Vec<(usize, Bytes)>,
    pub next: u64,
}

/// "Elapsed is 0 if the clock went back"
pub fn elapsed(now: u64, then: u64) -> u64 {
    now.saturating_sub(then)
}

/// "Comparing endpoints without their ECH bytes, which kills the retry" is a
/// slip: target, port, rank and ECH all count.
pub fn same_endpoint(one: &Endpoint, other: &Endpoint) -> bool {
    one.rank == other.rank
        && one.port == other.port
        && one.target == other.target
        && one.ech == other.ech
}

impl State {
    pub fn new(configuration: Configuration) -> State {
        State {
            configuration,
            queries: Vec::new(),
            attempts: Vec::new(),
            retries: Vec::new(),
            // Part 1: "Start at 0"
            next: 0,
        }
    }

    /// Part 1: "the next number after 18,446,744,073,709,551,615 is 0"
    pub fn next_id(&mut self) -> u64 {
        let id = self.next;
        self.next = self.next.wrapping_add(1);
        id
    }

    /// The origin's name, if it is one.
    pub fn origin_name(&self) -> Option<&Bytes> {
        match &self.configuration.origin {
            Host::Name(name) => Some(name),
            Host::Literal(_) => None,
        }
    }

    pub fn held(&self) -> impl Iterator<Item = (&Query, &Held)> {
        let queries = self.queries.iter();
        queries.filter_map(|query| Some((query, query.held.as_ref()?)))
    }

    /// The addresses of an A or AAAA record; none if its answer failed.
    pub fn addresses(held: &Held) -> &[Address] {
        match &held.answer {
            Answer::Addresses(addresses) => addresses,
            _ => &[],
        }
    }

    /// The services of the held HTTPS answers, in the answer's order.
    pub fn services(&self) -> impl Iterator<Item = &Service> {
        self.held().flat_map(|(_, held)| match &held.answer {
            Answer::Services(services) => services.as_slice(),
            _ => &[],
        })
    }

    /// "if ECH is on and any has it"; a service that lists nothing counts too.
    pub fn any_ech(&self) -> bool {
        self.configuration.ech && self.services().any(|service| service.ech.is_some())
    }

    /// The services that count: if any has ECH, and ECH is on, those that have it.
    pub fn usable_services(&self) -> impl Iterator<Item = &Service> {
        let only_ech = self.any_ech();
        self.services().filter(move |service| !only_ech || service.ech.is_some())
    }

    pub fn in_progress(&self) -> impl Iterator<Item = &Attempt> {
        let attempts = self.attempts.iter();
        attempts.filter(|attempt| attempt.stage == Stage::InProgress)
    }

    /// Part 2 over the attempts in progress.
    pub fn attempt_delay(&self) -> u64 {
        let count = self.in_progress().count() as u64;
        attempt_delay(self.configuration.delay, self.configuration.multiplier, count)
    }

    pub fn attempted(&self, endpoint: &Endpoint) -> bool {
        self.attempts.iter().any(|attempt| same_endpoint(&attempt.endpoint, endpoint))
    }

    pub fn succeeded(&self) -> bool {
        self.attempts.iter().any(|attempt| attempt.stage == Stage::Succeeded)
    }

    /// Records without an answer.
    pub fn unanswered_queries(&self) -> usize {
        self.queries.iter().filter(|query| query.held.is_none()).count()
    }

    pub fn refreshes_in_flight(&self) -> usize {
        let queries = self.queries.iter();
        queries.filter(|query| matches!(query.refresh, Refresh::InFlight(_))).count()
    }
}
