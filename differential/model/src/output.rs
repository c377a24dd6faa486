//! Document 01, part 6: what the rules call for, without limits (`wish`), and
//! what is then given (`grant`).

use crate::answers;
use crate::bodies::{Bytes, Type};
use crate::listing;
use crate::sizes::{ATTEMPTS, QUERIES};
use crate::starting::{may_start, next_query, next_refresh};
use crate::state::{elapsed, Attempt, Endpoint, Query, Refresh, Stage, State};

/// What the rules call for.
#[derive(Clone, Debug)]
pub enum Wish {
    /// The attempt at that place.
    Cancel(usize),
    Succeeded,
    Attempt {
        endpoint: Endpoint,
        retry: bool,
    },
    Query {
        name: Bytes,
        kind: Type,
    },
    /// The query record at that place.
    Refresh(usize),
    Timer(u64),
    Failed(u64),
    Waiting,
}

/// Rule 6.1: the first of these that applies.
pub fn wish(m: &State, now: u64) -> Wish {
    None.or_else(|| end_of_race(m))
        .or_else(|| ech_retry(m))
        .or_else(|| attempt(m, now))
        .or_else(|| query(m))
        .or_else(|| refresh(m))
        .or_else(|| attempt_timer(m, now))
        .or_else(|| resolution_timer(m, now))
        .or_else(|| failed(m))
        .unwrap_or(Wish::Waiting)
}

/// "cancel in list order, then Succeeded on every call"
fn end_of_race(m: &State) -> Option<Wish> {
    if !m.succeeded() {
        return None;
    }
    let loser = m.attempts.iter().position(|attempt| attempt.stage == Stage::InProgress);
    Some(loser.map_or(Wish::Succeeded, Wish::Cancel))
}

/// The first retry, in order of arrival, whose endpoint wasn't attempted. It
/// waits for no gate.
fn ech_retry(m: &State) -> Option<Wish> {
    let endpoints = m.retries.iter().map(|(attempt, ech)| retried(m, *attempt, ech));
    let mut fresh = endpoints.filter(|endpoint| !m.attempted(endpoint));
    let endpoint = fresh.next()?;
    Some(Wish::Attempt { endpoint, retry: true })
}

fn retried(m: &State, attempt: usize, ech: &Bytes) -> Endpoint {
    Endpoint { ech: Some(ech.clone()), ..m.attempts[attempt].endpoint.clone() }
}

/// The first listed endpoint that wasn't attempted.
fn attempt(m: &State, now: u64) -> Option<Wish> {
    if !may_start(m, now) {
        return None;
    }
    if within_delay(m, now) {
        return None;
    }
    let listed = listing::endpoints(m).into_iter();
    let mut fresh = listed.filter(|endpoint| !m.attempted(endpoint));
    let endpoint = fresh.next()?;
    Some(Wish::Attempt { endpoint, retry: false })
}

/// (H) "Within delay: elapsed below the delay", for an attempt in progress.
fn within_delay(m: &State, now: u64) -> bool {
    let delay = m.attempt_delay();
    m.in_progress().any(|attempt| elapsed(now, attempt.started) < delay)
}

fn query(m: &State) -> Option<Wish> {
    let (name, kind) = next_query(m)?;
    Some(Wish::Query { name, kind })
}

fn refresh(m: &State) -> Option<Wish> {
    next_refresh(m).map(Wish::Refresh)
}

/// "Timing from the oldest in-progress attempt" is a slip; "it is the latest".
fn attempt_timer(m: &State, now: u64) -> Option<Wish> {
    let latest = m.in_progress().map(|attempt| attempt.started).max()?;
    timer(m.attempt_delay(), elapsed(now, latest))
}

/// Given while a record is unanswered, from the oldest answer held.
fn resolution_timer(m: &State, now: u64) -> Option<Wish> {
    if m.unanswered_queries() == 0 {
        return None;
    }
    let oldest = m.held().map(|(_, held)| held.when).min()?;
    timer(m.configuration.resolution, elapsed(now, oldest))
}

/// "A timer of 0 isn't given."
fn timer(delay: u64, elapsed: u64) -> Option<Wish> {
    let left = delay.saturating_sub(elapsed);
    (left > 0).then_some(Wish::Timer(left))
}

/// Rule 6.7, (H): nothing is left unanswered; the reason is whether an attempt
/// was ever made.
fn failed(m: &State) -> Option<Wish> {
    let queries = m.unanswered_queries();
    let refreshes = m.refreshes_in_flight();
    let attempts = m.in_progress().count();
    if queries > 0 || refreshes > 0 || attempts > 0 {
        return None;
    }
    Some(Wish::Failed(u64::from(!m.attempts.is_empty())))
}

/// The answer's bytes. Rule 6.9: Full takes the place of what has no room.
pub fn grant(m: &mut State, now: u64, wish: Wish) -> Vec<u8> {
    match wish {
        Wish::Waiting => answers::waiting(),
        Wish::Query { .. } if m.queries.len() >= QUERIES => answers::full_queries(),
        Wish::Query { name, kind } => ask(m, name, kind),
        Wish::Refresh(place) => ask_anew(m, place),
        Wish::Timer(left) => answers::timer(left),
        Wish::Attempt { .. } if m.attempts.len() >= ATTEMPTS => answers::full_attempts(),
        Wish::Attempt { endpoint, retry } => start(m, now, endpoint, retry),
        Wish::Cancel(place) => cancel(m, place),
        Wish::Succeeded => answers::succeeded(),
        Wish::Failed(reason) => answers::failed(reason),
    }
}

/// A record's first query allows a stale answer.
fn ask(m: &mut State, name: Bytes, kind: Type) -> Vec<u8> {
    let id = m.next_id();
    let answer = answers::query(id, kind, true, &name);
    m.queries.push(Query { id, name, kind, held: None, refresh: Refresh::Idle });
    answer
}

/// A refresh forbids one, and needs no record.
fn ask_anew(m: &mut State, place: usize) -> Vec<u8> {
    let id = m.next_id();
    let query = &mut m.queries[place];
    query.refresh = Refresh::InFlight(id);
    answers::query(id, query.kind, false, &query.name)
}

fn start(m: &mut State, now: u64, endpoint: Endpoint, retry: bool) -> Vec<u8> {
    let id = m.next_id();
    let answer = answers::attempt(id, retry, &endpoint);
    m.attempts.push(Attempt { id, endpoint, started: now, stage: Stage::InProgress, retry });
    answer
}

fn cancel(m: &mut State, place: usize) -> Vec<u8> {
    let attempt = &mut m.attempts[place];
    attempt.stage = Stage::Cancelled;
    answers::cancel(attempt.id)
}
