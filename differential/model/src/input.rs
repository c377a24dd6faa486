//! Document 01, part 7: an input whose body is sound. What is tested, and in
//! which order, is rule R.2; that a refusal leaves the machine alone, rule R.3.

use crate::bodies::{Input, Outcome, Type};
use crate::refusals::*;
use crate::state::{Held, Refresh, Stage, State};

/// 0, or 7 to 12.
pub fn take(m: &mut State, now: u64, input: Input) -> u8 {
    match input {
        Input::Answer { id, kind, stale, answer } => {
            take_answer(m, id, kind, Held { when: now, stale, answer })
        }
        Input::Result { id, outcome } => take_result(m, id, outcome),
    }
}

/// An id that is neither a record's own nor that of a refresh in flight is
/// unknown.
fn take_answer(m: &mut State, id: u64, kind: Type, held: Held) -> u8 {
    let flying = Refresh::InFlight(id);
    if let Some(place) = m.queries.iter().position(|query| query.refresh == flying) {
        return take_refresh(m, place, kind, held);
    }
    if let Some(place) = m.queries.iter().position(|query| query.id == id) {
        return take_first(m, place, kind, held);
    }
    UNKNOWN_ID
}

/// "a first answer tests 8, 9"
fn take_first(m: &mut State, place: usize, kind: Type, held: Held) -> u8 {
    let query = &mut m.queries[place];
    // "AlreadyAnswered: query's own id, answer held"
    if query.held.is_some() {
        return ALREADY_ANSWERED;
    }
    // "WrongType: answer type isn't the record's"
    if query.kind != kind {
        return WRONG_TYPE;
    }
    query.held = Some(held);
    ACCEPTED
}

/// "a refresh 9, 10"; its answer takes the place and the moment of the stale one.
fn take_refresh(m: &mut State, place: usize, kind: Type, fresh: Held) -> u8 {
    let query = &mut m.queries[place];
    if kind != query.kind {
        return WRONG_TYPE;
    }
    // "StaleRefresh: refresh answered as stale"
    if fresh.stale {
        return STALE_REFRESH;
    }
    query.held = Some(fresh);
    // "Retesting a refresh id after it is done as AlreadyAnswered" is a slip;
    // "it is UnknownId".
    query.refresh = Refresh::Done;
    ACCEPTED
}

/// "kinds 4 to 6: no attempt has it"
fn take_result(m: &mut State, id: u64, outcome: Outcome) -> u8 {
    let Some(place) = m.attempts.iter().position(|attempt| attempt.id == id) else {
        return UNKNOWN_ID;
    };
    match m.attempts[place].stage {
        // "any result for a cancelled attempt is accepted and ignored"
        Stage::Cancelled => ACCEPTED,
        // "AlreadyEnded: attempt succeeded or failed before"
        Stage::Succeeded | Stage::Failed => ALREADY_ENDED,
        Stage::InProgress => end(m, place, outcome),
    }
}

fn end(m: &mut State, place: usize, outcome: Outcome) -> u8 {
    let attempt = &mut m.attempts[place];
    match outcome {
        Outcome::Success => attempt.stage = Stage::Succeeded,
        Outcome::Failure => attempt.stage = Stage::Failed,
        Outcome::EchRetry(ech) => {
            // "EchNotSent: ECH retry with ECH off, or none sent"
            if !m.configuration.ech || attempt.endpoint.ech.is_none() {
                return ECH_NOT_SENT;
            }
            attempt.stage = Stage::Failed;
            // Rule 7.4: a retry of a retry is marked failed, and that is all.
            if !attempt.retry {
                m.retries.push((place, ech));
            }
        }
    }
    ACCEPTED
}
