//! Document 01, "Replay" and part 8: frames, replay, tape check.

use crate::answers;
use crate::bodies::{configuration, event, Event};
use crate::input::take;
use crate::numbers::read_number;
use crate::output::{grant, wish};
use crate::refusals::{ACCEPTED, CUT, NO_ROOM, OUT_OF_RANGE};
use crate::sizes::BODY_BYTES;
use crate::state::State;

/// Rule 8.2: the four numbers.
#[derive(Clone, Copy, PartialEq, Eq, Debug)]
pub struct Replayed {
    pub status: u8,
    pub place: usize,
    pub written: usize,
    pub calls: u64,
}

/// "length, body" at `at`: the body and the place after it.
fn frame(tape: &[u8], at: usize) -> Result<(&[u8], usize), u8> {
    let (length, at) = read_number(tape, at)?;
    // "OutOfRange: ... frame length above 4,096", "tested before its bytes"
    if length > BODY_BYTES {
        return Err(OUT_OF_RANGE);
    }
    let after = at + length as usize;
    let body = tape.get(at..after).ok_or(CUT)?;
    Ok((body, after))
}

/// "events of moment, length, body"
fn framed_event(tape: &[u8], at: usize) -> Result<(u64, &[u8], usize), u8> {
    let (moment, at) = read_number(tape, at)?;
    let (body, after) = frame(tape, at)?;
    Ok((moment, body, after))
}

/// Replays a tape into the lent buffer. "Whole earlier answers stand; no byte
/// beyond them is touched."
pub fn replay(tape: &[u8], out: &mut [u8]) -> Replayed {
    let mut done = Replayed { status: ACCEPTED, place: 0, written: 0, calls: 0 };
    if let Err(stop) = run(tape, out, &mut done) {
        done.status = stop;
    }
    done
}

/// Rule 8.3: where it stops, and at which place.
fn run(tape: &[u8], out: &mut [u8], done: &mut Replayed) -> Result<(), u8> {
    let (body, mut at) = frame(tape, 0)?;
    let mut m = State::new(configuration(body)?);
    while at < tape.len() {
        done.place = at;
        let (moment, body, after) = framed_event(tape, at)?;
        let (answer, call) = answered(&mut m, moment, body);
        let room = out.get_mut(done.written..done.written + answer.len());
        // "NoRoom: answer buffer too short"
        room.ok_or(NO_ROOM)?.copy_from_slice(&answer);
        done.written += answer.len();
        // A refused or accepted input "isn't a call".
        done.calls += u64::from(call);
        at = after;
    }
    done.place = tape.len();
    Ok(())
}

/// The answer to an event, and whether it was a call. Rule 8.4: a refused body
/// in a sound frame is answered too, and is none.
fn answered(m: &mut State, moment: u64, body: &[u8]) -> (Vec<u8>, bool) {
    match event(body) {
        Ok(Event::Call) => {
            let wish = wish(m, moment);
            (grant(m, moment, wish), true)
        }
        Ok(Event::Input(input)) => (answers::input(take(m, moment, input)), false),
        Err(number) => (answers::input(number), false),
    }
}

/// Rule 8.7: the first fault of a frame or a body, or 0.
pub fn tape_check(tape: &[u8]) -> u8 {
    checked(tape).err().unwrap_or(ACCEPTED)
}

fn checked(tape: &[u8]) -> Result<(), u8> {
    let (body, mut at) = frame(tape, 0)?;
    configuration(body)?;
    while at < tape.len() {
        let (_, body, after) = framed_event(tape, at)?;
        event(body)?;
        at = after;
    }
    Ok(())
}
