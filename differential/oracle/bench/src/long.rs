//! Replay of long tapes: the time an event takes must not grow with the tape.

use crate::clocked;
use crate::proved::replay;
use compare::write::{Body, Configuration, History};

const BATCHES: usize = 20;

/// A race in which three queries wait, then calls and refused inputs in turn.
fn tape(events: usize) -> Vec<u8> {
    let mut history = History::new(Configuration::named("www.example.org")).calls(0, 3);
    for n in 3..events as u64 {
        history.push(n, if n % 2 == 0 { Body::Success(9) } else { Body::Call });
    }
    history.tape()
}

pub fn run() {
    println!("{:>10} {:>12} {:>9}", "events", "replay ns", "an event");
    for events in [1_000, 10_000, 100_000] {
        let tape = tape(events);
        let mut room = vec![0; 4 * tape.len() + 74_290];
        let least =
            (0..BATCHES).map(|_| clocked(|| replay(&tape, &mut room)).1).fold(f64::MAX, f64::min);
        println!("{events:10} {least:12.0} {:9.1}", least / events as f64);
    }
}
