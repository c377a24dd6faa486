//! Damaged and arbitrary tapes.

use crate::read::{frames, Frames};
use crate::rng::Rng;
use crate::subject::{Case, ROOM};
use crate::write::{frame, number};

/// One slip: bytes cut, a bit flipped, a byte changed, put in or taken out.
pub fn spoil(rng: &mut Rng, bytes: &mut Vec<u8>) {
    if bytes.is_empty() {
        bytes.push(rng.draw() as u8);
        return;
    }
    let at = rng.index(bytes.len());
    let byte = rng.draw() as u8;
    match rng.below(6) {
        0 => bytes.truncate(at),
        1 => bytes[at] ^= 1 << rng.below(8),
        2 => bytes[at] = rng.pick(&[0, 1, 127, 128, 255, byte]),
        3 => bytes.insert(at, byte),
        4 => {
            bytes.remove(at);
        }
        _ => bytes.push(byte),
    }
}

/// Bytes put in at each place.
const INSERTED: [u8; 5] = [0, 1, 7, 0x80, 0xff];

/// A cut at every place; and everything that can happen to one byte of a tape: all of it, or as many as `most`.
pub fn variants(rng: &mut Rng, tape: &[u8], most: usize) -> Vec<Case> {
    let mut kinds = Vec::new();
    for at in 0..=tape.len() {
        kinds.extend(INSERTED.map(|byte| (at, Slip::Insert(byte))));
        if at < tape.len() {
            kinds.extend((0..8).map(|bit| (at, Slip::Flip(bit))));
            kinds.push((at, Slip::Remove));
            kinds.push((at, Slip::Longer));
        }
    }
    if kinds.len() > most {
        kinds = (0..most).map(|_| rng.pick(&kinds)).collect();
    }
    kinds.extend((0..=tape.len()).map(|at| (at, Slip::Cut)));
    kinds.iter().map(|(at, slip)| Case::new(slipped(tape, *at, *slip))).collect()
}

#[derive(Clone, Copy)]
enum Slip {
    Cut,
    Flip(u8),
    Insert(u8),
    Remove,
    /// A number's last byte written with one group more.
    Longer,
}

fn slipped(tape: &[u8], at: usize, slip: Slip) -> Vec<u8> {
    let mut bytes = tape.to_vec();
    match slip {
        Slip::Cut => bytes.truncate(at),
        Slip::Flip(bit) => bytes[at] ^= 1 << bit,
        Slip::Insert(byte) => bytes.insert(at, byte),
        Slip::Remove => {
            bytes.remove(at);
        }
        Slip::Longer => {
            bytes[at] |= 0x80;
            bytes.insert(at + 1, 0);
        }
    }
    bytes
}

/// As `variants`, but inside one body, whose frame then has the new length.
pub fn bodies(rng: &mut Rng, tape: &[u8], most: usize) -> Vec<Case> {
    let Frames { configuration, events, .. } = frames(tape);
    let Some(configured) = configuration else {
        return Vec::new();
    };
    let framed = |configured: &[u8], changed: Option<(usize, &[u8])>| {
        let mut out = Vec::new();
        number(&mut out, configured.len() as u64);
        out.extend_from_slice(configured);
        for (place, (moment, body)) in events.iter().enumerate() {
            match changed {
                Some((at, new)) if at == place => frame(&mut out, *moment, new),
                _ => frame(&mut out, *moment, body),
            }
        }
        Case::new(out)
    };
    let mut cases = Vec::new();
    while cases.len() < most {
        let place = rng.index(events.len() + 1);
        let mut body = match events.get(place) {
            Some((_, body)) => body.to_vec(),
            None => configured.to_vec(),
        };
        let slips = rng.between(1, 2);
        for _ in 0..slips {
            if rng.chance(20) && !body.is_empty() {
                let at = rng.index(body.len());
                body = slipped(&body, at, Slip::Longer);
            } else {
                spoil(rng, &mut body);
            }
        }
        cases.push(match place < events.len() {
            true => framed(configured, Some((place, &body))),
            false => framed(&body, None),
        });
    }
    cases
}

/// A sound tape with every size of answer buffer up to the one it needs, or as many as `most`.
pub fn rooms(rng: &mut Rng, tape: &[u8], needed: usize, most: usize) -> Vec<Case> {
    let sizes: Vec<u64> = match needed <= most {
        true => (0..=needed as u64).collect(),
        false => (0..most).map(|_| rng.below(needed as u64 + 1)).collect(),
    };
    sizes.into_iter().map(|room| Case { tape: tape.to_vec(), room }).collect()
}

/// The same tapes, one in four of them with an answer buffer of a random size.
pub fn in_any_room(rng: &mut Rng, mut cases: Vec<Case>) -> Vec<Case> {
    for case in &mut cases {
        if rng.chance(25) {
            let most = rng.pick(&[16, 64, 256, 1024, 8192]);
            case.room = rng.below(most);
        }
    }
    cases
}

/// Bytes of no meaning, plain or behind a sound configuration.
pub fn arbitrary(rng: &mut Rng, configuration: &[u8]) -> Case {
    let mut tape = Vec::new();
    if rng.chance(70) {
        number(&mut tape, configuration.len() as u64);
        tape.extend_from_slice(configuration);
    }
    let small = rng.chance(50);
    for _ in 0..rng.below(60) {
        tape.push(match small {
            true => rng.below(9) as u8,
            false => rng.draw() as u8,
        });
    }
    Case { tape, room: rng.pick(&[ROOM, ROOM, 0, 5, 40]) }
}
