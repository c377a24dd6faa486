//! Replay, its places and its room; tape check.

use crate::build::*;
use model::{replay, tape_check, Replayed};

const EXAMPLE: [u8; 35] = [
    0x15, 0xBB, 0x03, 0x01, 0xC0, 0x00, 0x02, 0x01, 0x07, 0x00, 0x00, 0x80, 0xE1, 0xEB, 0x17, 0x80,
    0xE5, 0x9A, 0x77, 0x01, 0x03, 0x00, 0x00, 0x01, 0x07, 0x00, 0x01, 0x07, 0x64, 0x02, 0x05, 0x00,
    0x64, 0x01, 0x07,
];
const ANSWERS: [u8; 21] = [
    0x03, 0x00, 0x00, 0x01, 0x00, 0xC0, 0x00, 0x02, 0x01, 0xBB, 0x03, 0x00, 0x02, 0x80, 0xE5, 0x9A,
    0x77, 0x08, 0x00, 0x06, 0x01,
];

fn done(status: u8, place: usize, written: usize, calls: u64) -> Replayed {
    Replayed { status, place, written, calls }
}

/// Replays into a room of that size and tests that no byte beyond is touched.
fn replayed(tape: &[u8], room: usize) -> (Replayed, Vec<u8>) {
    let mut out = vec![0xA5; room];
    let result = replay(tape, &mut out);
    assert!(out[result.written..].iter().all(|byte| *byte == 0xA5));
    out.truncate(result.written);
    (result, out)
}

fn stopped(tape: &[u8]) -> Replayed {
    replayed(tape, 4_096).0
}

#[test]
fn known_tape() {
    assert_eq!(replayed(&EXAMPLE, 64), (done(0, 35, 21, 3), ANSWERS.to_vec()));
    assert_eq!(tape_check(&EXAMPLE), 0);
}

#[test]
fn empty_tape() {
    assert_eq!(replayed(&[], 64), (done(1, 0, 0, 0), Vec::new()));
    assert_eq!(tape_check(&[]), 1);
}

#[test]
fn room_for_whole_answers_only() {
    // Each answer's end, the place of the event after it, the calls before it.
    let ends = [(0, 22, 0), (12, 25, 1), (17, 28, 2), (19, 32, 2)];
    for room in 0..21 {
        let (written, place, calls) = *ends.iter().rfind(|(end, ..)| *end <= room).unwrap();
        let (result, answers) = replayed(&EXAMPLE, room);
        assert_eq!(result, done(13, place, written, calls));
        assert_eq!(answers, ANSWERS[..written]);
    }
    assert_eq!(replayed(&EXAMPLE, 21).0, done(0, 35, 21, 3));
}

#[test]
fn every_cut() {
    // Whole records end at these places; what was written and called by then.
    let wholes = [(22, 0, 0), (25, 12, 1), (28, 17, 2), (32, 19, 2)];
    for length in 0..35 {
        let cut = &EXAMPLE[..length];
        let whole = wholes.iter().rfind(|(end, ..)| *end <= length);
        let expected = match whole {
            None => done(1, 0, 0, 0),
            Some((end, written, calls)) => done(u8::from(*end < length), *end, *written, *calls),
        };
        assert_eq!(stopped(cut), expected);
        assert_eq!(tape_check(cut), expected.status);
    }
}

#[test]
fn refused_configuration() {
    let wrong = |configuration: &[u8], number: u8| {
        let tape = tape(configuration, &[(0, &CALL)]);
        assert_eq!(stopped(&tape), done(number, 0, 0, 0));
        assert_eq!(tape_check(&tape), number);
    };
    let sound = Configuration::default();
    wrong(&[], 1);
    wrong(&sound.bytes()[..9], 1);
    wrong(&[0x80, 0x00], 2);
    wrong(&Configuration { mode: 3, ..sound.clone() }.bytes(), 3);
    wrong(&Configuration { origin: name_host("a..b"), ..sound.clone() }.bytes(), 4);
    wrong(&[numbers(&[443, 0, 240])].concat(), 5);
    wrong(&[sound.bytes(), vec![0]].concat(), 6);
}

#[test]
fn frames() {
    let configuration = Configuration::default().bytes();
    let start = tape(&configuration, &[(0, &CALL)]);
    let first = query(0, HTTPS, "a.b").len();
    let then = |frame: &[u8], status: u8| {
        let tape = [&start[..], frame].concat();
        assert_eq!(stopped(&tape), done(status, start.len(), first, 1));
        assert_eq!(tape_check(&tape), status);
    };
    then(&[0x80], 1);
    then(&[0x80, 0x00], 2);
    then(&[0], 1);
    then(&[0, 0x80], 1);
    then(&[0, 0x80, 0x00], 2);
    then(&[0, 1], 1);
    // 4,096 without bytes is Cut; 4,097 is out of range, bytes or not.
    then(&numbers(&[0, 4_096]), 1);
    then(&numbers(&[0, 4_097]), 3);
    then(&[numbers(&[0, 4_097]), vec![0; 4_097]].concat(), 3);
    then(&numbers(&[u64::MAX, u64::MAX]), 3);
    // A whole frame of 4,096 is a body like another.
    let long = [&start[..], &numbers(&[0, 4_096]), &[7; 4_096]].concat();
    assert_eq!(stopped(&long), done(0, long.len(), first + 2, 1));
    assert_eq!(tape_check(&long), 6);
    let short = [&numbers(&[4_097])[..], &[0; 4_097]].concat();
    assert_eq!(stopped(&short), done(3, 0, 0, 0));
}

#[test]
fn refused_bodies_go_on() {
    let configuration = Configuration::default().bytes();
    let bodies: [(&[u8], u8); 8] = [
        (&[], 1),
        (&[2], 1),
        (&[0x87, 0x00], 2),
        (&[0], 3),
        (&[8], 3),
        (&[7, 7], 6),
        (&[4, 9], 7),
        (&[3, 0, 2], 0),
    ];
    let mut events: Vec<(u64, &[u8])> = vec![(9, &CALL)];
    events.extend(bodies.iter().map(|(body, _)| (5, *body)));
    events.push((u64::MAX, &CALL));
    let tape = tape(&configuration, &events);
    let (result, answers) = replayed(&tape, 4_096);
    let mut expected = query(0, HTTPS, "a.b");
    for (_, number) in bodies {
        expected.extend([8, number]);
    }
    expected.extend(query(1, AAAA, "a.b"));
    assert_eq!(answers, expected);
    assert_eq!(result, done(0, tape.len(), expected.len(), 2));
    assert_eq!(tape_check(&tape), 1);
}

#[test]
fn check_gives_the_first_fault_of_1_to_6() {
    let configuration = Configuration::default().bytes();
    let check = |bodies: &[&[u8]]| {
        let events: Vec<(u64, &[u8])> = bodies.iter().map(|body| (0, *body)).collect();
        tape_check(&tape(&configuration, &events))
    };
    assert_eq!(check(&[&CALL, &[4, 9], &[2, 9, 2]]), 0);
    assert_eq!(check(&[&CALL, &[7, 0], &[0]]), 6);
    assert_eq!(check(&[&[0], &[7, 0]]), 3);
    assert_eq!(check(&[&[3, 0, 0, 5]]), 5);
    assert_eq!(check(&[&[3, 0, 0, 1, 1, 0]]), 4);
    // A body's fault before a later frame's.
    let faulty = [&tape(&configuration, &[(0, &[7, 0])])[..], &[0x80, 0x00]].concat();
    assert_eq!(tape_check(&faulty), 6);
    assert_eq!(stopped(&faulty), done(2, faulty.len() - 2, 2, 0));
}

#[test]
fn a_tape_says_what_the_live_machine_says() {
    let configuration = Configuration { delay: 0, ..Configuration::default() };
    let bodies = [
        https(0, STALE, &[Service { v6: vec![1], ech: Some(vec![7]), ..service("d") }]),
        aaaa(1, 0, &[1, 2]),
        a(2, 0, &[3]),
        success(40),
    ];
    let mut m = configuration.machine();
    let mut events: Vec<(u64, &[u8])> = Vec::new();
    let mut expected = Vec::new();
    for (moment, body) in bodies.iter().enumerate() {
        for _ in 0..4 {
            events.push((moment as u64, &CALL));
            expected.extend(m.output(moment as u64));
        }
        events.push((moment as u64, body));
        expected.extend([8, m.input(moment as u64, body)]);
    }
    let tape = tape(&configuration.bytes(), &events);
    let (result, answers) = replayed(&tape, 4_096);
    assert_eq!(answers, expected);
    assert_eq!(result, done(0, tape.len(), expected.len(), 16));
}
