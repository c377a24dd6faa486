//! The program, over one tape and over many.

use crate::build::*;
use std::io::Write;
use std::process::{Command, Output, Stdio};

fn run(arguments: &[&str], input: &[u8]) -> Output {
    let mut program = Command::new(env!("CARGO_BIN_EXE_model"))
        .args(arguments)
        .stdin(Stdio::piped())
        .stdout(Stdio::piped())
        .stderr(Stdio::piped())
        .spawn()
        .expect("the program starts");
    program.stdin.take().expect("its input").write_all(input).expect("its input is read");
    program.wait_with_output().expect("the program ends")
}

fn sample() -> Vec<u8> {
    let events: [(u64, &[u8]); 3] = [(0, &CALL), (1, &[0]), (2, &CALL)];
    tape(&Configuration::default().bytes(), &events)
}

fn expected(status: u8, place: usize, answers: &[u8], calls: u64, check: u8) -> Vec<u8> {
    let head = format!("{status} {place} {} {calls} {check}\n", answers.len());
    [head.into_bytes(), answers.to_vec()].concat()
}

fn record(tape: &[u8], room: u64) -> Vec<u8> {
    let length = tape.len() as u64;
    [&length.to_le_bytes(), &room.to_le_bytes(), tape].concat()
}

#[test]
fn one_tape() {
    let tape = sample();
    let answers = [query(0, HTTPS, "a.b"), vec![8, 3], query(1, AAAA, "a.b")].concat();
    let output = run(&[], &tape);
    assert!(output.status.success());
    assert_eq!(output.stdout, expected(0, tape.len(), &answers, 2, 3));
    assert_eq!(run(&[], &[]).stdout, expected(1, 0, &[], 0, 1));
}

#[test]
fn many_tapes() {
    let tape = sample();
    let first = query(0, HTTPS, "a.b");
    let answers = [first.clone(), vec![8, 3], query(1, AAAA, "a.b")].concat();
    let second = tape.len() - 6;
    let input = [
        record(&tape, u64::MAX),
        record(&[], 0),
        record(&tape, first.len() as u64),
        record(&tape, answers.len() as u64),
    ];
    let output = run(&["--many"], &input.concat());
    assert!(output.status.success());
    let whole = expected(0, tape.len(), &answers, 2, 3);
    let short = expected(13, second, &first, 1, 3);
    let parts = [whole.clone(), expected(1, 0, &[], 0, 1), short, whole];
    assert_eq!(output.stdout, parts.concat());
    assert!(run(&["--many"], &[]).stdout.is_empty());
}

#[test]
fn wrong_use() {
    assert!(!run(&["--all"], &[]).status.success());
    let input = record(&sample(), 9);
    assert!(!run(&["--many"], &input[..input.len() - 1]).status.success());
    assert!(!run(&["--many"], &input[..7]).status.success());
}
