//! The printer of words, the shrinker and the interface for programs.

use compare::demand;
use compare::directed::{entries, unhex, EXAMPLE};
use compare::plug::{run, Amounts};
use compare::race;
use compare::shrink::{bytes, shrink};
use compare::subject::{Case, Model, Outcome, Program, Subject};
use compare::words::{answers, tape};
use compare::write::{Body, Configuration, History};

#[test]
fn the_example_in_words() {
    let example = unhex(EXAMPLE);
    let outcome = Model::outcome(&Case::new(example.clone()));
    let expected = "origin 192.0.2.1, port 443
H3+H2+H1; dual stack, IPv6 preferred; mode Ip; ECH on; wait for preferred address on
resolution delay 50000000 ns, attempt delay 250000000 ns, multiplier 1
at 0: call
    -> attempt 0: 192.0.2.1:443 over H2 or H1, no ECH
at 0: call
    -> timer of 250000000 ns
at 100: attempt 0 failed
    -> accepted
at 100: call
    -> Failed: connection
";
    assert_eq!(tape(&example, &outcome.answers), expected);
}

#[test]
fn the_race_in_words() {
    let outcome = Model::outcome(&Case::new(race::history().tape()));
    let old = "ECH 00 3E FE 0D 00 3A 1F 00 .. (64 bytes)";
    let new = "ECH 00 3E FE 0D 00 3A 5E 00 .. (64 bytes)";
    let mut said = answers(&outcome.answers);
    said.retain(|words| words != "accepted");
    let expected = [
        "query 0: HTTPS of \"www.example.org\" (stale allowed)".to_string(),
        "query 1: AAAA of \"www.example.org\" (stale allowed)".to_string(),
        "query 2: A of \"www.example.org\" (stale allowed)".to_string(),
        "Waiting".to_string(),
        "timer of 49965000 ns".to_string(),
        format!("attempt 3: [2001:db8:50::80]:443 over H3, {old}"),
        "timer of 250000000 ns".to_string(),
        "timer of 246000000 ns".to_string(),
        format!("attempt 4: 192.0.2.80:443 over H3, {old}"),
        "timer of 250000000 ns".to_string(),
        format!("ECH retry, attempt 5: 192.0.2.80:443 over H3, {new}"),
        "timer of 250000000 ns".to_string(),
        "cancel attempt 3".to_string(),
        "Succeeded".to_string(),
    ];
    assert_eq!(said, expected);
}

#[test]
fn any_bytes_have_words() {
    for entry in entries() {
        for cut in 0..entry.tape.len().min(200) {
            tape(&entry.tape[..cut], &entry.tape[cut..]);
        }
    }
}

#[test]
fn a_disagreement_is_made_small() {
    let mut history = History::new(Configuration::named("a.b"));
    for moment in 0..40 {
        history.push(moment, Body::Call);
    }
    history.push(90, Body::Success(7));
    let mut fails = |h: &History| h.events.iter().any(|e| matches!(e.body, Body::Success(_)));
    let small = shrink(&history, &mut fails);
    assert_eq!(small.events.len(), 1);
    assert_eq!(small.events[0].moment, 0);
    assert_eq!(bytes(&[1, 2, 3, 9, 4], &mut |tape| tape.contains(&9)), [9]);
}

fn program(path: &str, words: &[&str]) -> Program {
    let mut all = vec![path.to_string()];
    all.extend(words.iter().map(|word| word.to_string()));
    Program { words: all }
}

const FEW: Amounts = Amounts { histories: 20, damaged: 8, arbitrary: 50 };

#[test]
fn a_wrong_program_is_caught() {
    let mut wrong = program(env!("CARGO_BIN_EXE_wrong"), &[]);
    assert!(!run(&mut wrong, &[], &FEW, 1));
}

#[test]
fn a_wrong_program_is_caught_by_the_tapes_of_demand_3() {
    // One line, whatever it reads.
    let wrong = program("sh", &["-c", "cat >/dev/null; echo 0 0 0 0 0"]);
    assert!(!demand::run(1, 1, Some(Box::new(wrong))));
    assert!(demand::run(1, 1, Some(Box::new(Model))));
}

#[test]
fn no_program_is_caught() {
    let mut none = program("/nowhere/at/all", &[]);
    let outcome: Result<Outcome, String> = none.one(&Case::new(unhex(EXAMPLE)));
    assert!(outcome.is_err());
    let mut silent = program("true", &[]);
    assert!(silent.one(&Case::new(unhex(EXAMPLE))).is_err());
}
