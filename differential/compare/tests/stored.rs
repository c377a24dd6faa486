//! The model against the stored answers, and what these cover.

use compare::directed;
use compare::read::{answer, frames, Answer, Reader};
use compare::stored::{compare, folder, read, Stored};
use compare::subject::Model;
use std::collections::BTreeSet;

fn all() -> Vec<Stored> {
    read(&folder()).expect("the stored answers")
}

#[test]
fn the_model_gives_every_stored_answer() {
    let (wrong, first) = compare(&mut Model, &all());
    assert_eq!(wrong, 0, "{}", first.unwrap_or_default());
}

#[test]
fn there_are_enough_and_they_are_small() {
    let all = all();
    assert!(all.len() >= 200);
    let mut bytes = 0;
    for file in std::fs::read_dir(folder()).unwrap() {
        bytes += file.unwrap().metadata().unwrap().len();
    }
    assert!(bytes < 300_000, "{bytes} bytes");
    let by_original = all.iter().filter(|stored| stored.by_original).count();
    assert!(by_original >= 100, "{by_original} by the original alone");
}

#[test]
fn the_directed_tapes_are_stored_as_they_are_written() {
    let all = all();
    for entry in directed::entries() {
        let stored = all.iter().find(|stored| stored.name == entry.name);
        let stored = stored.unwrap_or_else(|| panic!("{} isn't stored", entry.name));
        assert_eq!(stored.case.tape, entry.tape, "{}", entry.name);
    }
}

#[test]
fn every_answer_refusal_mode_and_status_is_there() {
    let mut answers = BTreeSet::new();
    let mut numbers = BTreeSet::new();
    let mut statuses = BTreeSet::new();
    let mut modes = BTreeSet::new();
    let mut deep = BTreeSet::new();
    for stored in all() {
        statuses.insert(stored.outcome.status);
        if let Some(configuration) = frames(&stored.case.tape).configuration {
            modes.extend(configuration.last().copied().filter(|_| stored.outcome.calls > 0));
        }
        let (mut attempts, mut records) = (0, 0);
        let mut reader = Reader::new(&stored.outcome.answers);
        while let Some(heard) = answer(&mut reader) {
            answers.insert(match heard {
                Answer::Waiting => "Waiting",
                Answer::Query { allow_stale: 1, .. } => "query",
                Answer::Query { .. } => "refresh",
                Answer::Timer(_) => "timer",
                Answer::Attempt { retry: 0, .. } => "attempt",
                Answer::Attempt { .. } => "retry",
                Answer::Cancel(_) => "cancel",
                Answer::Succeeded => "Succeeded",
                Answer::Failed(0) => "Failed 0",
                Answer::Failed(_) => "Failed 1",
                Answer::Full(0) => "Full 0",
                Answer::Full(_) => "Full 1",
                Answer::Input(_) => "input",
            });
            match heard {
                Answer::Input(number) => drop(numbers.insert(number)),
                Answer::Attempt { .. } => attempts += 1,
                Answer::Query { allow_stale: 1, .. } => records += 1,
                _ => {}
            }
        }
        deep.insert(("attempts", attempts));
        deep.insert(("records", records));
    }
    assert_eq!(answers.len(), 13, "{answers:?}");
    assert_eq!(numbers, (0..=12).collect(), "numbers of inputs");
    assert_eq!(statuses, [0, 1, 2, 3, 4, 5, 6, 13].into(), "statuses of replays");
    assert_eq!(modes, [0, 1, 2].into(), "modes");
    assert!(deep.contains(&("attempts", 32)) && deep.contains(&("records", 16)));
}
