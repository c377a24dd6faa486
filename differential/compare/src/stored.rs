//! The stored answers: tapes with what the original, or where it can't speak the model, says of them.

use crate::report::disagreement;
use crate::subject::{Case, Outcome, Subject, ROOM};
use std::path::{Path, PathBuf};
use std::{fs, io};

/// The file that names them all.
pub const LIST: &str = "LIST";

/// A stored tape and its outcome.
pub struct Stored {
    pub name: String,
    /// Whether the original gave every answer.
    pub by_original: bool,
    pub case: Case,
    pub outcome: Outcome,
}

/// The folder in this repository.
pub fn folder() -> PathBuf {
    Path::new(env!("CARGO_MANIFEST_DIR")).join("../stored")
}

/// Reads all that the list names.
pub fn read(folder: &Path) -> io::Result<Vec<Stored>> {
    let list = fs::read_to_string(folder.join(LIST))?;
    let lines = list.lines().filter(|line| !line.starts_with('#') && !line.is_empty());
    lines.map(|line| read_one(folder, line)).collect()
}

fn read_one(folder: &Path, line: &str) -> io::Result<Stored> {
    let mut words = line.split_whitespace();
    let name = words.next().unwrap_or_default().to_string();
    let by_original = words.next() == Some("oracle");
    let file = |end: &str| fs::read(folder.join(format!("{name}.{end}")));
    let (tape, answers, result) = (file("tape")?, file("answers")?, file("result")?);
    let result = String::from_utf8_lossy(&result).into_owned();
    let numbers: Vec<u64> = result.split_whitespace().map_while(|word| word.parse().ok()).collect();
    let [status, place, written, calls, check] = numbers[..] else {
        return Err(io::Error::other(format!("{name}.result: not five numbers")));
    };
    if written != answers.len() as u64 {
        return Err(io::Error::other(format!(
            "{name}: {written} bytes said, {} stored",
            answers.len()
        )));
    }
    let room = if status == 13 { written } else { ROOM };
    Ok(Stored {
        name,
        by_original,
        case: Case { tape, room },
        outcome: Outcome { status, place, calls, check, answers },
    })
}

/// Writes a tape's three files.
pub fn write(folder: &Path, name: &str, tape: &[u8], outcome: &Outcome) -> io::Result<()> {
    let file = |end: &str| folder.join(format!("{name}.{end}"));
    fs::write(file("tape"), tape)?;
    fs::write(file("answers"), &outcome.answers)?;
    let result = format!(
        "{} {} {} {} {}\n",
        outcome.status,
        outcome.place,
        outcome.answers.len(),
        outcome.calls,
        outcome.check
    );
    fs::write(file("result"), result)
}

/// Compares a subject with the stored answers: how many differ, and the first in words.
pub fn compare(subject: &mut dyn Subject, stored: &[Stored]) -> (u64, Option<String>) {
    let cases: Vec<Case> = stored.iter().map(|s| s.case.clone()).collect();
    let mut wrong = 0;
    let mut first = None;
    for (stored, found) in stored.iter().zip(subject.run(&cases)) {
        if found.as_ref() != Ok(&stored.outcome) {
            wrong += 1;
            first.get_or_insert_with(|| {
                let words = disagreement(&stored.case.tape, &stored.outcome, &found);
                format!("{}: {words}", stored.name)
            });
        }
    }
    (wrong, first)
}
