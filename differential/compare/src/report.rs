//! A disagreement, as bytes and as words.

use crate::read::{answer, Reader};
use crate::subject::Outcome;
use crate::words::{answers, hex, tape};

/// What was expected of a tape and what came.
pub fn disagreement(bytes: &[u8], expected: &Outcome, found: &Result<Outcome, String>) -> String {
    let mut out = format!("tape of {} bytes: {}\n", bytes.len(), hex(bytes));
    out += &tape(bytes, &expected.answers);
    out += &format!("expected: {}\n", line(expected));
    match found {
        Err(error) => out += &format!("found:    {error}\n"),
        Ok(found) => {
            out += &format!("found:    {}\n", line(found));
            if let Some(at) = first_difference(&expected.answers, &found.answers) {
                let said =
                    |bytes: &[u8]| answers(bytes).get(at).cloned().unwrap_or("nothing".into());
                out += &format!("answer {at} (from 0) differs\n");
                out += &format!("    expected: {}\n", said(&expected.answers));
                out += &format!("    found:    {}\n", said(&found.answers));
            }
        }
    }
    out
}

fn line(outcome: &Outcome) -> String {
    format!(
        "status {}, place {}, {} bytes, {} calls, tape check {}; answers {}",
        outcome.status,
        outcome.place,
        outcome.answers.len(),
        outcome.calls,
        outcome.check,
        hex(&outcome.answers)
    )
}

/// The number of the first answer that differs.
fn first_difference(expected: &[u8], found: &[u8]) -> Option<usize> {
    let common = expected.iter().zip(found).take_while(|(a, b)| a == b).count();
    if common == expected.len() && common == found.len() {
        return None;
    }
    let mut reader = Reader::new(expected);
    let mut at = 0;
    while answer(&mut reader).is_some() && reader.at <= common {
        at += 1;
    }
    Some(at)
}
