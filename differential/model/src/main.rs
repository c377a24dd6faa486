//! Replays tapes from standard input.
//!
//! `model`: one tape. Writes the line `status place written calls check` and
//! then exactly `written` raw bytes.
//! `model --many`: for each tape its length and the answer buffer's size, 8
//! bytes each, low byte first, then its bytes; writes the same for each.

use std::io::{self, Read, Write};
use std::process::ExitCode;

fn main() -> ExitCode {
    let arguments: Vec<String> = std::env::args().skip(1).collect();
    let done = match arguments.iter().map(String::as_str).collect::<Vec<_>>()[..] {
        [] => one(),
        ["--many"] => many(),
        _ => {
            eprintln!("usage: model [--many] < tapes");
            return ExitCode::from(2);
        }
    };
    match done {
        Ok(()) => ExitCode::SUCCESS,
        Err(error) => {
            eprintln!("model: {error}");
            ExitCode::FAILURE
        }
    }
}

fn one() -> io::Result<()> {
    let mut tape = Vec::new();
    io::stdin().lock().read_to_end(&mut tape)?;
    report(&tape, u64::MAX, &mut io::stdout().lock())
}

fn many() -> io::Result<()> {
    let mut input = io::BufReader::new(io::stdin().lock());
    let mut output = io::BufWriter::new(io::stdout().lock());
    while let Some(length) = first_number(&mut input)? {
        let room = number(&mut input)?;
        let mut tape = Vec::new();
        input.by_ref().take(length).read_to_end(&mut tape)?;
        if tape.len() as u64 != length {
            return Err(io::ErrorKind::UnexpectedEof.into());
        }
        report(&tape, room, &mut output)?;
    }
    output.flush()
}

/// The number that starts a tape, or none at the input's end.
fn first_number(input: &mut impl Read) -> io::Result<Option<u64>> {
    let mut first = [0];
    loop {
        match input.read(&mut first) {
            Ok(0) => return Ok(None),
            Ok(_) => break,
            Err(error) if error.kind() == io::ErrorKind::Interrupted => {}
            Err(error) => return Err(error),
        }
    }
    number(&mut first.as_slice().chain(input)).map(Some)
}

fn number(input: &mut impl Read) -> io::Result<u64> {
    let mut bytes = [0; 8];
    input.read_exact(&mut bytes)?;
    Ok(u64::from_le_bytes(bytes))
}

/// A larger room changes nothing: a call takes three bytes of tape at least and
/// its answer 11 at most, but for 32 attempts and 32 queries.
fn enough(tape: &[u8]) -> u64 {
    4 * tape.len() as u64 + 65_536
}

fn report(tape: &[u8], room: u64, output: &mut impl Write) -> io::Result<()> {
    let mut answers = vec![0; room.min(enough(tape)) as usize];
    let done = model::replay(tape, &mut answers);
    let check = model::tape_check(tape);
    writeln!(output, "{} {} {} {} {check}", done.status, done.place, done.written, done.calls)?;
    output.write_all(&answers[..done.written])?;
    output.flush()
}
