//! What is compared: the model in this process, or any program that replays tapes.

use std::io::{Read, Write};
use std::process::{Command, Stdio};

/// All that a replay and a tape check say of a tape.
#[derive(Clone, Debug, PartialEq)]
pub struct Outcome {
    pub status: u64,
    pub place: u64,
    pub calls: u64,
    pub check: u64,
    pub answers: Vec<u8>,
}

/// A tape and the size of the answer buffer.
#[derive(Clone, Debug, PartialEq)]
pub struct Case {
    pub tape: Vec<u8>,
    pub room: u64,
}

/// The answers to no tape of 65,536 bytes take more; 4 bytes for each of the tape and 74,290.
pub const ROOM: u64 = 336_434;

/// The answers to a tape take no more.
fn enough(tape: &[u8]) -> u64 {
    4 * tape.len() as u64 + 74_290
}

impl Case {
    pub fn new(tape: Vec<u8>) -> Case {
        Case { tape, room: ROOM }
    }
}

pub trait Subject {
    /// One outcome for each case, or why there is none.
    fn run(&mut self, cases: &[Case]) -> Vec<Result<Outcome, String>>;

    fn one(&mut self, case: &Case) -> Result<Outcome, String> {
        self.run(std::slice::from_ref(case)).remove(0)
    }
}

/// The model in this process.
pub struct Model;

impl Model {
    pub fn outcome(case: &Case) -> Outcome {
        let mut answers = vec![0xa5; case.room.min(enough(&case.tape)) as usize];
        let done = model::replay(&case.tape, &mut answers);
        assert!(
            answers[done.written..].iter().all(|b| *b == 0xa5),
            "a byte beyond the answers was touched"
        );
        answers.truncate(done.written);
        Outcome {
            status: done.status.into(),
            place: done.place as u64,
            calls: done.calls,
            check: model::tape_check(&case.tape).into(),
            answers,
        }
    }
}

impl Subject for Model {
    fn run(&mut self, cases: &[Case]) -> Vec<Result<Outcome, String>> {
        cases.iter().map(|case| Ok(Model::outcome(case))).collect()
    }
}

/// A program with the interface of `model --many`: README.md, "Plugging a program in".
pub struct Program {
    pub words: Vec<String>,
}

impl Subject for Program {
    fn run(&mut self, cases: &[Case]) -> Vec<Result<Outcome, String>> {
        let mut input = Vec::new();
        for case in cases {
            input.extend((case.tape.len() as u64).to_le_bytes());
            input.extend(case.room.to_le_bytes());
            input.extend(&case.tape);
        }
        let output = match self.output(input) {
            Ok(output) => output,
            Err(error) => return vec![Err(error.to_string()); cases.len()],
        };
        let mut rest = &output[..];
        let outcomes: Vec<_> = cases.iter().map(|_| outcome(&mut rest)).collect();
        if !rest.is_empty() {
            return vec![Err("more output than answers".into()); cases.len()];
        }
        outcomes
    }
}

impl Program {
    /// What it writes for this input.
    pub fn output(&self, input: Vec<u8>) -> std::io::Result<Vec<u8>> {
        let mut child = Command::new(&self.words[0])
            .args(&self.words[1..])
            .stdin(Stdio::piped())
            .stdout(Stdio::piped())
            .stderr(Stdio::null())
            .spawn()?;
        let mut stdin = child.stdin.take().unwrap();
        // A program that stops early closes its end; what it said by then is read all the same.
        let writer = std::thread::spawn(move || drop(stdin.write_all(&input)));
        let mut output = Vec::new();
        child.stdout.take().unwrap().read_to_end(&mut output)?;
        writer.join().unwrap();
        child.wait()?;
        Ok(output)
    }
}

/// The line `status place written calls check`, then `written` bytes.
fn outcome(rest: &mut &[u8]) -> Result<Outcome, String> {
    let end = rest.iter().position(|b| *b == b'\n').ok_or("no answer")?;
    let line = String::from_utf8_lossy(&rest[..end]).into_owned();
    let numbers: Vec<u64> = line.split(' ').map_while(|word| word.parse().ok()).collect();
    let [status, place, written, calls, check] = numbers[..] else {
        return Err(format!("not a line of five numbers: {line}"));
    };
    let answers = &rest[end + 1..];
    if written > answers.len() as u64 {
        return Err("fewer bytes than it says".into());
    }
    let (answers, tail) = answers.split_at(written as usize);
    *rest = tail;
    Ok(Outcome { status, place, calls, check, answers: answers.to_vec() })
}
