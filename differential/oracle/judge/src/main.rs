//! The judge with the original: see differential/README.md.

#[cfg(test)]
mod differences;
mod listings;
mod run;
mod spoils;
mod store;

use compare::directed::unhex;
use compare::subject::{Model, Program, Subject};
use judge::adapter;
use std::io::Read;
use std::path::Path;
use std::process::ExitCode;

const USAGE: &str = "usage: judge run HISTORIES SEED [PROGRAM ARGUMENTS..]
       judge listing STATES SEED    the whole listing: the original's, the model's and the proved one's
       judge store FOLDER SUMS      makes the stored answers
       judge spoils FOLDER SLIP [PROGRAM ARGUMENTS..]
                                    spoils the model under FOLDER (differential/) in that place, or `all`, one at a time
       judge show [BYTES..]         one tape, in hexadecimal or on standard input";

fn main() -> ExitCode {
    adapter::install_hook();
    let words: Vec<String> = std::env::args().skip(1).collect();
    let words: Vec<&str> = words.iter().map(String::as_str).collect();
    let done = match words[..] {
        ["run", count, seed, ref program @ ..] => run(count, seed, program),
        ["listing", states, seed] => listed(states, seed),
        ["store", folder, sums] => store(folder, sums),
        ["show", ref bytes @ ..] => show(bytes),
        ["spoils", folder, slip, ref program @ ..] => spoils(folder, slip, program),
        _ => Err(USAGE.into()),
    };
    match done {
        Ok(true) => ExitCode::SUCCESS,
        Ok(false) => ExitCode::FAILURE,
        Err(error) => {
            eprintln!("{error}");
            ExitCode::from(2)
        }
    }
}

type Done = Result<bool, Box<dyn std::error::Error>>;

fn named(words: &[&str]) -> Option<Program> {
    let words: Vec<String> = words.iter().map(|word| word.to_string()).collect();
    (!words.is_empty()).then_some(Program { words })
}

fn run(count: &str, seed: &str, program: &[&str]) -> Done {
    let mut subject: Box<dyn Subject> = match named(program) {
        None => Box::new(Model),
        Some(program) => Box::new(program),
    };
    Ok(run::run(subject.as_mut(), count.parse()?, seed.parse()?))
}

fn listed(states: &str, seed: &str) -> Done {
    Ok(listings::run(states.parse()?, seed.parse()?))
}

fn store(folder: &str, sums: &str) -> Done {
    let sums = std::fs::read_to_string(sums)?;
    Ok(store::store(Path::new(folder), &sums)?)
}

fn show(bytes: &[&str]) -> Done {
    let mut tape = unhex(&bytes.concat());
    if bytes.is_empty() {
        std::io::stdin().read_to_end(&mut tape)?;
    }
    store::show(&tape);
    Ok(true)
}

fn spoils(folder: &str, slip: &str, program: &[&str]) -> Done {
    let folder = std::fs::canonicalize(folder)?;
    let only = (slip != "all").then_some(slip);
    spoils::run(&folder.join("spoils.txt"), &folder, only, named(program))
}
