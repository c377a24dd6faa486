//! The judge without the original: see differential/README.md.

use compare::plug::Amounts;
use compare::subject::{Case, Model, Program, Subject};
use compare::tally::Refusals;
use compare::{delays, demand, directed, plug, stored, tapes, words};
use std::io::{Read, Write};
use std::process::ExitCode;

const USAGE: &str = "usage: compare stored [PROGRAM ARGUMENTS..]                          the stored answers
       compare plug HISTORIES DAMAGED ARBITRARY SEED PROGRAM [ARGUMENTS..]   a program against the model
       compare delays COUNT SEED PROGRAM [ARGUMENTS..]                       its attempt delays against the model's
       compare demand HISTORIES SEED [PROGRAM ARGUMENTS..]              demand 3 by simulation
       compare tape NAME                                                a tape that is written for a purpose, as bytes
       compare tapes COUNT SEED FOLDER                                  random tapes and the model's answers, as files
       compare words                                                    the tape on standard input, in words";

type Done = Result<bool, Box<dyn std::error::Error>>;

fn main() -> ExitCode {
    let words: Vec<String> = std::env::args().skip(1).collect();
    let words: Vec<&str> = words.iter().map(String::as_str).collect();
    let done = match words[..] {
        ["stored", ref program @ ..] => stored_answers(program),
        ["plug", histories, damaged, arbitrary, seed, ref program @ ..] if !program.is_empty() => {
            plugged(&[histories, damaged, arbitrary, seed], program)
        }
        ["delays", count, seed, ref program @ ..] if !program.is_empty() => {
            delayed(count, seed, program)
        }
        ["demand", histories, seed, ref program @ ..] => demanded(histories, seed, program),
        ["tape", name] => written(name),
        ["tapes", count, seed, folder] => kept(count, seed, folder),
        ["words"] => in_words(),
        _ => Err(USAGE.into()),
    };
    match done {
        Ok(true) => ExitCode::SUCCESS,
        Ok(false) => ExitCode::FAILURE,
        Err(error) => {
            eprintln!("{error}");
            ExitCode::from(2)
        }
    }
}

fn subject(program: &[&str]) -> Box<dyn Subject> {
    match program {
        [] => Box::new(Model),
        words => Box::new(Program { words: words.iter().map(|word| word.to_string()).collect() }),
    }
}

fn stored_answers(program: &[&str]) -> Done {
    let all = stored::read(&stored::folder())?;
    let (wrong, first) = stored::compare(subject(program).as_mut(), &all);
    if let Some(first) = first {
        println!("--- disagreement\n{first}");
    }
    println!("stored answers: {} tapes, {wrong} disagreements", all.len());
    if wrong == 0 && !program.is_empty() {
        let mut refusals = Refusals::default();
        all.iter().for_each(|stored| refusals.add(&stored.outcome));
        refusals.print();
    }
    Ok(wrong == 0)
}

fn plugged(numbers: &[&str; 4], program: &[&str]) -> Done {
    let amounts = Amounts {
        histories: numbers[0].parse()?,
        damaged: numbers[1].parse()?,
        arbitrary: numbers[2].parse()?,
    };
    let all = stored::read(&stored::folder())?;
    Ok(plug::run(subject(program).as_mut(), &all, &amounts, numbers[3].parse()?))
}

fn delayed(count: &str, seed: &str, program: &[&str]) -> Done {
    Ok(delays::run(count.parse()?, seed.parse()?, program)?)
}

fn demanded(histories: &str, seed: &str, words: &[&str]) -> Done {
    let program = (!words.is_empty()).then(|| subject(words));
    Ok(demand::run(histories.parse()?, seed.parse()?, program))
}

fn written(name: &str) -> Done {
    let entry = directed::entries().into_iter().find(|entry| entry.name == name);
    let entry = entry.ok_or_else(|| format!("no tape of the name {name}"))?;
    std::io::stdout().write_all(&entry.tape)?;
    Ok(true)
}

fn kept(count: &str, seed: &str, folder: &str) -> Done {
    tapes::write(count.parse()?, seed.parse()?, folder.as_ref())?;
    Ok(true)
}

fn in_words() -> Done {
    let mut tape = Vec::new();
    std::io::stdin().read_to_end(&mut tape)?;
    let outcome = Model::outcome(&Case::new(tape.clone()));
    print!("{}", words::tape(&tape, &outcome.answers));
    println!(
        "status {}, place {}, {} bytes, {} calls, tape check {}",
        outcome.status,
        outcome.place,
        outcome.answers.len(),
        outcome.calls,
        outcome.check
    );
    Ok(true)
}
