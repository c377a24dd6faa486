//! Makes the stored answers, and shows what the original says of one tape.

use compare::directed;
use compare::play::{ask, play, Player, Referee, SHAPES};
use compare::read::{frames, Frames};
use compare::report::disagreement;
use compare::rng::Rng;
use compare::stored::{write, LIST};
use compare::subject::{Case, Model, ROOM};
use compare::words;
use judge::adapter::{Made, Oracle};
use std::fmt::Write;
use std::path::Path;
use std::{fs, io};

/// What the original says of a tape's sound events before a place.
pub struct Said {
    /// Its answers, or why there are none.
    pub answers: Result<Vec<u8>, String>,
    /// Answers that it gave itself.
    pub spoken: u64,
    /// Answers that document 01's numbers, limits and exceptions gave.
    pub silent: u64,
    /// The number of each such answer, and what the original did.
    pub notes: Vec<(usize, String)>,
}

pub fn said(tape: &[u8], place: usize) -> Said {
    let Frames { configuration, events, .. } = frames(&tape[..place]);
    let nothing =
        |why: &str| Said { answers: Err(why.into()), spoken: 0, silent: 0, notes: Vec::new() };
    let mut oracle = match configuration.map(Oracle::make) {
        None => return nothing("no configuration"),
        Some(Made::Refused(number)) => {
            return nothing(&format!("configuration refused with {number}"))
        }
        Some(Made::Outside(what)) => return nothing(&format!("outside the domain: {what}")),
        Some(Made::Machine(oracle)) => oracle,
    };
    let mut answers = Vec::new();
    let mut notes = Vec::new();
    for (number, (moment, body)) in events.into_iter().enumerate() {
        let answer = ask(oracle.as_mut(), moment, body);
        if oracle.over() {
            return nothing("a saturated delay's end leaves the domain");
        }
        answers.extend(answer);
        notes.extend(oracle.note.take().map(|note| (number, note)));
    }
    Said { answers: Ok(answers), spoken: oracle.spoken, silent: oracle.silent, notes }
}

/// Random tapes of each aim, small enough to store.
const RANDOM_FOR_EACH: usize = 12;
const LARGEST: usize = 1000;
const SEED: u64 = 2026;

fn random() -> Vec<directed::Entry> {
    let mut entries = Vec::new();
    for shape in SHAPES {
        let mut kept = 0;
        let mut number = 0;
        while kept < RANDOM_FOR_EACH {
            number += 1;
            let mut player = Player::of(Rng::nth(SEED, number), shape);
            let Some(mut oracle) = Oracle::new(&player.configuration.body()) else {
                continue;
            };
            let played = play(&mut player, &mut oracle, |_, _| {});
            let tape = played.history.tape();
            if tape.len() <= LARGEST && played.depth.events >= 15 {
                kept += 1;
                entries.push(directed::Entry {
                    name: format!("random-{shape:?}-{kept}").to_lowercase(),
                    tape,
                    room: None,
                    shows: "a random history",
                });
            }
        }
    }
    entries
}

/// Writes every tape with its answers; false if the original says otherwise than the model.
pub fn store(folder: &Path, sums: &str) -> io::Result<bool> {
    fs::create_dir_all(folder)?;
    for old in fs::read_dir(folder)? {
        fs::remove_file(old?.path())?;
    }
    let mut list = header(sums);
    let (mut agree, mut bytes, mut spoken) = (true, 0, 0);
    let mut entries = directed::entries();
    entries.extend(random());
    for entry in &entries {
        let room = entry.room.unwrap_or(ROOM);
        let mut outcome = Model::outcome(&Case { tape: entry.tape.clone(), room });
        let said = said(&entry.tape, outcome.place as usize);
        let by_original = said.answers.is_ok() && said.silent == 0 && outcome.status == 0;
        if let Ok(answers) = said.answers {
            if answers != outcome.answers {
                agree = false;
                let found = Ok(outcome.clone());
                outcome.answers = answers;
                println!("{}: {}", entry.name, disagreement(&entry.tape, &outcome, &found));
            }
        }
        write(folder, &entry.name, &entry.tape, &outcome)?;
        bytes += entry.tape.len() + outcome.answers.len();
        spoken += u64::from(by_original);
        let by = if by_original { "oracle" } else { "model" };
        let _ =
            writeln!(list, "{} {by} {} {} {}", entry.name, said.spoken, said.silent, entry.shows);
    }
    fs::write(folder.join(LIST), list)?;
    println!(
        "{} tapes, {spoken} of them with the original's answers alone, {bytes} bytes of tapes and answers",
        entries.len()
    );
    Ok(agree)
}

fn header(sums: &str) -> String {
    let mut out = String::from(
        "# Stored answers, made by differential/store.sh.\n\
         # The original is mozilla/happy-eyeballs at commit c5ad303ba9, with these sha256 checksums:\n",
    );
    for line in sums.lines() {
        let _ = writeln!(out, "#   {line}");
    }
    out + "# Each line: name; `oracle` where the original gave every answer, `model` where some or all are\n\
         # document 01's alone (refusals, Full, limits, the differences); the number of answers that the\n\
         # original gave and of those that it can't give; what the tape shows.\n\
         # NAME.result: status, place, written, calls, tape check. The answer buffer has just the bytes of\n\
         # NAME.answers where the status is 13, and 336,434 bytes elsewhere.\n"
}

/// One tape: what the model says, what the original says, in words.
pub fn show(tape: &[u8]) {
    let outcome = Model::outcome(&Case::new(tape.to_vec()));
    println!("{}", words::hex(tape));
    print!("{}", words::tape(tape, &outcome.answers));
    println!(
        "model: status {}, place {}, {} bytes, {} calls, tape check {}: {}",
        outcome.status,
        outcome.place,
        outcome.answers.len(),
        outcome.calls,
        outcome.check,
        words::hex(&outcome.answers)
    );
    let said = said(tape, outcome.place as usize);
    for (number, note) in &said.notes {
        println!("original at event {number} (from 0): {note}");
    }
    match said.answers {
        Err(why) => println!("original: {why}"),
        Ok(answers) if answers == outcome.answers => println!(
            "original: the same ({} answers its own, {} by document 01)",
            said.spoken, said.silent
        ),
        Ok(answers) => {
            println!("original: {}", words::hex(&answers));
            for line in words::answers(&answers) {
                println!("    {line}");
            }
        }
    }
}
