//! The judge judged: the model spoiled in one place at a time, and whether each slip is caught.

use crate::run::Figures;
use compare::read::{answer, Answer, Reader};
use compare::stored::{self, Stored};
use compare::subject::{Case, Outcome, Program, Subject};
use std::error::Error;
use std::path::{Path, PathBuf};
use std::process::{Command, Stdio};
use std::{env, fs};

/// Histories of the original that each spoiled model is held against.
const HISTORIES: u64 = 3000;
const SEED: u64 = 30;

/// One slip: `old` stands exactly once in the model's file and is replaced by `new`.
pub struct Spoil {
    name: String,
    rule: String,
    file: String,
    old: String,
    new: String,
}

/// Reads the list: blocks of `name:`, `rule:`, `file:`, `old:`, `new:`, an empty line between.
pub fn read(list: &str) -> Result<Vec<Spoil>, String> {
    let blocks = list
        .split("\n\n")
        .map(str::trim)
        .filter(|block| block.lines().any(|line| !line.starts_with('#') && !line.is_empty()));
    blocks.map(read_one).collect()
}

fn read_one(block: &str) -> Result<Spoil, String> {
    let field = |key: &str| {
        let mut lines = block.lines().filter_map(|line| line.strip_prefix(key));
        let found = lines.next().map(|rest| rest.trim().to_string());
        found.ok_or_else(|| format!("no `{key}` in the block:\n{block}"))
    };
    Ok(Spoil {
        name: field("name:")?,
        rule: field("rule:")?,
        file: field("file:")?,
        old: field("old:")?,
        new: field("new:")?,
    })
}

/// A history of the original, its outcome, and whether an exception stands in it.
struct Known {
    case: Case,
    outcome: Outcome,
    excepted: bool,
}

/// What a spoiled model is held against.
struct Judges {
    known: Vec<Known>,
    stored: Vec<Stored>,
    /// What a program under test says of all these tapes, if there is one.
    said: Option<Vec<Result<Outcome, String>>>,
}

/// How many tapes show a slip, by each judge.
struct Shown {
    original: usize,
    stored: usize,
    program: usize,
}

/// Spoils, builds, compares; prints the table. True if every slip is caught, by the program too if there is one.
pub fn run(
    list: &Path,
    differential: &Path,
    only: Option<&str>,
    program: Option<Program>,
) -> Result<bool, Box<dyn Error>> {
    let spoils = read(&fs::read_to_string(list)?)?;
    let judges = Judges::new(program)?;
    let place = differential.join("../target/spoils");
    println!(
        "each spoiled model against {} histories of the original and {} stored tapes",
        judges.known.len(),
        judges.stored.len()
    );
    println!("{:<28} {:>9} {:>7} {:>8}  rule", "slip", "original", "stored", "program");
    let (mut tried, mut missed, mut passed) = (0, Vec::new(), Vec::new());
    for spoil in spoils.iter().filter(|spoil| only.is_none_or(|only| only == spoil.name)) {
        tried += 1;
        let Shown { original, stored, program } =
            judges.judge(&build(spoil, differential, &place)?);
        println!("{:<28} {original:>9} {stored:>7} {program:>8}  {}", spoil.name, spoil.rule);
        if original == 0 && stored == 0 {
            missed.push(spoil.name.as_str());
        }
        if judges.said.is_some() && program == 0 {
            passed.push(spoil.name.as_str());
        }
    }
    summary("caught", tried, &missed);
    if judges.said.is_some() {
        summary("caught with the program as the judge", tried, &passed);
    }
    Ok(tried > 0 && missed.is_empty() && passed.is_empty())
}

fn summary(what: &str, tried: usize, missed: &[&str]) {
    let caught = tried - missed.len();
    println!("{tried} slips, {caught} {what}, {} missed {}", missed.len(), missed.join(" "));
}

fn known() -> Vec<Known> {
    let mut figures = Figures::default();
    let mut known = Vec::new();
    for number in 0..HISTORIES {
        let before = figures.excepted();
        if let Some((history, outcome)) = figures.play(SEED, number) {
            let excepted = figures.excepted() > before;
            known.push(Known { case: Case::new(history.tape()), outcome, excepted });
        }
    }
    known
}

/// Copies the model, makes the slip and builds it.
fn build(spoil: &Spoil, differential: &Path, place: &Path) -> Result<PathBuf, Box<dyn Error>> {
    let (from, to) = (differential.join("model"), place.join("model"));
    if to.exists() {
        fs::remove_dir_all(&to)?;
    }
    fs::create_dir_all(to.join("src"))?;
    for file in fs::read_dir(from.join("src"))? {
        let file = file?.path();
        if file.is_file() {
            fs::copy(&file, to.join("src").join(file.file_name().unwrap()))?;
        }
    }
    let manifest = fs::read_to_string(from.join("Cargo.toml"))?;
    let own = "\n[workspace]\n\n[profile.release]\nopt-level = 1\noverflow-checks = true\n";
    fs::write(to.join("Cargo.toml"), manifest + own)?;

    let path = to.join("src").join(&spoil.file);
    let text = fs::read_to_string(&path)?;
    let count = text.matches(&spoil.old).count();
    if count != 1 {
        return Err(format!(
            "{}: `{}` stands {count} times in {}",
            spoil.name, spoil.old, spoil.file
        )
        .into());
    }
    fs::write(&path, text.replace(&spoil.old, &spoil.new))?;

    let built = Command::new(env::var_os("CARGO").unwrap_or_else(|| "cargo".into()))
        .args(["build", "--release", "--offline", "--quiet", "--bin", "model"])
        .current_dir(&to)
        .env("CARGO_TARGET_DIR", place.join("build"))
        .env("RUSTFLAGS", "-Awarnings")
        .stdout(Stdio::null())
        .status()?;
    if !built.success() {
        return Err(format!("{}: the spoiled model doesn't build", spoil.name).into());
    }
    Ok(place.join("build/release/model"))
}

impl Judges {
    /// Fails if the program doesn't itself say what is known and stored: then it is no judge.
    fn new(program: Option<Program>) -> Result<Judges, Box<dyn Error>> {
        let stored = stored::read(&stored::folder())?;
        let mut judges = Judges { known: known(), stored, said: None };
        if let Some(mut program) = program {
            let said = program.run(&judges.cases());
            let expected = judges.expected();
            let wrong = said.iter().zip(&expected).filter(|(s, e)| s.as_ref() != Ok(*e)).count();
            if wrong > 0 {
                return Err(format!("the program itself differs on {wrong} tapes").into());
            }
            judges.said = Some(said);
        }
        Ok(judges)
    }

    /// The tapes of the known histories, then the stored ones.
    fn cases(&self) -> Vec<Case> {
        let known = self.known.iter().map(|known| &known.case);
        known.chain(self.stored.iter().map(|stored| &stored.case)).cloned().collect()
    }

    fn expected(&self) -> Vec<&Outcome> {
        let known = self.known.iter().map(|known| &known.outcome);
        known.chain(self.stored.iter().map(|stored| &stored.outcome)).collect()
    }

    fn judge(&self, spoiled: &Path) -> Shown {
        let mut spoiled = Program { words: vec![spoiled.display().to_string(), "--many".into()] };
        let found = spoiled.run(&self.cases());
        let (of_known, of_stored) = found.split_at(self.known.len());
        let said = self.said.iter().flatten();
        Shown {
            original: self.known.iter().zip(of_known).filter(|(k, found)| shows(k, found)).count(),
            stored: self
                .stored
                .iter()
                .zip(of_stored)
                .filter(|(stored, found)| found.as_ref() != Ok(&stored.outcome))
                .count(),
            program: said.zip(&found).filter(|(said, found)| said != found).count(),
        }
    }
}

/// Whether an answer that the original gave itself is missing or another.
fn shows(known: &Known, found: &Result<Outcome, String>) -> bool {
    if known.excepted {
        return false;
    }
    let Ok(found) = found else { return true };
    let (mut theirs, mut ours) = (Reader::new(&known.outcome.answers), Reader::new(&found.answers));
    loop {
        match (answer(&mut theirs), answer(&mut ours)) {
            (None, None) => return false,
            (expected, found) if expected == found => {}
            // The original refused by a failed assertion.
            (Some(Answer::Input(7 | 8 | 10 | 11 | 12)), Some(Answer::Input(0))) => return true,
            // Refusal numbers and Full are document 01's.
            (Some(Answer::Input(1..) | Answer::Full(_)), _) => return false,
            _ => return true,
        }
    }
}
