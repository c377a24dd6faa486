//! A program's attempt delays against the model's: three numbers in, 8 bytes each, low byte first; a line out.

use crate::rng::Rng;
use crate::subject::Program;

/// Delay, multiplier, attempts in progress.
type Asked = (u64, u32, u64);

/// A number of any size up to 64 bits, often at an edge.
fn any(rng: &mut Rng) -> u64 {
    let bits = rng.between(1, 64);
    let number = rng.draw() >> (64 - bits);
    let edge = 1u64 << rng.below(64);
    rng.pick(&[number, number, edge, edge - 1, u64::MAX])
}

fn asked(rng: &mut Rng) -> Asked {
    let in_progress = match rng.chance(80) {
        true => rng.below(40),
        false => any(rng),
    };
    let multiplier = match rng.chance(50) {
        true => rng.below(8) as u32,
        false => any(rng) as u32,
    };
    (any(rng), multiplier, in_progress)
}

/// True if the program says what the model says of every delay.
pub fn run(count: usize, seed: u64, program: &[&str]) -> std::io::Result<bool> {
    let mut rng = Rng::new(seed);
    let all: Vec<Asked> = (0..count).map(|_| asked(&mut rng)).collect();
    let mut input = Vec::new();
    for (delay, multiplier, in_progress) in &all {
        input.extend(delay.to_le_bytes());
        input.extend(u64::from(*multiplier).to_le_bytes());
        input.extend(in_progress.to_le_bytes());
    }
    let words = program.iter().map(|word| word.to_string()).collect();
    let output = Program { words }.output(input)?;
    let output = String::from_utf8_lossy(&output);
    let mut lines = output.lines();
    let mut wrong = 0;
    for (delay, multiplier, in_progress) in all {
        let expected = model::attempt_delay(delay, multiplier, in_progress);
        let found = lines.next();
        if found != Some(&*expected.to_string()) {
            wrong += 1;
            if wrong == 1 {
                println!("--- delay {delay}, multiplier {multiplier}, {in_progress} in progress");
                println!("expected {expected}, found {found:?}");
            }
        }
    }
    println!("attempt delays: {count}, {wrong} disagreements");
    Ok(wrong == 0 && lines.next().is_none())
}
