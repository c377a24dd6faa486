//! The proved listing against the model's: see differential/README.md.

use compare::play::play;
use compare::rng::Rng;
use listing::{player, Choice, Listings, THERE};
use std::process::ExitCode;
use std::time::Instant;

const USAGE: &str =
    "usage: listing STATES ANY SEED    so many states of random histories, and so many others";

fn main() -> ExitCode {
    let words: Vec<String> = std::env::args().skip(1).collect();
    let numbers: Vec<u64> = words.iter().map_while(|word| word.parse().ok()).collect();
    match numbers[..] {
        [states, any, seed] if words.len() == 3 => {
            let agree = run(states, any, seed);
            if !THERE {
                println!(
                    "no archive of the proved listing: `tests/native probes`, then build again"
                );
            }
            ExitCode::from(u8::from(!agree || !THERE))
        }
        _ => {
            eprintln!("{USAGE}");
            ExitCode::from(2)
        }
    }
}

/// True if all listings agree.
fn run(states: u64, any: u64, seed: u64) -> bool {
    let started = Instant::now();
    let mut listings = Listings::default();
    let mut number = 0;
    while listings.states() < states {
        let mut player = player(seed, number);
        let mut rng = Rng::nth(!seed, number);
        number += 1;
        let Ok(mut machine) = model::Machine::new(&player.configuration.body()) else {
            continue;
        };
        let mut choice = Choice::default();
        play(&mut player, &mut machine, |machine, _| {
            if choice.takes(&mut rng, machine) {
                listings.look(&mut rng, machine, None);
            }
        });
    }
    let mut rng = Rng::new(seed);
    (0..any).for_each(|_| listings.look_any(&mut rng));
    println!("{number} histories");
    let agree = listings.report();
    println!("seed {seed}, {:.1} s", started.elapsed().as_secs_f64());
    agree
}
