//! The whole listing on many states: the original's `endpoints_to_attempt` against the model's,
//! and against the proved one's where its archive is there.

use compare::play::{ask, play};
use compare::rng::Rng;
use judge::adapter::Oracle;
use listing::{player, Choice, Listings};
use std::time::Instant;

/// Compares on `states` states of histories inside the domain; true if all agree.
pub fn run(states: u64, seed: u64) -> bool {
    let started = Instant::now();
    let mut listings = Listings::default();
    let (mut number, mut outside) = (0, 0);
    while listings.states() < states {
        let mut player = player(seed, number);
        let mut rng = Rng::nth(!seed, number);
        number += 1;
        let body = player.configuration.body();
        let Some(mut oracle) = Oracle::new(&body) else {
            outside += 1;
            continue;
        };
        let Ok(mut machine) = model::Machine::new(&body) else {
            panic!("the model refuses what the original takes: {body:02X?}");
        };
        let mut choice = Choice::default();
        play(&mut player, &mut oracle, |oracle, event| {
            ask(&mut machine, event.moment, &event.body.bytes());
            if choice.takes(&mut rng, &machine) {
                listings.look(&mut rng, &machine, Some(oracle.listing()));
            }
        });
    }
    println!("{number} histories, {outside} of them outside the domain and left out");
    let agree = listings.report();
    println!("seed {seed}, {:.1} s", started.elapsed().as_secs_f64());
    agree
}
