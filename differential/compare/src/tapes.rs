//! Random tapes with the model's answers, as files for a test to read.

use crate::damage::spoil;
use crate::play::{play, Player};
use crate::rng::Rng;
use crate::subject::{Case, Model};
use std::path::Path;

/// Writes so many tapes, one in four of them with a slip, and the answers to each.
pub fn write(count: u64, seed: u64, folder: &Path) -> std::io::Result<()> {
    let mut rng = Rng::new(seed);
    let (mut number, mut written) = (0, 0);
    while written < count {
        let mut player = Player::new(Rng::nth(seed, number));
        number += 1;
        let Ok(mut machine) = model::Machine::new(&player.configuration.body()) else { continue };
        let mut tape = play(&mut player, &mut machine, |_, _| {}).history.tape();
        if written % 4 == 3 {
            spoil(&mut rng, &mut tape);
        }
        let case = Case::new(tape);
        let name = folder.join(format!("{written:06}"));
        std::fs::write(name.with_extension("answers"), Model::outcome(&case).answers)?;
        std::fs::write(name.with_extension("tape"), case.tape)?;
        written += 1;
    }
    Ok(())
}
