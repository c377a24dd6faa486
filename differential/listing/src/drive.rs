//! The histories that are driven, and the states of them that are looked at.

use compare::play::{Player, Shape};
use compare::rng::Rng;
use model::flat::{Flat, RULES};

/// What histories aim at here: each aim, and the by-name modes more often, since few answers
/// come there.
const AIMS: [Shape; 16] = [
    Shape::Attempts,
    Shape::Records,
    Shape::Refreshes,
    Shape::Retries,
    Shape::Winners,
    Shape::Address,
    Shape::Address,
    Shape::Wild,
    Shape::Wild,
    Shape::Wild,
    Shape::ByName,
    Shape::ByName,
    Shape::ByName,
    Shape::ByName,
    Shape::ByName,
    Shape::ByName,
];

/// The player of history `number`.
pub fn player(seed: u64, number: u64) -> Player {
    let aim = AIMS[(number % AIMS.len() as u64) as usize];
    Player::of(Rng::nth(seed, number), aim)
}

/// Which states of a history are compared.
#[derive(Default)]
pub struct Choice {
    last: Option<Flat>,
}

impl Choice {
    /// Not the last one again; else every state in the by-name modes, and a part of the others.
    pub fn takes(&mut self, rng: &mut Rng, machine: &model::Machine) -> bool {
        let flat = model::flat(machine, 0);
        let share = if flat.numbers[RULES + 6] == 0 { 40 } else { 100 };
        if self.last.as_ref() == Some(&flat) || !rng.chance(share) {
            return false;
        }
        self.last = Some(flat);
        true
    }
}
