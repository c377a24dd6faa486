//! The std-only half of the judge: histories, their bytes, and the comparison of answers.

pub mod book;
pub mod damage;
pub mod delays;
pub mod demand;
pub mod directed;
pub mod play;
pub mod plug;
pub mod race;
pub mod read;
pub mod report;
pub mod rng;
pub mod shrink;
pub mod stored;
pub mod subject;
pub mod tally;
pub mod tapes;
pub mod words;
pub mod write;
