//! The whole listing on many states: the model's against the proved one's, and in the judge
//! against the original's too.

mod any;
mod archive;
mod decode;
mod drive;
mod flat;
mod look;
mod shares;
mod slips;
mod words;

pub use archive::{list_rounds, list_state, MOST, THERE};
pub use decode::{in_bytes, Listing};
pub use drive::{player, Choice};
pub use look::Listings;
