//! The model held to document 01: known examples, refusals in order, the
//! smallest inputs on which the document and the Rust part, places and room,
//! demand 3.

mod bodies;
mod build;
mod demands;
mod leaves;
mod listing;
mod machine;
mod program;
mod replay;
