//! The original behind document 01's bytes, for the judge and the benchmark.

pub mod adapter;
pub mod decode;
