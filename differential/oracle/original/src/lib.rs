//! The original, unmodified, with `shown.rs` appended: see `build.rs`.

include!(concat!(env!("OUT_DIR"), "/entry.rs"));
