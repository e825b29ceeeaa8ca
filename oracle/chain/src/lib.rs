//! chain/src of the Rust: config.rs, error.rs and voting.rs, unchanged.

include!(concat!(env!("OUT_DIR"), "/src/lib.rs"));
