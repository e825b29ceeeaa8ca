//! validation/src of the Rust: lib.rs and voting.rs, unchanged. Their other modules are stand-ins.

// The stand-in of `tracing` drops what it is handed.
#![allow(unused_variables)]

include!(concat!(env!("OUT_DIR"), "/src/lib.rs"));

/// What lib.rs does not export.
pub mod checks {
    pub use crate::voting::{check_block_version, check_parameters_v6, extract_proposed_update};
}
