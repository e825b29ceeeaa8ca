// The root of the chain crate, of which only this is needed by the three files.

pub mod config;
pub mod error;
pub mod voting;

pub use config::{ChainConfig, Network};
pub use error::{ChainError, RestoreError};
