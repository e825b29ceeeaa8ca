//! The Rust node's voting code, run: its answers by the numbers of docs/RULES.md, and a replay over it.

pub mod answers;
pub mod bytes;
pub mod call;
pub mod inputs;
pub mod listing;
mod places;
pub mod record;
pub mod refusal;
pub mod replay;
pub mod rows;
pub mod rules;
pub mod streams;
pub mod table;
pub mod text;
