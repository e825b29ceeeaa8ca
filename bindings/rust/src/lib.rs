//! The proved voting code of Ergo, called from Rust. docs/RULES.md of the repository has the rules and the refusals.
//!
//! Values go in and come out as Rust types; what is refused comes out as a [`Refusal`]. A replay:
//!
//! ```
//! use ergo_voting::{Network, State, Table};
//!
//! let mut state = State::open(1_024, &Table::default_parameters(Network::Mainnet))?;
//! # let record: &[u8] = include_bytes!("../../../crates/replay/stdin");
//! state.replay(record)?;
//! assert_eq!(state.next_height(), 2_048);
//! assert_eq!(state.table().get(1), Some(1_250_000));
//! # Ok::<(), ergo_voting::Refusal>(())
//! ```
//!
//! [`ffi`] has the library's functions as they are, over bytes that the caller lends.

pub mod ffi;

mod body;
mod boundary;
mod bytes;
mod entry;
mod limits;
mod records;
mod refusal;
mod settings;
mod state;
mod table;
mod tally;
mod update;
mod votes;
mod window;
mod writers;

pub use body::{
    check_body, extract_disabling_rules_from_kv, field_at, parse_extension_bytes, parse_parameters_from_kv, Extension, Field,
    FieldPlace, Parameters,
};
pub use boundary::{check_block_version, check_parameters_v6, compute_boundary_parameters, Computed};
pub use bytes::Section;
pub use entry::Entry;
pub use limits::{parameter_max, parameter_min, parameter_step};
pub use records::{
    end_line, epoch_line, head_line, read_record, write_end, write_epoch, write_head, Record, RecordAt, LONGEST_LINE,
    LONGEST_RECORD, MAINNET_VOTES_SIZE,
};
pub use refusal::Refusal;
pub use settings::{Settings, SETTINGS_SIZE};
pub use state::{State, STATE_SIZE};
pub use table::{Network, Table, TABLE_SIZE};
pub use tally::{tally_votes_seeded, Tally, TALLY_SIZE};
pub use update::{
    parse_validation_settings_update, rule_at, rule_may_not_be_disabled, status_at, RulePlace, Status, StatusPlace, Update,
};
pub use votes::{check_fork_vote, check_header_votes, check_headers, legal_votes, next_legal_votes};
pub use window::{Window, WINDOW_LENGTH_MOST};
pub use writers::{
    encode_disabled_rules, encode_disabled_rules_into, encode_validation_settings_update, encode_validation_settings_update_into,
    pack_extension_bytes, pack_extension_bytes_into, pack_fields, pack_fields_into, pack_parameters_to_kv,
    pack_parameters_to_kv_into,
};
