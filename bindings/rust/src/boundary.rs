//! The boundary, and what is checked against the table that it computes.

use crate::body::{parameters_bytes, Parameters};
use crate::bytes::part;
use crate::entry::Entry;
use crate::ffi;
use crate::refusal::{accepted, accepted_with_id, Refusal};
use crate::settings::Settings;
use crate::table::{Table, TABLE_SIZE};
use crate::update::{Update, UPDATE_SIZE};

const COMPUTED_SIZE: usize = TABLE_SIZE + UPDATE_SIZE;

/// The table after a boundary, and the update that it activates: empty unless the round raised the version.
#[derive(Debug, Clone, Copy, PartialEq, Eq)]
pub struct Computed<'a> {
    pub table: Table,
    pub activated: Update<'a>,
}

/// The boundary at a height, from the tally of the epoch before, the bytes of the proposed update, the old table, and whether the
/// boundary header votes for the fork: 22, 7, 8, 17, 18, and then 19, 20, 13, 14 as they are met. [`crate::Tally::entries`] gives
/// the entries of a tally; a list may have any length. If no two entries have ids that are equal or negations of each other, their
/// order decides nothing but which of 13 and 14 is met.
pub fn compute_boundary_parameters<'a>(
    tally: &[Entry],
    proposed_update: &'a [u8],
    settings: &Settings,
    height: u32,
    table: &Table,
    votes_fork: bool,
) -> Result<Computed<'a>, Refusal> {
    let question = [&settings.to_bytes()[..], &height.to_be_bytes(), &table.to_bytes(), &[votes_fork.into()]].concat();
    let mut out = [0; COMPUTED_SIZE];
    accepted(ffi::ergo_compute_boundary_parameters(tally, proposed_update, &question, &mut out))?;
    let activated = Update::from_bytes(&out[TABLE_SIZE..], proposed_update);
    Ok(Computed { table: Table::from_bytes(&part(&out)), activated })
}

/// Whether a computed table stands, equal, among a body's parameters: 15.
pub fn check_parameters_v6(table: &Table, parameters: &Parameters) -> Result<(), Refusal> {
    accepted_with_id(ffi::ergo_check_parameters_v6(&table.to_bytes(), &parameters_bytes(parameters)))
}

/// Whether a block has the table's version: 20, 16.
pub fn check_block_version(table: &Table, version: u8) -> Result<(), Refusal> {
    accepted(ffi::ergo_check_block_version(&table.to_bytes(), version))
}
