//! Votes of headers.

use std::iter;

use crate::ffi;
use crate::refusal::{accepted, sized, Refusal};
use crate::settings::Settings;
use crate::table::Table;

/// Whether the votes of a header are legal: 9, 10, 11.
pub fn check_header_votes(votes: [u8; 3]) -> Result<(), Refusal> {
    accepted(ffi::ergo_check_header_votes(&votes))
}

/// The same of headers one after another, three bytes each: the first refusal. One or two bytes left over are no header.
pub fn check_headers(votes: &[u8]) -> Result<(), Refusal> {
    accepted(ffi::ergo_check_headers(votes))
}

/// The first legal header above votes, legal or not, as numbers of 24 bits with the first byte highest. `None` where there is
/// none.
pub fn next_legal_votes(votes: [u8; 3]) -> Option<[u8; 3]> {
    let mut out = [0; 3];
    let size = sized(ffi::ergo_next_legal_votes(&votes, &mut out)).expect("room for three votes");
    (size > 0).then_some(out)
}

/// Every legal header, in rising order from `[0, 0, 0]` on.
pub fn legal_votes() -> impl Iterator<Item = [u8; 3]> {
    iter::successors(Some([0; 3]), |votes| next_legal_votes(*votes))
}

/// Whether a header may vote for the fork at a height, by the table that rules its epoch: 18, 19, 12.
pub fn check_fork_vote(settings: &Settings, height: u32, votes: [u8; 3], table: &Table) -> Result<(), Refusal> {
    accepted(ffi::ergo_check_fork_vote(&settings.to_bytes(), height, &votes, &table.to_bytes()))
}
