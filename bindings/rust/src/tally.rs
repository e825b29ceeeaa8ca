//! Tallies of votes.

use crate::bytes::number;
use crate::entry::Entry;
use crate::ffi;
use crate::refusal::{accepted, Refusal};

pub const TALLY_SIZE: usize = 15;

const ENTRY_SIZE: usize = 5;

/// A place for each vote of the header that seeded the tally; one with id 0 holds no entry.
#[derive(Debug, Clone, Copy, Default, PartialEq, Eq, Hash)]
pub struct Tally(pub [Entry; 3]);

impl Tally {
    /// The entries, in order.
    pub fn entries(&self) -> Vec<Entry> {
        self.0.into_iter().filter(|entry| entry.id != 0).collect()
    }

    /// In the bytes of docs/VECTORS.md.
    pub fn to_bytes(&self) -> [u8; TALLY_SIZE] {
        let mut bytes = [0; TALLY_SIZE];
        for (cells, entry) in bytes.chunks_mut(ENTRY_SIZE).zip(self.0) {
            cells[0] = entry.id as u8;
            cells[1..].copy_from_slice(&entry.count.to_be_bytes());
        }
        bytes
    }

    pub fn from_bytes(bytes: &[u8; TALLY_SIZE]) -> Tally {
        Tally(std::array::from_fn(|i| {
            let place = &bytes[ENTRY_SIZE * i..];
            Entry { id: place[0] as i8, count: number(&place[1..]) }
        }))
    }
}

/// The tally of an epoch's headers, three vote bytes each: 22.
pub fn tally_votes_seeded(first_height: u32, votes: &[u8], boundary_height: u32, voting_length: u32) -> Result<Tally, Refusal> {
    let mut out = [0; TALLY_SIZE];
    accepted(ffi::ergo_tally_votes_seeded(first_height, votes, boundary_height, voting_length, &mut out))?;
    Ok(Tally::from_bytes(&out))
}
