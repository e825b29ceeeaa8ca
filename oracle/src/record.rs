//! The bytes of a record, as docs/RULES.md has them. Nothing of this is in the Rust.

use std::ops::RangeInclusive;

use crate::refusal::{refuse, Refusal};
use crate::rules::Votes;

/// Headers in an epoch of the replay.
pub const HEADERS: usize = 1_024;

const LONGEST_BODY: usize = 32_768;

#[derive(Debug, Clone, Copy)]
pub struct Record<'a> {
    pub height: u32,
    pub body: &'a [u8],
    votes: &'a [u8],
}

impl Record<'_> {
    /// The headers' heights and votes, the boundary header first.
    pub fn headers(&self) -> Vec<(u32, Votes)> {
        let triples = self.votes.chunks_exact(3).map(|v| [v[0], v[1], v[2]]);
        (self.height..).zip(triples).collect()
    }
}

/// The record at the front of the bytes, and what follows it.
pub fn read_record(bytes: &[u8]) -> Result<(Record<'_>, &[u8]), Refusal> {
    let (height, rest) = read_field(bytes, 1, 4..=4)?;
    let (body, rest) = read_field(rest, 2, 0..=LONGEST_BODY)?;
    let (votes, rest) = read_field(rest, 3, 3 * HEADERS..=3 * HEADERS)?;
    let height = u32::from_be_bytes(height.try_into().expect("four bytes"));
    Ok((Record { height, body, votes }, rest))
}

/// A field's value, and what follows it. 25 if the tag or the length is another one, or the field is cut.
fn read_field(bytes: &[u8], tag: u8, lengths: RangeInclusive<usize>) -> Result<(&[u8], &[u8]), Refusal> {
    let Some(([found, length @ ..], rest)) = bytes.split_first_chunk::<3>() else { return refuse(25) };
    let length = usize::from(u16::from_be_bytes(*length));
    match rest.split_at_checked(length) {
        Some(parts) if *found == tag && lengths.contains(&length) => Ok(parts),
        _ => refuse(25),
    }
}

/// The votes of the boundary header of a record that was read.
pub fn first_votes(record: &[u8]) -> Votes {
    read_record(record).expect("a record that was read").0.headers()[0].1
}

/// A field's bytes, whatever its tag and length.
pub fn write_field(tag: u8, value: &[u8]) -> Vec<u8> {
    let length = u16::try_from(value.len()).expect("a length of two bytes");
    [&[tag], &length.to_be_bytes()[..], value].concat()
}
