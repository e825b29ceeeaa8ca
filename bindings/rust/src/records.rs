//! Records one after another in a stream, and the lines that are printed of them.

use crate::bytes::numbers;
use crate::ffi;
use crate::refusal::{sized, Refusal};
use crate::table::Table;

/// The most bytes of a record of mainnet.
pub const LONGEST_RECORD: usize = 35_853;

/// How many bytes the votes of a record of mainnet have.
pub const MAINNET_VOTES_SIZE: usize = 3 * 1_024;

/// No line is longer.
pub const LONGEST_LINE: usize = 47;

const RECORD_SIZE: usize = 20;

/// A record and its parts.
#[derive(Debug, Clone, Copy, PartialEq, Eq)]
pub struct Record<'a> {
    pub height: u32,
    pub body: &'a [u8],
    pub votes: &'a [u8],
    /// All of it: the next record stands after these bytes.
    pub bytes: &'a [u8],
}

/// What bytes begin with.
#[derive(Debug, Clone, Copy, PartialEq, Eq)]
pub enum RecordAt<'a> {
    Whole(Record<'a>),
    /// At least so many bytes are missing.
    Short(usize),
    Malformed,
}

/// The record that bytes begin with, its votes having so many bytes.
pub fn read_record(bytes: &[u8], votes_size: usize) -> RecordAt<'_> {
    let mut out = [0; RECORD_SIZE];
    match sized(ffi::ergo_read_record(bytes, votes_size, &mut out)) {
        Ok(0) => RecordAt::Whole(record(bytes, &out)),
        Ok(missing) => RecordAt::Short(missing),
        Err(_) => RecordAt::Malformed,
    }
}

fn record<'a>(bytes: &'a [u8], place: &[u8; RECORD_SIZE]) -> Record<'a> {
    let [height, positions @ ..] = numbers::<5>(place);
    let [body, body_end, votes, end] = positions.map(|position| position as usize);
    Record { height, body: &bytes[body..body_end], votes: &bytes[votes..end], bytes: &bytes[..end] }
}

/// Writes the first line, and answers how many bytes it has: 21.
pub fn write_head(out: &mut [u8]) -> Result<usize, Refusal> {
    sized(ffi::ergo_write_head(out))
}

/// Writes the line of an accepted epoch, with its height and the table after its boundary: 21.
pub fn write_epoch(height: u32, table: &Table, out: &mut [u8]) -> Result<usize, Refusal> {
    sized(ffi::ergo_write_epoch(height, &table.to_bytes(), out))
}

/// Writes the last line, with the number of epochs that were accepted, and the refusal's number or 0: 21.
pub fn write_end(accepted: u32, refusal: u8, out: &mut [u8]) -> Result<usize, Refusal> {
    sized(ffi::ergo_write_end(accepted, refusal, out))
}

/// The first line.
pub fn head_line() -> String {
    line(write_head)
}

/// The line of an accepted epoch.
pub fn epoch_line(height: u32, table: &Table) -> String {
    line(|out| write_epoch(height, table, out))
}

/// The last line.
pub fn end_line(accepted: u32, refusal: Option<Refusal>) -> String {
    line(|out| write_end(accepted, refusal.map_or(0, Refusal::number), out))
}

fn line(write: impl Fn(&mut [u8]) -> Result<usize, Refusal>) -> String {
    let mut out = [0; LONGEST_LINE];
    let size = write(&mut out).expect("room for a line");
    String::from_utf8(out[..size].to_vec()).expect("digits, letters, blanks and a newline")
}
