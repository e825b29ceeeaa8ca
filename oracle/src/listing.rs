//! Every header that the Rust's check accepts, as numbers of 24 bits with the first byte highest.

use std::io::{self, Write};

use crate::rules::{check_header, Votes};

/// Every header, in rising order of its number.
pub fn all() -> impl DoubleEndedIterator<Item = Votes> {
    (0..1u32 << 24).map(|number| *number.to_be_bytes().last_chunk().expect("three bytes"))
}

/// Writes the numbers of those that are accepted, a number a line.
pub fn write(out: &mut impl Write) -> io::Result<()> {
    let number = |[a, b, c]: Votes| u32::from_be_bytes([0, a, b, c]);
    all().filter(|&votes| check_header(votes).is_ok()).try_for_each(|votes| writeln!(out, "{}", number(votes)))?;
    out.flush()
}
