//! Numbers and sections in bytes.

/// The items of one kind in a body or an update: how many, and where they begin and end.
#[derive(Debug, Clone, Copy, PartialEq, Eq)]
pub struct Section {
    pub count: u32,
    pub begin: usize,
    pub end: usize,
}

pub const SECTION_SIZE: usize = 12;

impl Section {
    pub(crate) fn from_bytes(bytes: &[u8]) -> Section {
        let [count, begin, end] = numbers(bytes);
        Section { count, begin: begin as usize, end: end as usize }
    }
}

/// Numbers of four bytes, one after another.
pub fn numbers<const N: usize>(bytes: &[u8]) -> [u32; N] {
    std::array::from_fn(|i| number(&bytes[4 * i..]))
}

/// The number that bytes begin with.
pub fn number(bytes: &[u8]) -> u32 {
    u32::from_be_bytes(part(bytes))
}

/// As many bytes as are asked for, of those that are there.
pub fn part<const N: usize>(bytes: &[u8]) -> [u8; N] {
    *bytes.first_chunk().expect("a part of a fixed size")
}
