//! Support at every height: how many of the last headers vote for each id.

use crate::ffi;
use crate::refusal::{numbered, Refusal};

/// The most headers that a window spans.
pub const WINDOW_LENGTH_MOST: u32 = 4_096;

/// The cells of the supports, one for each byte. Behind them stand three for each header that a window spans.
const WINDOW_SUPPORTS: usize = 256;

/// A window over the last headers, and the support of each id: how many of them vote for it.
#[derive(Debug, Clone, PartialEq, Eq, Hash)]
pub struct Window {
    number: u64,
    cells: Vec<u16>,
}

impl Window {
    /// A window that spans so many headers, 1 to [`WINDOW_LENGTH_MOST`], and holds none: 33.
    pub fn new(length: u32) -> Result<Window, Refusal> {
        let places = length.min(WINDOW_LENGTH_MOST) as usize;
        let mut cells = vec![0; WINDOW_SUPPORTS + 3 * places];
        let number = numbered(ffi::ergo_window_new(length, &mut cells))?;
        Ok(Window { number, cells })
    }

    /// Puts the votes of a header: 9, 10, 11. The oldest header leaves where the window held as many as it spans. Refused, the
    /// window is as it was.
    pub fn put(&mut self, votes: [u8; 3]) -> Result<(), Refusal> {
        self.number = numbered(ffi::ergo_window_put(self.number, &mut self.cells, &votes))?;
        Ok(())
    }

    /// How many headers it spans.
    pub fn length(&self) -> u32 {
        u32::from((self.number >> 32) as u16)
    }

    /// How many headers it holds: those that support is counted over.
    pub fn held(&self) -> u32 {
        u32::from((self.number >> 16) as u16)
    }

    /// How many of them vote for an id.
    pub fn support(&self, id: i8) -> u16 {
        self.supports()[usize::from(id as u8)]
    }

    /// The support of each byte; that of 0 is 0.
    pub fn supports(&self) -> &[u16; WINDOW_SUPPORTS] {
        self.cells.first_chunk().expect("the supports")
    }
}
