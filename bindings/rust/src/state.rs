//! The replay of epochs.

use crate::bytes::{number, part};
use crate::ffi;
use crate::refusal::{accepted, accepted_with_id, Refusal};
use crate::settings::Settings;
use crate::table::Table;
use crate::tally::Tally;

pub const STATE_SIZE: usize = 95;

const TABLE_AT: usize = 16;
const NEXT_HEIGHT_AT: usize = 76;
const TALLY_AT: usize = 80;

/// The state of a replay: settings, table, the height that is expected next, and the tally of the epoch before.
#[derive(Debug, Clone, Copy, PartialEq, Eq, Hash)]
pub struct State([u8; STATE_SIZE]);

impl State {
    /// Opens a replay on mainnet's settings, at a height and with a table: 26.
    pub fn open(height: u32, table: &Table) -> Result<State, Refusal> {
        let mut state = [0; STATE_SIZE];
        accepted(ffi::ergo_open(height, &table.to_bytes(), &mut state))?;
        Ok(State(state))
    }

    /// Replays a record, by the tests of docs/RULES.md, "Replay". Refused, the state is as it was.
    pub fn replay(&mut self, record: &[u8]) -> Result<(), Refusal> {
        accepted_with_id(ffi::ergo_replay(&mut self.0, record))
    }

    pub fn settings(&self) -> Settings {
        Settings::from_bytes(&part(&self.0))
    }

    /// The table after the last boundary.
    pub fn table(&self) -> Table {
        Table::from_bytes(&part(&self.0[TABLE_AT..]))
    }

    /// The height that is expected.
    pub fn next_height(&self) -> u32 {
        number(&self.0[NEXT_HEIGHT_AT..])
    }

    /// The tally of the last epoch.
    pub fn tally(&self) -> Tally {
        Tally::from_bytes(&part(&self.0[TALLY_AT..]))
    }

    /// In the bytes of docs/VECTORS.md.
    pub fn to_bytes(&self) -> [u8; STATE_SIZE] {
        self.0
    }

    /// Any bytes are a state.
    pub fn from_bytes(bytes: &[u8; STATE_SIZE]) -> State {
        let mut state = State(*bytes);
        let table = state.table().to_bytes();
        state.0[TABLE_AT..NEXT_HEIGHT_AT].copy_from_slice(&table);
        state
    }
}
