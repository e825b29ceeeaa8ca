//! The stand-in's table and its ids.

use std::collections::HashMap;

use ergo_lib::chain::parameters::{Parameter, Parameters};

/// A map of parameters as the Rust reads it from a body.
pub type Map = HashMap<i8, i32>;

/// In the order of the ids.
pub const ENTRIES: [Parameter; 12] = [
    Parameter::StorageFeeFactor,
    Parameter::MinValuePerByte,
    Parameter::MaxBlockSize,
    Parameter::MaxBlockCost,
    Parameter::TokenAccessCost,
    Parameter::InputCost,
    Parameter::DataInputCost,
    Parameter::OutputCost,
    Parameter::SubblocksPerBlock,
    Parameter::SoftForkVotesCollected,
    Parameter::SoftForkStartingHeight,
    Parameter::BlockVersion,
];

pub fn get(table: &Parameters, entry: Parameter) -> Option<i32> {
    table.parameters_table.get(&entry).copied()
}

/// The entries that are present, by id.
pub fn to_map(table: &Parameters) -> Map {
    table.parameters_table.iter().map(|(&entry, &value)| (entry as i8, value)).collect()
}

/// The table with the map's entries. Other ids are dropped.
pub fn from_map(map: &Map) -> Parameters {
    let present = |entry: Parameter| map.get(&(entry as i8)).map(|&value| (entry, value));
    Parameters { parameters_table: ENTRIES.into_iter().filter_map(present).collect() }
}

/// The ids of entries that are missing or different in the second table, the least first.
pub fn differing(computed: &Parameters, found: &Parameters) -> Vec<i8> {
    let differs = |entry: &Parameter| get(found, *entry) != get(computed, *entry);
    computed.parameters_table.keys().copied().filter(differs).map(|entry| entry as i8).collect()
}
