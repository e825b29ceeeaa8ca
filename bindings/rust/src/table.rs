//! Tables of parameters.

use crate::body::{parameters_of, Parameters};
use crate::bytes::{number, part};
use crate::ffi;
use crate::refusal::{accepted, sized};

pub const TABLE_SIZE: usize = 60;

/// The ids of the entries, in the order of their bytes.
const IDS: [u8; 12] = [1, 2, 3, 4, 5, 6, 7, 8, 9, 121, 122, 123];

pub const VALUE_SIZE: usize = 5;

#[derive(Debug, Clone, Copy, PartialEq, Eq, Hash)]
pub enum Network {
    Mainnet,
    Testnet,
}

impl Network {
    pub(crate) fn number(self) -> u8 {
        match self {
            Network::Mainnet => 0,
            Network::Testnet => 1,
        }
    }
}

/// The ordinary parameters 1 to 9, and 121 (votes collected), 122 (starting height of a round), 123 (block version); each is a
/// number or absent. The default has none.
#[derive(Debug, Clone, Copy, Default, PartialEq, Eq, Hash)]
pub struct Table([Option<i32>; 12]);

impl Table {
    /// The table that a network begins with.
    pub fn default_parameters(network: Network) -> Table {
        let mut out = [0; TABLE_SIZE];
        accepted(ffi::ergo_default_parameters(network.number(), &mut out)).expect("room for a table");
        Table::from_bytes(&out)
    }

    /// The parameters that the table asks a body to carry.
    pub fn parameters(&self) -> Parameters {
        let mut out = [0; TABLE_SIZE];
        let size = sized(ffi::ergo_table_parameters(&self.to_bytes(), &mut out)).expect("room for all parameters");
        parameters_of(&out[..size])
    }

    /// The entry of an id: none where it is absent, or the table has no such id.
    pub fn get(&self, id: u8) -> Option<i32> {
        self.0[place(id)?]
    }

    /// The table with an entry set or removed: none where it has no such id.
    pub fn with(mut self, id: u8, value: Option<i32>) -> Option<Table> {
        self.0[place(id)?] = value;
        Some(self)
    }

    /// In the bytes of docs/VECTORS.md.
    pub fn to_bytes(&self) -> [u8; TABLE_SIZE] {
        let mut bytes = [0; TABLE_SIZE];
        for (cells, value) in bytes.chunks_mut(VALUE_SIZE).zip(self.0) {
            cells.copy_from_slice(&value_bytes(value));
        }
        bytes
    }

    /// In a value any first byte but 0 is a number.
    pub fn from_bytes(bytes: &[u8; TABLE_SIZE]) -> Table {
        Table(std::array::from_fn(|i| value_of(&part(&bytes[VALUE_SIZE * i..]))))
    }
}

fn place(id: u8) -> Option<usize> {
    IDS.iter().position(|entry| *entry == id)
}

pub fn value_of(bytes: &[u8; VALUE_SIZE]) -> Option<i32> {
    (bytes[0] != 0).then(|| number(&bytes[1..]) as i32)
}

fn value_bytes(value: Option<i32>) -> [u8; VALUE_SIZE] {
    let [a, b, c, d] = value.unwrap_or(0).to_be_bytes();
    [value.is_some().into(), a, b, c, d]
}
