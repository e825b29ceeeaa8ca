use std::collections::BTreeMap;

/// The twelve entries, each with its id.
#[derive(Debug, Clone, Copy, PartialEq, Eq, PartialOrd, Ord, Hash)]
pub enum Parameter {
    StorageFeeFactor = 1,
    MinValuePerByte = 2,
    MaxBlockSize = 3,
    MaxBlockCost = 4,
    TokenAccessCost = 5,
    InputCost = 6,
    DataInputCost = 7,
    OutputCost = 8,
    SubblocksPerBlock = 9,
    SoftForkVotesCollected = 121,
    SoftForkStartingHeight = 122,
    BlockVersion = 123,
}

/// Each entry is absent or a signed number of 32 bits. Kept in the order of the ids, so that runs are equal.
#[derive(Debug, Clone, Default, PartialEq, Eq)]
pub struct Parameters {
    pub parameters_table: BTreeMap<Parameter, i32>,
}

impl Parameters {
    /// The version, and entries 1 to 8 in order.
    #[allow(clippy::too_many_arguments)]
    pub fn new(version: i32, p1: i32, p2: i32, p3: i32, p4: i32, p5: i32, p6: i32, p7: i32, p8: i32) -> Self {
        use Parameter::*;
        let first =
            [(BlockVersion, version), (StorageFeeFactor, p1), (MinValuePerByte, p2), (MaxBlockSize, p3), (MaxBlockCost, p4)];
        let rest = [(TokenAccessCost, p5), (InputCost, p6), (DataInputCost, p7), (OutputCost, p8)];
        Parameters { parameters_table: first.into_iter().chain(rest).collect() }
    }
}
