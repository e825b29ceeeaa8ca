//! Stand-in for `ergo_chain_types`: a block id is 32 bytes. The rest is names only.

use std::str::FromStr;

#[derive(Debug, Clone, Copy, PartialEq, Eq)]
pub struct Digest32(pub [u8; 32]);

impl From<[u8; 32]> for Digest32 {
    fn from(bytes: [u8; 32]) -> Self {
        Digest32(bytes)
    }
}

#[derive(Debug, Clone, Copy, PartialEq, Eq)]
pub struct BlockId(pub Digest32);

/// Not run: no id is read from text.
impl FromStr for BlockId {
    type Err = ();

    fn from_str(_: &str) -> Result<Self, ()> {
        Err(())
    }
}

#[derive(Debug, Clone)]
pub struct Header;

#[derive(Debug, Clone)]
pub struct ADDigest;

pub mod autolykos_pow_scheme {
    #[derive(Debug)]
    pub struct AutolykosPowSchemeError;
}
