//! Settings of a network.

use crate::bytes::numbers;
use crate::ffi;
use crate::refusal::accepted;
use crate::table::Network;

pub const SETTINGS_SIZE: usize = 16;

/// How many blocks an epoch has, how many epochs a round is voted in and waits for its activation, and the height at which version
/// 1 becomes 2.
#[derive(Debug, Clone, Copy, PartialEq, Eq, Hash)]
pub struct Settings {
    pub voting_length: u32,
    pub soft_fork_epochs: u32,
    pub activation_epochs: u32,
    pub version2_activation_height: u32,
}

impl Settings {
    pub fn of(network: Network) -> Settings {
        let mut out = [0; SETTINGS_SIZE];
        accepted(ffi::ergo_voting_config(network.number(), &mut out)).expect("room for settings");
        Settings::from_bytes(&out)
    }

    /// Whether a total of votes for the fork is approved.
    pub fn soft_fork_approved(&self, votes: i32) -> bool {
        ffi::ergo_soft_fork_approved(&self.to_bytes(), votes) != 0
    }

    /// Whether a count of votes for an ordinary parameter is approved.
    pub fn change_approved(&self, votes: u32) -> bool {
        ffi::ergo_change_approved(&self.to_bytes(), votes) != 0
    }

    /// In the bytes of docs/VECTORS.md.
    pub fn to_bytes(&self) -> [u8; SETTINGS_SIZE] {
        let numbers = [self.voting_length, self.soft_fork_epochs, self.activation_epochs, self.version2_activation_height];
        let mut bytes = [0; SETTINGS_SIZE];
        for (cells, number) in bytes.chunks_mut(4).zip(numbers) {
            cells.copy_from_slice(&number.to_be_bytes());
        }
        bytes
    }

    pub fn from_bytes(bytes: &[u8; SETTINGS_SIZE]) -> Settings {
        let [voting_length, soft_fork_epochs, activation_epochs, version2_activation_height] = numbers(bytes);
        Settings { voting_length, soft_fork_epochs, activation_epochs, version2_activation_height }
    }
}
