//! Votes, settings, tables and rounds, and the calls on them.

use std::collections::BTreeMap;

use chain::voting::VotingConfig;
use ergo_lib::chain::parameters::{Parameter, Parameters};

use super::random::Random;
use crate::bytes::{settings_bytes, table_bytes};
use crate::call::Call;
use crate::rules::{self, Tally, Votes};
use crate::table;

const IDS: [u8; 12] = [1, 2, 3, 4, 5, 6, 7, 8, 9, 120, 120, 10];

/// A vote: most often for a known id, up or down.
pub fn vote(random: &mut Random) -> u8 {
    match random.below(8) {
        0 => random.byte(),
        1 => random.pick(&[0, 119, 120, 121, 122, 127, 128, 129, 136, 255]),
        2 | 3 => random.pick(&IDS).wrapping_neg(),
        _ => random.pick(&IDS),
    }
}

pub fn votes(random: &mut Random) -> Votes {
    [0; 3].map(|_| if random.one_in(2) { 0 } else { vote(random) })
}

pub fn headers(random: &mut Random) -> Vec<Call> {
    vec![Call::new("check_header_votes", [votes(random).into()])]
}

pub fn settings(random: &mut Random) -> VotingConfig {
    let [voting_length, soft_fork_epochs, activation_epochs] = match random.below(8) {
        0 | 1 => [1_024, 32, 32],
        2 => [128, 32, 32],
        3 => [0; 3].map(|_| random.below(5) as u32),
        4 => [0; 3].map(|_| random.pick(&[0, 1, 2, 65_534, 65_535])),
        5 => [0; 3].map(|_| random.number() % 65_536),
        6 => [0; 3].map(|_| random.below(100) as u32),
        _ => [0; 3].map(|_| random.number()),
    };
    VotingConfig { voting_length, soft_fork_epochs, activation_epochs, version2_activation_height: random.number() }
}

/// The greatest fork total that is not approved.
fn threshold(settings: &VotingConfig) -> u32 {
    (u128::from(settings.voting_length) * u128::from(settings.soft_fork_epochs) * 9 / 10) as u32
}

/// Each entry is absent now and then. Most versions are small.
pub fn any_table(random: &mut Random) -> Parameters {
    let absent = random.pick(&[2, 4, 50]);
    let mut parameters_table: BTreeMap<Parameter, i32> = table::ENTRIES.map(|entry| (entry, random.number() as i32)).into();
    if !random.one_in(4) {
        parameters_table.insert(Parameter::BlockVersion, random.below(6) as i32 - 1);
    }
    parameters_table.retain(|_, _| !random.one_in(absent));
    Parameters { parameters_table }
}

/// A table with a round near a height's edges: what is put into 121 and 122, and the height.
pub fn near_round(random: &mut Random, settings: &VotingConfig, tally: &[(i8, u32)]) -> (Parameters, u32) {
    let mut table = if random.one_in(4) { rules::mainnet_table() } else { any_table(random) };
    let (length, voted, activation) = (settings.voting_length, settings.soft_fork_epochs, settings.activation_epochs);
    let start = random.pick(&[0, length, length.wrapping_mul(3), 1_024, 2_147_482_624]);
    let start = if random.one_in(5) { random.number() } else { start };
    let epochs = [0, 1, voted, voted.wrapping_add(1), voted.wrapping_add(activation)];
    let epochs = random.pick(&epochs).wrapping_add(random.below(2) as u32);
    let height = start.wrapping_add(length.wrapping_mul(epochs));
    let height = if random.one_in(4) { random.near(height) } else { height };
    let counted = tally.iter().find(|(id, _)| *id == 120).map_or(0, |(_, count)| *count);
    let total = random.near(threshold(settings)).wrapping_sub(if random.one_in(3) { 0 } else { counted });
    let round = [(Parameter::SoftForkStartingHeight, start as i32), (Parameter::SoftForkVotesCollected, total as i32)];
    table.parameters_table.extend(round.into_iter().filter(|_| !random.one_in(8)));
    (table, height)
}

/// Entries of a list of up to eight: ids repeated, negated, several 120, now and then 0 or -128; counts near half the length.
pub fn entries(random: &mut Random, length: u32) -> Tally {
    let mut tally = Tally::new();
    for _ in 0..random.below(9) {
        let id = match (random.below(8), tally.len()) {
            (0, 1..) => tally[random.below(tally.len())].0,
            (1, 1..) => tally[random.below(tally.len())].0.wrapping_neg(),
            (2, _) => 120,
            (3, _) => random.pick(&[0, 0, -128, -128, -120, 9, -9, 127]),
            _ => vote(random) as i8,
        };
        let count = match random.below(8) {
            0 | 1 => random.number(),
            2 => random.pick(&[0, 1, u32::MAX - 1, u32::MAX]),
            _ => random.near(length / 2),
        };
        tally.push((id, count));
    }
    tally
}

/// Up to three of them, none with id 0.
pub fn tally(random: &mut Random, length: u32) -> Tally {
    entries(random, length).into_iter().filter(|entry| entry.0 != 0).take(3).collect()
}

pub fn tallies(random: &mut Random) -> Vec<Call> {
    let (length, boundary) = (random.number(), random.number());
    let first = if random.one_in(6) { random.number() } else { boundary.wrapping_sub(length) };
    let seed = votes(random);
    let count = random.pick(&[0, 1, 2, 3, 8, 40, 300]);
    let window = (0..count).flat_map(|i| if i == 0 || random.one_in(3) { seed } else { votes(random) }).collect();
    let [first, boundary, length] = [first, boundary, length].map(|number| number.to_be_bytes().into());
    vec![Call::new("tally_votes_seeded", [first, window, boundary, length])]
}

pub fn fork_checks(random: &mut Random) -> Vec<Call> {
    let settings = settings(random);
    let (table, height) = near_round(random, &settings, &[]);
    let mut votes = votes(random);
    votes[random.below(3)] = random.pick(&[votes[0], 120, 120, 120]);
    let arguments = [settings_bytes(&settings), height.to_be_bytes().into(), votes.into(), table_bytes(&table)];
    vec![Call::new("check_fork_vote", arguments)]
}

pub fn approvals(random: &mut Random) -> Vec<Call> {
    let settings = settings(random);
    let edges = [("soft_fork_approved", threshold(&settings)), ("change_approved", settings.voting_length / 2)];
    let (name, edge) = random.pick(&edges);
    let votes = if random.one_in(3) { random.number() } else { random.near(edge) };
    vec![Call::new(name, [settings_bytes(&settings), votes.to_be_bytes().into()])]
}

pub fn block_versions(random: &mut Random) -> Vec<Call> {
    let table = any_table(random);
    let version = table::get(&table, Parameter::BlockVersion).unwrap_or(0) as u8;
    let version = if random.one_in(2) { random.byte() } else { version };
    vec![Call::new("check_block_version", [table_bytes(&table), vec![version]])]
}
