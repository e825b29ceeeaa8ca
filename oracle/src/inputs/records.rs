//! Records on states, streams of them, openings and lines.

use super::bodies;
use super::random::Random;
use super::updates;
use super::voting::{any_table, near_round, tally, vote, votes};
use crate::bytes::table_bytes;
use crate::call::Call;
use crate::record::HEADERS;
use crate::replay::State;
use crate::rules::{self, fields, Votes};
use crate::streams::accepted::{voted_enough, voted_too_few};
use crate::streams::build::{headers as epoch_votes, Parts, Stream, FORK, QUIET};

/// Legal votes: none, one that is for the fork or not, or two and the fork.
fn legal(random: &mut Random) -> Votes {
    let id = random.pick(&[1u8, 2, 3, 4, 5, 6, 7, 8, 9]);
    let other = if id == 9 { 1 } else { id + 1 };
    match random.below(6) {
        0 => QUIET,
        1 => FORK,
        2 => [id, 0, 120],
        3 => [id.wrapping_neg(), other, 0],
        4 => [id, other.wrapping_neg(), 120],
        _ => [0, 0, id],
    }
}

/// The votes of an epoch: so many headers vote alike, near an edge; the others do not vote, or vote otherwise.
fn epoch(random: &mut Random) -> Vec<Votes> {
    let count = random.pick(&[1, 2, 511, 512, 513, 819, 820, 1_023, 1_024]);
    let rest = if random.one_in(2) { HEADERS - count } else { 0 };
    let mut epoch = epoch_votes(&[(count, legal(random)), (rest, legal(random))]);
    if random.one_in(12) {
        epoch[random.below(HEADERS)] = votes(random);
    }
    epoch
}

/// A record on a state whose body carries the table that is computed, if one is. Now and then one thing of it is another.
fn record(random: &mut Random, state: &State) -> Vec<u8> {
    let votes = epoch(random);
    let update = if random.one_in(3) { updates::update(random) } else { Vec::new() };
    let computed = state.boundary(votes[0], &update).unwrap_or_else(|_| state.table.clone());
    let mut parts = Parts::new(state.next, fields(&computed), votes);
    if !update.is_empty() && update.len() <= 64 {
        parts = parts.with_update(&update);
    }
    if random.one_in(8) {
        spoil(random, &mut parts);
    }
    if random.one_in(12) {
        let body = if random.one_in(2) { bodies::body(random) } else { parts.body() };
        parts = parts.with_body(&if random.one_in(4) { body } else { random.damage(body) });
    }
    parts.bytes()
}

fn spoil(random: &mut Random, parts: &mut Parts) {
    let at = random.below(parts.fields.len().max(1));
    match random.below(5) {
        0 => parts.height = random.pick(&[0, parts.height.wrapping_add(1_024), parts.height.wrapping_sub(1_024)]),
        1 if at < parts.fields.len() => drop(parts.fields.remove(at)),
        2 if at < parts.fields.len() => parts.fields[at].1 = random.bytes(4),
        3 => parts.fields.push(([0, random.byte()], random.bytes(4))),
        _ => parts.fields.rotate_left(at),
    }
}

/// A state in or out of a round, at a height of an epoch. Most have mainnet's ordinary entries, so that fewer votes are refused.
fn state(random: &mut Random) -> State {
    let mainnet = rules::mainnet();
    let tally = tally(random, mainnet.voting_length);
    let (mut table, height) = near_round(random, &mainnet, &tally);
    if !random.one_in(4) {
        table.parameters_table.retain(|entry, _| *entry as i8 > 9);
        let ordinary = rules::mainnet_table().parameters_table.into_iter().filter(|(entry, _)| *entry as i8 <= 9);
        table.parameters_table.extend(ordinary);
    }
    let next = if random.one_in(8) { random.number() } else { height / 1_024 * 1_024 };
    let next = if random.one_in(8) { mainnet.version2_activation_height } else { next };
    State { next: next.min(1 << 31), table, tally }
}

/// Some epochs one after another, each record whole and damaged.
pub fn replays(random: &mut Random) -> Vec<Call> {
    let mut stream = if random.one_in(3) { Stream::mainnet() } else { Stream::from_state(state(random)) };
    let mut calls = Vec::new();
    for _ in 0..8 {
        let record = record(random, &stream.state);
        calls.push(stream.asked(&record));
        if random.one_in(3) {
            calls.push(stream.asked(&random.damage(record.clone())));
        }
        stream.offer(&record).ok();
    }
    calls
}

/// An input of records from mainnet's beginning, with now and then a last one that is damaged, cut or followed by more bytes. Some
/// begin with the 32 epochs of a round that has just enough votes, or one too few.
pub fn stream(random: &mut Random) -> Vec<u8> {
    let begun: [fn() -> Stream; 4] = [|| voted_enough([0, 0]), voted_too_few, Stream::mainnet, Stream::mainnet];
    let mut stream = random.pick(&begun)();
    for _ in 0..random.pick(&[0, 1, 2, 5, 40, 75]) {
        let record = record(random, &stream.state);
        if stream.offer(&record).is_err() && random.one_in(10) {
            stream.bytes.extend(record);
            break;
        }
    }
    let mut bytes = stream.bytes;
    if random.one_in(2) {
        let end = bytes.split_off(bytes.len().saturating_sub(3_300));
        bytes.extend(random.damage(end));
    }
    bytes
}

pub fn headers(random: &mut Random) -> Vec<Call> {
    let mut votes: Vec<u8> = (0..random.pick(&[0, 1, 2, 5, 30])).flat_map(|_| legal(random)).collect();
    if random.one_in(2) && !votes.is_empty() {
        let at = random.below(votes.len());
        votes[at] = vote(random);
    }
    vec![Call::new("check_headers", [votes])]
}

pub fn openings(random: &mut Random) -> Vec<Call> {
    let height = if random.one_in(2) { random.number() } else { random.number() / 1_024 * 1_024 };
    vec![Call::new("open", [height.to_be_bytes().into(), table_bytes(&any_table(random))])]
}

pub fn lines(random: &mut Random) -> Vec<Call> {
    let number = random.number().to_be_bytes().into();
    vec![match random.below(4) {
        0 => Call::new("write_head", []),
        1 => Call::new("write_end", [number, vec![random.byte()]]),
        _ => Call::new("write_epoch", [number, table_bytes(&any_table(random))]),
    }]
}
