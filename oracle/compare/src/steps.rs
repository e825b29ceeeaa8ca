//! Long lists of records, and what docs/RULES.md, "Steps over the years", says of each boundary in them, tried on the Rust's own
//! tables. Each record is asked of both sides, too.

use std::collections::BTreeSet;

use oracle::inputs::random::Random;
use oracle::record::{read_record, HEADERS};
use oracle::replay::{open, State};
use oracle::rules::{fields, mainnet_table, Votes};
use oracle::streams::build::{Parts, Stream, UPDATE};
use oracle::table::{from_map, to_map, Map};
use oracle::text::hex;

use crate::report::Report;

/// How many lists, and how many records are handed over in each. Thirty years have some 7,700 epochs.
const LISTS: [(usize, usize); 2] = [(160, 500), (3, 9_000)];

/// More votes than these move a parameter.
const HALF: usize = 512;

/// The least value, the greatest and the step of the parameters 1 to 9 in order; the step 0 is computed.
const LIMITS: [(i32, i32, i32); 9] = {
    let (size, cost) = ((16_384, 0x3fffffff, 0), (0, 0x3fffffff, 0));
    [(0, 2_500_000, 25_000), (0, 10_000, 10), size, size, cost, cost, cost, cost, (2, 2_048, 1)]
};

/// What the lists must meet, so that the statement is not tried on quiet ones alone: a parameter goes up, down, beyond the greatest
/// value, beneath the least, is held at either; more than half vote without the boundary header, and just half do.
const MET: usize = 8;

pub fn run(report: &mut Report, random: &mut Random) {
    let mut met = BTreeSet::new();
    for (count, calls) in LISTS {
        (0..count).for_each(|_| list(random, calls, report, &mut met));
    }
    assert_eq!(met.len(), MET, "{met:?} was met");
}

fn list(random: &mut Random, calls: usize, report: &mut Report, met: &mut BTreeSet<usize>) {
    let height = 1_024 * (1 + random.below(1 << 20) as u32);
    let mut stream = Stream::from_state(open(height, from_map(&beginning(random))).expect("an opening"));
    let mut before: Vec<Votes> = Vec::new();
    for _ in 0..calls {
        let record = record(random, &stream.state);
        report.compare(&stream.asked(&record));
        let old = to_map(&stream.state.table);
        if stream.offer(&record).is_err() {
            continue;
        }
        let new = to_map(&stream.state.table);
        for (id, value) in (1..=9).filter_map(|id| old.get(&id).map(|&value| (id, value))) {
            let said = moved(id, value, &before, met);
            report.count(new.get(&id) == Some(&said), || {
                [
                    format!("parameter {id} of {value}, after an epoch of the votes {}", hex(before.as_flattened())),
                    format!("{:?}", new.get(&id)),
                    format!("not asked; the rules say {said}"),
                ]
            });
        }
        before = read_record(&record).expect("a record").0.headers().into_iter().map(|(_, votes)| votes).collect();
    }
}

/// What becomes of a parameter, by the epoch before.
fn moved(id: i8, value: i32, before: &[Votes], met: &mut BTreeSet<usize>) -> i32 {
    let (least, greatest, fixed) = LIMITS[id as usize - 1];
    let votes = [id as u8, id.wrapping_neg() as u8];
    let [up, down] = votes.map(|vote| counted(vote, before));
    let (below, above) = (value < greatest, value > least);
    let step = if fixed == 0 { (value / 100).max(1) } else { fixed };
    assert!(up == 0 || down == 0, "votes for {id} and against it are counted");
    let said = match (below && up > HALF, above && down > HALF) {
        (true, _) => value + step,
        (_, true) => value - step,
        _ => value,
    };
    let silent = votes.into_iter().any(|vote| counted(vote, before) == 0 && voting(vote, before) > HALF);
    let (over, under) = (below && said > greatest, above && said < least);
    let held = (!below && up > HALF, !above && down > HALF);
    let now: [bool; MET] = [said > value, said < value, over, under, held.0, held.1, silent, up == HALF || down == HALF];
    met.extend((0..MET).filter(|&i| now[i]));
    said
}

/// The headers that vote so, if the first one does.
fn counted(vote: u8, headers: &[Votes]) -> usize {
    headers.first().filter(|first| first.contains(&vote)).map_or(0, |_| voting(vote, headers))
}

fn voting(vote: u8, headers: &[Votes]) -> usize {
    headers.iter().filter(|votes| votes.contains(&vote)).count()
}

/// Mainnet's first table, with or without entry 9; in every second one the values stand near an end.
fn beginning(random: &mut Random) -> Map {
    let mut map = to_map(&mainnet_table());
    if random.one_in(2) {
        map.insert(9, 30);
    }
    if random.one_in(2) {
        for id in (1..=9).filter(|id| map.contains_key(id)).collect::<Vec<i8>>() {
            let (least, greatest, _) = LIMITS[id as usize - 1];
            let away = random.pick(&[0, 1, 3, 170, 30_000]).min(greatest - least);
            map.insert(id, if random.one_in(2) { least + away } else { greatest - away });
        }
    }
    map
}

/// A record of two votes near the edge, some of them without the boundary header's; its body carries the table that is computed. Some
/// are spoiled.
fn record(random: &mut Random, state: &State) -> Vec<u8> {
    let votes = epoch(random, &to_map(&state.table));
    let computed = state.boundary(votes[0], &[]).unwrap_or_else(|_| state.table.clone());
    let mut parts = Parts::new(state.next, fields(&computed), votes);
    match random.below(24) {
        0 => parts.height = parts.height.wrapping_add(1_024),
        1 => parts.fields[0].1 = random.bytes(4),
        2 => parts.votes[random.below(HEADERS)] = [1, 1, 2],
        3 => parts.fields.push((UPDATE, vec![0, 0])),
        _ => (),
    }
    parts.bytes()
}

/// Votes for two parameters of the table, each in as many headers as are drawn, and in the others now and then against it.
fn epoch(random: &mut Random, map: &Map) -> Vec<Votes> {
    let mut ids: Vec<i8> = map.keys().copied().filter(|&id| id <= 9).collect();
    ids.sort_unstable();
    let mut votes = vec![[0; 3]; HEADERS];
    for slot in 0..2 {
        let id = ids.remove(random.below(ids.len()));
        let vote = if random.one_in(2) { id } else { -id } as u8;
        let count = random.pick(&[0, 511, 512, 513, 514, 700, 1_023, 1_024]);
        let others = if random.one_in(2) { vote.wrapping_neg() } else { 0 };
        let silent = usize::from(random.one_in(5));
        for (i, header) in votes.iter_mut().enumerate().skip(silent) {
            header[slot] = if i < silent + count { vote } else { others };
        }
    }
    if random.one_in(12) {
        votes.iter_mut().take(random.pick(&[1, 513, 1_024])).for_each(|header| header[2] = 120);
    }
    votes
}
