//! The rounds as docs/RULES.md tells them from the calls alone, against the replay over the Rust.

use ergo_lib::chain::parameters::{Parameter, Parameters};
use oracle::inputs::random::Random;
use oracle::replay::State;
use oracle::rules::{fork_check, mainnet, Votes};
use oracle::streams::build::{headers, Stream, FORK, QUIET};
use oracle::table::get;

const LENGTH: u32 = 1_024;
const VERSION_2_HEIGHT: u32 = 417_792;

struct Book {
    version: i32,
    round: Option<(u32, i32)>,
    before: Vec<Votes>,
}

impl Book {
    fn accepted(&mut self, height: u32, votes: &[Votes]) {
        let votes_fork = |votes: &Votes| votes.contains(&120);
        if let Some((start, count)) = self.round {
            let k = (height - start) / LENGTH;
            let seeded = self.before.first().is_some_and(votes_fork);
            let voted = self.before.iter().filter(|votes| votes_fork(votes)).count() as i32;
            let count = if k <= 32 && seeded { count + voted } else { count };
            self.round = Some((start, count));
            let approved = count > 29_491;
            if k == 64 && approved {
                self.version += 1;
            }
            if (k == 33 && !approved) || k == 65 {
                self.round = None;
            }
        }
        if height == VERSION_2_HEIGHT && self.version == 1 {
            self.version = 2;
        }
        if self.round.is_none() && votes_fork(&votes[0]) {
            self.round = Some((height, 0));
        }
        self.before = votes.to_vec();
    }

    fn agrees(&self, state: &State) -> bool {
        let (start, count) = self.round.map(|(start, count)| (start as i32, count)).unzip();
        let entries = [Parameter::BlockVersion, Parameter::SoftForkStartingHeight, Parameter::SoftForkVotesCollected];
        entries.map(|entry| get(&state.table, entry)) == [Some(self.version), start, count]
    }
}

/// An epoch in which the boundary header votes for the fork in so many of 100 cases, and almost all others or some do.
fn epoch(random: &mut Random, eager: usize) -> Vec<Votes> {
    let count = if random.below(100) < eager { 1_000 + random.below(24) } else { random.below(1_024) };
    let mut votes: Vec<Votes> = (0..count).map(|_| random.pick(&[[120, 0, 0], [0, 120, 0], [0, 0, 120]])).collect();
    votes.insert(0, if random.below(100) < eager { FORK } else { QUIET });
    votes.resize(LENGTH as usize, QUIET);
    votes
}

/// Whether a fork vote is allowed at each height of the next epoch by the old table just where it is by the new one, with and
/// without a fork vote of the boundary header.
fn tables_agree(state: &State) -> bool {
    let allowed = |table: &Parameters, height| fork_check(&mainnet(), height, FORK, table).is_ok();
    [QUIET, FORK].into_iter().all(|boundary_header| {
        let new = state.boundary(boundary_header, &[]).expect("a table");
        (state.next..state.next + LENGTH).all(|height| allowed(&state.table, height) == allowed(&new, height))
    })
}

/// Some 450 epochs, with refused records between them. Answers how often the version rose, and how many were refused.
fn run(seed: u64, eager: usize) -> (i32, u32) {
    let (mut random, mut s, mut refused) = (Random(seed), Stream::mainnet(), 0);
    let mut book = Book { version: 1, round: None, before: Vec::new() };
    for _ in 0..450 {
        let height = s.state.next;
        assert!(tables_agree(&s.state), "seed {seed}, height {height}");
        let mut votes = epoch(&mut random, eager);
        if let Err(refusal) = s.offer(&s.next(votes.clone()).bytes()) {
            assert_eq!(refusal.number, 12);
            refused += 1;
            votes = headers(&[]);
            s.accept(&s.quiet().bytes());
        }
        book.accepted(height, &votes);
        assert!(book.agrees(&s.state), "seed {seed}, height {height}");
    }
    assert!(s.state.next > VERSION_2_HEIGHT);
    (book.version, refused)
}

#[test]
fn book_and_replay_agree() {
    let found: Vec<(i32, u32)> =
        [(1, 100), (2, 99), (3, 96), (4, 90), (5, 50), (6, 5)].into_iter().map(|(seed, eager)| run(seed, eager)).collect();
    // Rounds that were approved, rounds that failed, and records that were refused all occur.
    assert!(found.iter().any(|&(version, _)| version > 3), "{found:?}");
    assert!(found.iter().any(|&(version, _)| version == 2), "{found:?}");
    assert!(found.iter().all(|&(_, refused)| refused > 0), "{found:?}");
}
