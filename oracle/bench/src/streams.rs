//! The streams that are timed: 2,000 epochs each, all accepted. Headers alone, which vote as theirs do.

use oracle::inputs::random::Random;
use oracle::record::HEADERS;
use oracle::rules::{self, Votes};
use oracle::streams::build::{Stream, QUIET};

pub const EPOCHS: usize = 2_000;
pub const FORK: u8 = 120;
const PARAMETERS: usize = 8;

/// A stream's records, one after another.
pub struct Timed {
    pub name: &'static str,
    pub records: Vec<Vec<u8>>,
}

/// In how many headers of a hundred there are votes: in none, in one of ten, in every one. Rounds and ordinary votes are in the
/// last two.
pub const VOTING: [(&str, usize); 3] = [("quiet", 0), ("mixed", 10), ("full", 100)];

pub fn all() -> [Timed; 3] {
    VOTING.map(|(name, voting)| {
        let (mut stream, mut random) = (Stream::mainnet(), Random(1));
        Timed { name, records: (0..EPOCHS).map(|_| record(&mut stream, &mut random, voting)).collect() }
    })
}

/// So many headers without records.
pub fn headers_alone(count: usize, voting: usize) -> Vec<Votes> {
    let mut random = Random(1);
    (0..count).map(|_| header(&mut random, voting)).collect()
}

/// A record that is accepted: with votes for the fork, or without them where a header may not vote so.
fn record(stream: &mut Stream, random: &mut Random, voting: usize) -> Vec<u8> {
    let votes: Vec<Votes> = (0..HEADERS).map(|_| header(random, voting)).collect();
    let mut record = stream.next(votes.clone()).bytes();
    if stream.offer(&record).is_err() {
        let without_fork = |header: Votes| header.map(|vote| if vote == FORK { 0 } else { vote });
        record = stream.next(votes.into_iter().map(without_fork).collect()).bytes();
        stream.accept(&record);
    }
    record
}

/// With votes in so many of a hundred: up or down for a parameter, up for another, and the fork; what is not legal so has one vote for
/// the fork alone.
fn header(random: &mut Random, voting: usize) -> Votes {
    if random.below(100) >= voting {
        return QUIET;
    }
    let [first, second] = [0; 2].map(|_| 1 + random.below(PARAMETERS) as u8);
    let signed = if random.one_in(2) { first } else { first.wrapping_neg() };
    let votes = [signed, second, FORK];
    rules::check_header(votes).map_or([FORK, 0, 0], |()| votes)
}
