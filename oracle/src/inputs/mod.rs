//! Inputs of calls, at random from a seed.

pub mod bodies;
pub mod boundaries;
pub mod random;
pub mod records;
pub mod updates;
pub mod voting;
pub mod writers;

use crate::call::Call;
use random::Random;

pub type Make = fn(&mut Random) -> Vec<Call>;

/// A kind of inputs, how many times it is made when the two sides are compared, and what makes some of it.
pub const KINDS: [(&str, usize, Make); 16] = [
    ("tallies", 100_000, voting::tallies),
    ("boundaries", 1_001_000, boundaries::plain),
    ("boundaries with an update", 300_000, boundaries::with_update),
    ("boundary over a lent list", 1_001_000, boundaries::over_list),
    ("fork checks", 1_001_000, voting::fork_checks),
    ("approvals", 300_000, voting::approvals),
    ("block versions", 300_000, voting::block_versions),
    ("bodies", 200_000, bodies::make),
    ("matches", 200_000, bodies::matches),
    ("updates", 500_000, updates::make),
    ("writers", 201_000, writers::make),
    ("fields as lists, parameters of tables", 200_000, writers::lists),
    ("header lists", 50_000, records::headers),
    ("openings", 100_000, records::openings),
    ("replays, state by state", 3_010, records::replays),
    ("lines", 200_000, records::lines),
];
