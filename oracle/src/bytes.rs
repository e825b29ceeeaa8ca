//! Numbers, tables, tallies and settings in the bytes of docs/VECTORS.md.

use chain::voting::VotingConfig;
use ergo_lib::chain::parameters::{Parameter, Parameters};

use crate::rules::{Question, Tally, Votes};
use crate::table::{self, Map};

/// What is left of an argument. A byte past its end counts as 0.
pub struct Input<'a>(pub &'a [u8]);

impl Input<'_> {
    pub fn array<const N: usize>(&mut self) -> [u8; N] {
        let (taken, rest) = self.0.split_at(N.min(self.0.len()));
        self.0 = rest;
        std::array::from_fn(|i| taken.get(i).copied().unwrap_or(0))
    }

    pub fn byte(&mut self) -> u8 {
        self.array::<1>()[0]
    }

    pub fn u32(&mut self) -> u32 {
        u32::from_be_bytes(self.array())
    }

    pub fn table(&mut self) -> Parameters {
        let values = table::ENTRIES.map(|entry| (entry, self.byte() != 0, self.u32() as i32));
        let present = |(entry, present, value): (Parameter, bool, i32)| present.then_some((entry, value));
        Parameters { parameters_table: values.into_iter().filter_map(present).collect() }
    }

    pub fn settings(&mut self) -> VotingConfig {
        let [voting_length, soft_fork_epochs, activation_epochs, version2_activation_height] = [(); 4].map(|()| self.u32());
        VotingConfig { voting_length, soft_fork_epochs, activation_epochs, version2_activation_height }
    }

    pub fn question(&mut self) -> Question {
        Question { settings: self.settings(), height: self.u32(), table: self.table(), fork_vote: self.byte() != 0 }
    }

    /// All that is left, as items of a size. What is no whole item is none.
    pub fn items<const N: usize, T>(self, item: impl Fn([u8; N]) -> T) -> Vec<T> {
        self.0.as_chunks().0.iter().map(|bytes| item(*bytes)).collect()
    }

    pub fn votes(self) -> Vec<Votes> {
        self.items(|votes| votes)
    }

    pub fn tally(self) -> Tally {
        self.items(|[id, count @ ..]: [u8; 5]| (id as i8, u32::from_be_bytes(count)))
    }

    pub fn map(self) -> Map {
        self.items(|[id, value @ ..]: [u8; 5]| (id as i8, i32::from_be_bytes(value))).into_iter().collect()
    }
}

pub fn numbers(numbers: &[usize]) -> Vec<u8> {
    let bytes = |&number| u32::try_from(number).expect("a number of four bytes").to_be_bytes();
    numbers.iter().flat_map(bytes).collect()
}

/// A byte and a number: a present value, an entry of a tally or of a map.
fn entry_bytes(byte: u8, number: u32) -> Vec<u8> {
    [&[byte], &number.to_be_bytes()[..]].concat()
}

pub fn value_bytes(value: Option<i32>) -> Vec<u8> {
    entry_bytes(value.is_some().into(), value.unwrap_or(0) as u32)
}

pub fn table_bytes(table: &Parameters) -> Vec<u8> {
    table::ENTRIES.iter().flat_map(|&entry| value_bytes(table::get(table, entry))).collect()
}

pub fn settings_bytes(s: &VotingConfig) -> Vec<u8> {
    let numbers = [s.voting_length, s.soft_fork_epochs, s.activation_epochs, s.version2_activation_height];
    numbers.into_iter().flat_map(u32::to_be_bytes).collect()
}

pub fn question_bytes(q: &Question) -> Vec<u8> {
    [settings_bytes(&q.settings), q.height.to_be_bytes().into(), table_bytes(&q.table), vec![q.fork_vote.into()]].concat()
}

pub fn tally_bytes(tally: &[(i8, u32)]) -> Vec<u8> {
    tally.iter().flat_map(|&(id, count)| entry_bytes(id as u8, count)).collect()
}

/// For a tally that was not seeded by a header: its entries stand in the first places.
pub const IN_ORDER: Votes = [1; 3];

/// A tally in three places: an entry stands in the place of the vote that seeded it.
pub fn places_bytes(tally: &[(i8, u32)], seed: Votes) -> Vec<u8> {
    let mut entries = tally.iter().copied();
    let places = seed.map(|vote| if vote == 0 { None } else { entries.next() }.unwrap_or((0, 0)));
    assert!(entries.next().is_none(), "a header has three votes");
    tally_bytes(&places)
}

/// In rising order of the id's byte.
pub fn map_bytes(map: &Map) -> Vec<u8> {
    let mut entries: Vec<(u8, i32)> = map.iter().map(|(&id, &value)| (id as u8, value)).collect();
    entries.sort_unstable();
    entries.into_iter().flat_map(|(id, value)| entry_bytes(id, value as u32)).collect()
}
