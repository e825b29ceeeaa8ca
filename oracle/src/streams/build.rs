//! Records and streams made of them. Bodies carry the table that the oracle computes.

use chain::voting::ExtensionField;

use crate::answers::state_bytes;
use crate::bytes::IN_ORDER;
use crate::call::Call;
use crate::record::{first_votes, write_field, HEADERS};
use crate::refusal::Refusal;
use crate::replay::{open_mainnet, State};
use crate::rules::{fields, pack_body, Votes};

pub const QUIET: Votes = [0, 0, 0];
pub const FORK: Votes = [120, 0, 0];

/// The key of the proposed update.
pub const UPDATE: [u8; 2] = [0, 124];

/// Groups of equal headers.
pub type Groups<'a> = &'a [(usize, Votes)];

/// The votes of an epoch: groups in order, and quiet headers up to 1,024.
pub fn headers(groups: Groups) -> Vec<Votes> {
    let mut votes: Vec<Votes> = groups.iter().flat_map(|&(count, votes)| vec![votes; count]).collect();
    assert!(votes.len() <= HEADERS);
    votes.resize(HEADERS, QUIET);
    votes
}

/// The parts of a record before they become bytes. The body is that of the fields where there is no other.
#[derive(Clone)]
pub struct Parts {
    pub height: u32,
    pub fields: Vec<ExtensionField>,
    pub votes: Vec<Votes>,
    pub other_body: Option<Vec<u8>>,
}

impl Parts {
    pub fn new(height: u32, fields: Vec<ExtensionField>, votes: Vec<Votes>) -> Parts {
        Parts { height, fields, votes, other_body: None }
    }

    pub fn with(mut self, change: impl FnOnce(&mut Parts)) -> Parts {
        change(&mut self);
        self
    }

    pub fn with_height(self, height: u32) -> Parts {
        Parts { height, ..self }
    }

    pub fn with_header(self, index: usize, votes: Votes) -> Parts {
        self.with(|p| p.votes[index] = votes)
    }

    pub fn with_field(self, key: [u8; 2], value: &[u8]) -> Parts {
        self.with(|p| p.fields.push((key, value.to_vec())))
    }

    pub fn with_update(self, update: &[u8]) -> Parts {
        self.with_field(UPDATE, update)
    }

    /// With the value of a parameter replaced.
    pub fn with_value(self, id: u8, value: &[u8]) -> Parts {
        self.with(|p| p.fields.iter_mut().filter(|(key, _)| *key == [0, id]).for_each(|field| field.1 = value.to_vec()))
    }

    pub fn without(self, id: u8) -> Parts {
        self.with(|p| p.fields.retain(|(key, _)| *key != [0, id]))
    }

    pub fn with_body(self, body: &[u8]) -> Parts {
        Parts { other_body: Some(body.to_vec()), ..self }
    }

    /// With other bytes for the number of fields, and with bytes after the last field.
    pub fn with_count(self, count: &[u8], after: &[u8]) -> Parts {
        let body = self.body();
        self.with_body(&[&body[..32], count, &body[33..], after].concat())
    }

    /// As many fields as there are and so many more, and bytes after the last one.
    pub fn with_more(self, more: usize, after: &[u8]) -> Parts {
        let count = (self.fields.len() + more) as u8;
        self.with_count(&[count], after)
    }

    /// The id is the height, eight times over.
    pub fn body(&self) -> Vec<u8> {
        let id = self.height.to_be_bytes().repeat(8).try_into().expect("32 bytes");
        let packed = || pack_body(id, &self.fields).expect("a body that can be written");
        self.other_body.clone().unwrap_or_else(packed)
    }

    /// The three fields of the record.
    pub fn record_fields(&self) -> [Vec<u8>; 3] {
        let height = write_field(1, &self.height.to_be_bytes());
        [height, write_field(2, &self.body()), write_field(3, self.votes.as_flattened())]
    }

    pub fn bytes(&self) -> Vec<u8> {
        self.record_fields().concat()
    }
}

/// The bytes so far, the state after the accepted records in them, and the votes that seeded its tally.
#[derive(Clone)]
pub struct Stream {
    pub bytes: Vec<u8>,
    pub accepted: usize,
    pub state: State,
    seed: Votes,
}

impl Stream {
    pub fn from_state(state: State) -> Stream {
        Stream { bytes: Vec::new(), accepted: 0, state, seed: IN_ORDER }
    }

    pub fn mainnet() -> Stream {
        Stream::from_state(open_mainnet())
    }

    /// The replay of a record on the state.
    pub fn asked(&self, record: &[u8]) -> Call {
        Call::new("replay", [state_bytes(&self.state, self.seed), record.to_vec()])
    }

    /// A record that is accepted next with these votes, if one is.
    pub fn next(&self, votes: Vec<Votes>) -> Parts {
        let computed = self.state.boundary(votes[0], &[]).expect("a boundary that is not refused");
        Parts::new(self.state.next, fields(&computed), votes)
    }

    /// The next record, with quiet headers.
    pub fn quiet(&self) -> Parts {
        self.next(headers(&[]))
    }

    /// Adds epochs that are accepted.
    pub fn then(mut self, epochs: &[Groups]) -> Stream {
        epochs.iter().for_each(|groups| self.accept(&self.next(headers(groups)).bytes()));
        self
    }

    /// Adds a record that is accepted.
    pub fn accept(&mut self, record: &[u8]) {
        self.offer(record).expect("a record that is accepted");
    }

    /// Adds a record if it is accepted.
    pub fn offer(&mut self, record: &[u8]) -> Result<(), Refusal> {
        self.state = self.state.replay(record)?;
        self.seed = first_votes(record);
        self.accepted += 1;
        self.bytes.extend(record);
        Ok(())
    }
}
