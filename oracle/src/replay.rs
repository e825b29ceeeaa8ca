//! The replay: the rules' order of tests over the Rust's functions, and what program `replay` prints.

use ergo_lib::chain::parameters::{Parameter, Parameters};

use crate::record::{read_record, Record, HEADERS};
use crate::refusal::{refuse, Refusal};
use crate::rules::{self, Question, Tally, Votes};
use crate::table;

const FORK_VOTE: u8 = 120;
const FIRST_HEIGHT: u32 = 1_024;
const LAST_HEIGHT: u32 = 2_147_482_624;
const LENGTH: u32 = HEADERS as u32;

/// The height that is expected, the table, and the tally of the epoch before.
#[derive(Debug, Clone)]
pub struct State {
    pub next: u32,
    pub table: Parameters,
    pub tally: Tally,
}

pub fn open(height: u32, table: Parameters) -> Result<State, Refusal> {
    if height == 0 || !height.is_multiple_of(LENGTH) || height > LAST_HEIGHT {
        return refuse(26);
    }
    Ok(State { next: height, table, tally: Tally::new() })
}

/// The opening of program `replay`.
pub fn open_mainnet() -> State {
    open(FIRST_HEIGHT, rules::mainnet_table()).expect("an opening at 1,024")
}

impl State {
    /// The state after a record that is nothing but these bytes.
    pub fn replay(&self, bytes: &[u8]) -> Result<State, Refusal> {
        match read_record(bytes)? {
            (record, []) => self.replay_record(&record),
            _ => refuse(25),
        }
    }

    /// The state after a record that was read.
    fn replay_record(&self, record: &Record) -> Result<State, Refusal> {
        if record.height != self.next || record.height > LAST_HEIGHT {
            return refuse(26);
        }
        let headers = record.headers();
        let allowed = |&(height, votes): &(u32, Votes), table| rules::fork_check(&rules::mainnet(), height, votes, table);
        headers.iter().try_for_each(|&(_, votes)| rules::check_header(votes))?;
        allowed(&headers[0], &self.table)?;
        let (found, update) = rules::body_parameters(record.body)?;
        let computed = self.boundary(headers[0].1, &update)?;
        rules::match_parameters(&computed, &found)?;
        headers[1..].iter().try_for_each(|header| allowed(header, &computed))?;
        let next = record.height + LENGTH;
        Ok(State { next, table: computed, tally: rules::tally(&headers, next, LENGTH)? })
    }

    /// The table at the boundary that is expected next.
    pub fn boundary(&self, votes: Votes, update: &[u8]) -> Result<Parameters, Refusal> {
        let (height, table, fork_vote) = (self.next, self.table.clone(), votes.contains(&FORK_VOTE));
        let question = Question { settings: rules::mainnet(), height, table, fork_vote };
        rules::boundary(&question, &self.tally, update).map(|(computed, _)| computed)
    }
}

/// The first line that program `replay` prints.
pub const HEAD_LINE: &str = "height version start votes\n";

/// What program `replay` prints for an input of records one after another.
pub fn replay_stream(bytes: &[u8]) -> String {
    let (mut printed, mut accepted) = (HEAD_LINE.to_owned(), 0);
    let (mut state, mut rest) = (open_mainnet(), bytes);
    while !rest.is_empty() {
        let step = read_record(rest).and_then(|(record, after)| Ok((record.height, state.replay_record(&record)?, after)));
        let height;
        (height, state, rest) = match step {
            Ok(step) => step,
            Err(refusal) => return printed + &end_line(accepted, refusal.number),
        };
        printed += &epoch_line(height, &state.table);
        accepted += 1;
    }
    printed + &end_line(accepted, 0)
}

/// The last line.
pub fn end_line(accepted: u32, refusal: u8) -> String {
    format!("end {accepted} {refusal}\n")
}

/// The line of an accepted epoch.
pub fn epoch_line(height: u32, table: &Parameters) -> String {
    let entries = [Parameter::BlockVersion, Parameter::SoftForkStartingHeight, Parameter::SoftForkVotesCollected];
    let columns = entries.map(|entry| table::get(table, entry).map_or("-".to_owned(), |value| value.to_string()));
    format!("{height} {}\n", columns.join(" "))
}
