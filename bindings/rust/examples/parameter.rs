//! Replays the records of a file, or of standard input, from mainnet's first table at 1,024, and prints for each accepted epoch its
//! height and parameter 1 after its boundary. A refusal is told on standard error, and the exit status is then 1.
//!
//!     cargo run --offline --manifest-path bindings/rust/Cargo.toml --example parameter crates/replay/stdin

use std::error::Error;
use std::fs::File;
use std::io::{self, Read, Write};
use std::process::ExitCode;

use ergo_voting::{read_record, Network, RecordAt, Refusal, State, Table, LONGEST_RECORD, MAINNET_VOTES_SIZE};

const FIRST_HEIGHT: u32 = 1_024;
const STORAGE_FEE_FACTOR: u8 = 1;

fn main() -> ExitCode {
    let words: Vec<String> = std::env::args().skip(1).collect();
    let done = match &words[..] {
        [] => replay(&mut io::stdin().lock()),
        [path] => replay_file(path),
        _ => {
            eprintln!("parameter [FILE]");
            return ExitCode::from(2);
        }
    };
    match done {
        Ok(()) => ExitCode::SUCCESS,
        Err(error) => {
            eprintln!("{}", told(&*error));
            ExitCode::FAILURE
        }
    }
}

fn replay_file(path: &str) -> Result<(), Box<dyn Error>> {
    let mut file = File::open(path).map_err(|error| format!("{path}: {error}"))?;
    replay(&mut file)
}

fn told(error: &(dyn Error + 'static)) -> String {
    match error.downcast_ref() {
        Some(Refusal::EntryDiffers { id }) => format!("refused by 15, id {id}"),
        Some(refusal) => format!("refused by {}", refusal.number()),
        None => error.to_string(),
    }
}

fn replay(input: &mut dyn Read) -> Result<(), Box<dyn Error>> {
    let mut state = State::open(FIRST_HEIGHT, &Table::default_parameters(Network::Mainnet))?;
    let mut out = io::stdout().lock();
    while let Some(record) = next_record(input)? {
        let height = state.next_height();
        state.replay(&record)?;
        match state.table().get(STORAGE_FEE_FACTOR) {
            Some(fee) => writeln!(out, "{height} {fee}")?,
            None => writeln!(out, "{height} -")?,
        }
    }
    Ok(())
}

/// Reads one record, no byte more; none at the end of the input. An input that is cut is malformed.
fn next_record(input: &mut dyn Read) -> Result<Option<Vec<u8>>, Box<dyn Error>> {
    let mut bytes = Vec::with_capacity(LONGEST_RECORD);
    loop {
        match read_record(&bytes, MAINNET_VOTES_SIZE) {
            RecordAt::Whole(_) => return Ok(Some(bytes)),
            RecordAt::Malformed => return Err(Refusal::RecordMalformed.into()),
            RecordAt::Short(missing) => {
                let got = input.take(missing as u64).read_to_end(&mut bytes)?;
                if bytes.is_empty() {
                    return Ok(None);
                }
                if got < missing {
                    return Err(Refusal::RecordMalformed.into());
                }
            }
        }
    }
}
