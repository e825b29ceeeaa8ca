//! What program `replay` prints for an input of records: replayed record by record as a user would, against the oracle's replay.

use ergo_voting::{end_line, epoch_line, head_line, read_record, Network, RecordAt, Refusal, State, Table, MAINNET_VOTES_SIZE};
use oracle::inputs::random::Random;
use oracle::inputs::records::stream;
use oracle::replay::replay_stream;
use oracle::text::hex;

use crate::report::Report;

const TIMES: usize = 300;
const FIRST_HEIGHT: u32 = 1_024;

pub fn run(report: &mut Report, random: &mut Random) {
    for _ in 0..TIMES {
        let input = stream(random);
        let (rust, library) = (replay_stream(&input), printed(&input));
        report.count(rust == library, || [format!("what is printed for {}", hex(&input)), rust, library]);
    }
}

fn printed(mut input: &[u8]) -> String {
    let mut state = State::open(FIRST_HEIGHT, &Table::default_parameters(Network::Mainnet)).expect("an opening at 1,024");
    let (mut text, mut accepted) = (head_line(), 0);
    while !input.is_empty() {
        let replayed = match read_record(input, MAINNET_VOTES_SIZE) {
            RecordAt::Whole(record) => state.replay(record.bytes).map(|()| record),
            RecordAt::Short(_) | RecordAt::Malformed => Err(Refusal::RecordMalformed),
        };
        let Ok(record) = replayed else { return text + &end_line(accepted, replayed.err()) };
        text += &epoch_line(record.height, &state.table());
        accepted += 1;
        input = &input[record.bytes.len()..];
    }
    text + &end_line(accepted, None)
}
