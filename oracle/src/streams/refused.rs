//! Records that are refused: the last ones of streams, and those of rows alone. oracle/README.md says which numbers no stream meets.

use super::accepted::{voted_enough, voted_too_few};
use super::build::{Parts, Stream, FORK};
use super::case::Case;
use crate::call::Call;
use crate::record::write_field;
use crate::replay::{open, State};
use crate::rules::{fields, mainnet_table, Votes};

/// A record, the stream that it is refused after, and a record behind it that would be accepted in its place, where there is one: it
/// must not be read.
pub struct Refused {
    name: &'static str,
    pub number: u8,
    before: Stream,
    record: Vec<u8>,
    behind: Vec<u8>,
}

impl Refused {
    pub fn case(&self) -> Case {
        let bytes = [&self.before.bytes, &self.record, &self.behind].map(|part| &part[..]).concat();
        Case { name: self.name, accepted: self.before.accepted, refusal: self.number, bytes }
    }

    /// The replay of the record alone.
    pub fn call(&self) -> Call {
        self.before.asked(&self.record)
    }
}

/// One stream for each number, and more for 15, 25 and 26.
pub fn streams() -> Vec<Refused> {
    let streams = [
        refused("r01_31_bytes", 1, |p| p.with_body(&[0; 31])),
        refused("r02_no_count", 2, |p| p.with_body(&[0; 32])),
        refused("r03_two_bytes_of_field", 3, |p| p.with_more(1, &[0, 1])),
        refused("r04_value_of_65_bytes", 4, |p| p.with_more(1, &[[1, 1, 65].as_slice(), &[0; 65]].concat())),
        refused("r05_value_cut", 5, |p| p.with_more(1, &[[1, 1, 64].as_slice(), &[0; 63]].concat())),
        refused("r06_5_bytes", 6, |p| p.with_value(4, &[0; 5])),
        refused("r07_raw_bytes_cut", 7, |p| p.with_update(&[0, 1, 0, 2, 9, 1])),
        refused("r08_rule_214", 8, |p| p.with_update(&[1, 0xd6, 1, 0])),
        refused("r09_last_header", 9, |p| p.with_header(1023, [5, 5, 251])),
        refused("r10_fork_vote_twice", 10, |p| p.with_header(1, [120, 120, 1])),
        refused("r11_fork_vote", 11, |p| p.with_header(512, [136, 120, 0])),
        refused_after(voted_too_few(), "r12_last_header", 12, barred_last),
        voted("r13_id_10", 13, [10, 0, 0], &[]),
        voted("r14_id_9", 14, [9, 0, 0], &[]),
        refused("r15_entry_differs", 15, |p| p.with_value(8, &[0, 0, 0, 101])),
        refused("r15_several_differ", 15, |p| p.with_value(8, &[0, 0, 0, 101]).without(123).with_value(3, &[0; 4])),
        refused("r26_height_again", 26, |p| p.with_height(2_048)),
        refused_after(Stream::mainnet(), "r26_first_record", 26, |p| p.with_height(2_048)),
    ];
    streams.into_iter().chain(malformed()).chain(cut()).collect()
}

/// For rows alone: records that would be refused by another number, too, and others. 12 of the boundary header, by the old table, comes
/// before the body; that of another header, by the new one, after 15.
pub fn orders() -> Vec<Refused> {
    let at_the_end = Stream::from_state(open(2_147_482_624, mainnet_table()).expect("an opening")).then(&[&[]]);
    let activation = voted_enough([0, 0]).then(&[&[][..]; 32]);
    vec![
        Refused { record: begun().quiet().with_height(7).bytes()[..3_000].to_vec(), ..refused("r25_before_26", 25, |p| p) },
        refused("r26_before_09", 26, |p| p.with_header(0, [1, 2, 3]).with_height(0)),
        refused("r11_before_later_09", 11, |p| p.with_header(5, [2, 254, 0]).with_header(6, [1, 2, 3])),
        refused("r10_before_01", 10, |p| p.with_header(1023, [7, 0, 7]).with_body(&[])),
        refused_after(voted_too_few(), "r12_boundary_header_before_01", 12, |p| p.with_header(0, FORK).with_body(&[0; 31])),
        refused_after(voted_too_few(), "r15_before_12", 15, |p| barred_last(p).with_value(2, &[0, 0, 0, 1])),
        refused_after(activation, "r12_last_header_of_activation", 12, barred_last),
        refused("r04_before_05", 4, |p| p.with_more(1, &[1, 1, 255])),
        refused("r05_before_06", 5, |p| p.with_value(4, &[]).with_more(1, &[0, 5, 4, 0])),
        refused("r06_before_07", 6, |p| p.with_value(4, &[]).with_update(&[1])),
        refused("r07_before_08", 7, |p| p.with_update(&[2, 0xd6, 1])),
        refused("r08_before_07", 8, |p| p.with_update(&[2, 0xd7, 1, 100])),
        refused("r07_before_15", 7, |p| p.without(8).with_update(&[0x80])),
        voted("r07_before_13", 7, [10, 0, 0], &[0]),
        voted("r13_before_14", 13, [246, 9, 0], &[]),
        voted("r14_before_13", 14, [9, 0, 10], &[]),
        refused("r01_no_bytes", 1, |p| p.with_body(&[])),
        refused("r02_count_of_33_bits", 2, |p| p.with_count(&[0x80, 0x80, 0x80, 0x80, 0x10], &[])),
        refused("r03_no_byte_of_field", 3, |p| p.with_more(1, &[])),
        refused("r08_first_field", 8, |p| p.with_update(&[1, 100, 0]).with_update(&[0, 0])),
        refused("r09_boundary_header", 9, |p| p.with_header(0, [1, 2, 3])),
        refused("r11_own_negation", 11, |p| p.with_header(1023, [0, 0, 128])),
        refused("r15_old_table", 15, |p| Parts { fields: fields(&begun().state.table), ..p }),
        refused("r15_later_differs", 15, |p| p.with_field([0, 3], &[0, 8, 0, 0])),
        refused_after(at_the_end, "r26_after_the_last_height", 26, |p| p),
        refused("r26_height_and_2_to_31", 26, |p| p.with_height(3_072 + (1 << 31))),
    ]
}

/// Two accepted epochs: a round opens at 1,024, parameters 1 and 3 move at 2,048, and some headers of 2,048 vote for the fork.
fn begun() -> Stream {
    Stream::mainnet().then(&[&[(1024, [3, 255, 120])], &[(700, FORK)]])
}

/// A changed record after a stream, and a quiet one behind it.
fn refused_after(before: Stream, name: &'static str, number: u8, change: impl Fn(Parts) -> Parts) -> Refused {
    let quiet = before.quiet();
    Refused { name, number, before, behind: quiet.bytes(), record: change(quiet).bytes() }
}

/// The same after two accepted epochs.
fn refused(name: &'static str, number: u8, change: impl Fn(Parts) -> Parts) -> Refused {
    refused_after(begun(), name, number, change)
}

/// Approved votes at 3,072 for ids that the table does not have. No record is accepted there; the bodies carry the table
/// without such votes.
fn voted(name: &'static str, number: u8, votes: Votes, update: &[u8]) -> Refused {
    let before = Stream::mainnet().then(&[&[(1024, [3, 255, 120])], &[(513, votes)]]);
    let next = Stream::from_state(State { tally: Vec::new(), ..before.state.clone() }).quiet();
    Refused { name, number, before, behind: next.bytes(), record: next.with_update(update).bytes() }
}

fn barred_last(parts: Parts) -> Parts {
    parts.with_header(1023, [0, 120, 0])
}

/// A record with one of its three fields replaced.
fn replaced(name: &'static str, index: usize, field: impl Fn(&Parts) -> Vec<u8>) -> Refused {
    let before = begun();
    let quiet = before.quiet();
    let mut fields = quiet.record_fields();
    fields[index] = field(&quiet);
    Refused { name, number: 25, before, record: fields.concat(), behind: quiet.bytes() }
}

/// Each tag and each length of a record, and a byte behind an accepted one, which begins the next.
fn malformed() -> [Refused; 7] {
    let long = |p: &Parts| [p.body(), vec![0; 32_769 - p.body().len()]].concat();
    [
        replaced("r25_tag_of_height", 0, |p| write_field(0, &p.height.to_be_bytes())),
        replaced("r25_tag_of_body", 1, |p| write_field(4, &p.body())),
        replaced("r25_tag_of_votes", 2, |p| write_field(2, p.votes.as_flattened())),
        replaced("r25_height_of_5_bytes", 0, |_| write_field(1, &[0, 0, 0, 12, 0])),
        replaced("r25_body_of_32769_bytes", 1, |p| write_field(2, &long(p))),
        replaced("r25_votes_of_1023_headers", 2, |p| write_field(3, p.votes[1..].as_flattened())),
        Refused { record: vec![0], ..refused("r25_byte_after", 25, |p| p) },
    ]
}

/// Input that stops inside a record. Nothing stands behind.
fn cut() -> [Refused; 7] {
    let record = begun().quiet().bytes();
    let body_end = 10 + begun().quiet().body().len();
    let places = [
        ("r25_cut_in_length", 2),
        ("r25_cut_in_height", 5),
        ("r25_cut_behind_height", 7),
        ("r25_cut_in_body", 50),
        ("r25_cut_behind_body", body_end),
        ("r25_cut_in_votes", body_end + 100),
        ("r25_cut_one_byte", record.len() - 1),
    ];
    places.map(|(name, end)| Refused { record: record[..end].to_vec(), behind: Vec::new(), ..refused(name, 25, |p| p) })
}
