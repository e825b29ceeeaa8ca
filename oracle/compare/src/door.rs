//! The library, asked by a call's name through its C interface.

use ergo_voting::ffi;
use ergo_voting::Entry;
use oracle::bytes::Input;
use oracle::call::{Answer, Call};
use oracle::text;

const OUTPUT_SHORT: u8 = 21;

/// How many cells a refused call is lent beside none.
const MANY: usize = 100;

/// What cells hold before a call.
const FILL: u8 = 0xee;

/// What a function answers: a refusal's number or 0; that and an id; how many cells it wrote, or minus the number; or a flag.
#[derive(Debug, PartialEq, Eq)]
enum Reply {
    Number(u8),
    WithId(u16),
    Size(i64),
    Flag(u8),
}

use Reply::{Flag, Number, Size, WithId};

fn ask(call: &Call, out: &mut [u8]) -> Reply {
    let a = |i: usize| &call.arguments[i][..];
    let byte = |i| Input(a(i)).byte();
    let number = |i| Input(a(i)).u32();
    match call.name {
        "check_header_votes" => Number(ffi::ergo_check_header_votes(a(0))),
        "check_headers" => Number(ffi::ergo_check_headers(a(0))),
        "next_legal_votes" => Size(ffi::ergo_next_legal_votes(a(0), out)),
        "tally_votes_seeded" => Number(ffi::ergo_tally_votes_seeded(number(0), a(1), number(2), number(3), out)),
        "check_fork_vote" => Number(ffi::ergo_check_fork_vote(a(0), number(1), a(2), a(3))),
        "compute_boundary_parameters" => {
            let tally: Vec<Entry> = Input(a(0)).tally().into_iter().map(|(id, count)| Entry { id, count }).collect();
            Number(ffi::ergo_compute_boundary_parameters(&tally, a(1), a(2), out))
        }
        "check_parameters_v6" => WithId(ffi::ergo_check_parameters_v6(a(0), a(1))),
        "check_block_version" => Number(ffi::ergo_check_block_version(a(0), byte(1))),
        "default_parameters" => Number(ffi::ergo_default_parameters(byte(0), out)),
        "voting_config" => Number(ffi::ergo_voting_config(byte(0), out)),
        "soft_fork_approved" => Flag(ffi::ergo_soft_fork_approved(a(0), number(1) as i32)),
        "change_approved" => Flag(ffi::ergo_change_approved(a(0), number(1))),
        "parameter_min" => Number(ffi::ergo_parameter_min(byte(0) as i8, out)),
        "parameter_max" => Number(ffi::ergo_parameter_max(byte(0) as i8, out)),
        "parameter_step" => Number(ffi::ergo_parameter_step(byte(0) as i8, out)),
        "check_body" => Number(ffi::ergo_check_body(a(0))),
        "parse_extension_bytes" => Number(ffi::ergo_parse_extension_bytes(a(0), out)),
        "field_at" => Number(ffi::ergo_field_at(a(0), number(1) as usize, out)),
        "parse_parameters_from_kv" => Size(ffi::ergo_parse_parameters_from_kv(a(0), out)),
        "extract_disabling_rules_from_kv" => Size(ffi::ergo_extract_disabling_rules_from_kv(a(0), out)),
        "parse_validation_settings_update" => Number(ffi::ergo_parse_validation_settings_update(a(0), out)),
        "rule_at" => Number(ffi::ergo_rule_at(a(0), number(1) as usize, out)),
        "status_at" => Number(ffi::ergo_status_at(a(0), number(1) as usize, out)),
        "rule_may_not_be_disabled" => Flag(ffi::ergo_rule_may_not_be_disabled(number(0) as i32)),
        "pack_extension_bytes" => Size(ffi::ergo_pack_extension_bytes(a(0), a(1), out)),
        "pack_fields" => Size(ffi::ergo_pack_fields(a(0), &Input(a(1)).items(u32::from_be_bytes), a(2), out)),
        "table_parameters" => Size(ffi::ergo_table_parameters(a(0), out)),
        "pack_parameters_to_kv" => Size(ffi::ergo_pack_parameters_to_kv(a(0), out)),
        "encode_validation_settings_update" => {
            let [rules, ids, sizes] = [a(0), a(1), a(3)].map(Input);
            let (rules, ids) = (rules.items(u16::from_be_bytes), ids.items(i16::from_be_bytes));
            let sizes = sizes.items(u32::from_be_bytes);
            Size(ffi::ergo_encode_validation_settings_update(&rules, &ids, a(2), &sizes, a(4), out))
        }
        "encode_disabled_rules" => Size(ffi::ergo_encode_disabled_rules(&Input(a(0)).items(u16::from_be_bytes), out)),
        "open" => Number(ffi::ergo_open(number(0), a(1), out)),
        "replay" => WithId(ffi::ergo_replay(out, a(1))),
        "write_head" => Size(ffi::ergo_write_head(out)),
        "write_epoch" => Size(ffi::ergo_write_epoch(number(0), a(1), out)),
        "write_end" => Size(ffi::ergo_write_end(number(0), byte(1), out)),
        other => panic!("no call {other}"),
    }
}

/// What the library answers otherwise than is expected, or leaves otherwise in the cells that are lent to it. An accepted call is lent
/// as many cells as it writes, three more, and one less; a refused one none, and many. A replay has its state in its cells.
pub fn differs(call: &Call, expected: &Answer) -> Option<String> {
    let state: &[u8] = if call.name == "replay" { &call.arguments[0] } else { &[] };
    let size = expected.bytes.len();
    let lengths = match expected.number {
        _ if !state.is_empty() => [state.len(), state.len() + 3].to_vec(),
        0 if size == 0 => vec![0, 3],
        0 => vec![size, size + 3, size - 1],
        _ => vec![0, MANY],
    };
    lengths.into_iter().find_map(|length| {
        let mut cells = state.to_vec();
        cells.resize(length, FILL);
        differs_in(call, expected, cells)
    })
}

fn differs_in(call: &Call, expected: &Answer, before: Vec<u8>) -> Option<String> {
    let mut cells = before.clone();
    let reply = ask(call, &mut cells);
    let written: &[u8] = if matches!(reply, Flag(_)) || expected.number != 0 { &[] } else { &expected.bytes };
    let short = written.len() > before.len();
    let written = if short { &[] } else { written };
    let number = if short { OUTPUT_SHORT } else { expected.number };
    let id = if expected.number == 0 { 0 } else { expected.bytes.first().copied().unwrap_or(0) };
    let same = match reply {
        Number(given) => given == number,
        WithId(given) => given == u16::from_le_bytes([number, id]),
        Size(given) if number == 0 => given == written.len() as i64,
        Size(given) => given == -i64::from(number),
        Flag(given) => number == 0 && expected.bytes == [given],
    };
    let same = same && cells[..written.len()] == *written && cells[written.len()..] == before[written.len()..];
    (!same).then(|| format!("{reply:?}, and of {} cells it leaves {}", cells.len(), text::hex(&cells)))
}
