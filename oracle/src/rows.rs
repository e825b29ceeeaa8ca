//! Recorded answers of the Rust, in the form of docs/VECTORS.md: written, and asked again.

use std::collections::BTreeMap;
use std::fs;
use std::io;
use std::path::Path;

use crate::answers::answer;
use crate::bytes::numbers;
use crate::call::{Answer, Call, Gap};
use crate::inputs::random::Random;
use crate::inputs::{bodies, boundaries, voting, Make, KINDS};
use crate::streams::refused;
use crate::text;

const SEED: u64 = 1;
const MOST_TIMES: usize = 30_000;
const LARGEST: usize = 600_000;

/// How many characters a row has at most, but that of a replay, and how many of one are printed.
const LONGEST: usize = 500;
const MOST_PRINTED: usize = 300;

/// The calls that have rows, how many arguments each has, the Rust's function, how many rows each number gets beside the chosen ones,
/// and the numbers that it must have. A flag counts as a number.
const CALLS: [(&str, usize, &str, usize, &[u8]); 31] = [
    ("check_header_votes", 1, "check_header_votes", 25, &[0, 9, 10, 11]),
    ("check_headers", 1, "check_header_votes, of headers one after another", 15, &[0, 9, 10, 11]),
    ("tally_votes_seeded", 4, "tally_votes_seeded", 25, &[0]),
    ("check_fork_vote", 4, "check_fork_vote", 20, &[0, 12, 19]),
    ("compute_boundary_parameters", 3, "compute_boundary_parameters", 13, &[0, 7, 8, 13, 14, 17, 19, 20]),
    ("check_parameters_v6", 2, "check_parameters_v6", 20, &[0, 15]),
    ("check_block_version", 2, "check_block_version", 15, &[0, 16, 20]),
    ("default_parameters", 1, "default_parameters", 0, &[0]),
    ("voting_config", 1, "VotingConfig::mainnet, VotingConfig::testnet", 0, &[0]),
    ("soft_fork_approved", 2, "VotingConfig::soft_fork_approved", 25, &[0, 1]),
    ("change_approved", 2, "VotingConfig::change_approved", 25, &[0, 1]),
    ("parameter_min", 1, "parameter_min", 0, &[0]),
    ("parameter_max", 1, "parameter_max", 0, &[0]),
    ("parameter_step", 1, "parameter_step", 0, &[0]),
    ("check_body", 1, "parse_extension_bytes, parse_parameters_from_kv", 12, &[0, 1, 2, 3, 4, 5, 6]),
    ("parse_extension_bytes", 1, "parse_extension_bytes", 12, &[0, 1, 2, 3, 4, 5]),
    ("field_at", 2, "parse_extension_bytes, of a body with that field", 12, &[0, 3, 4, 5]),
    ("parse_parameters_from_kv", 1, "parse_extension_bytes, parse_parameters_from_kv", 12, &[0, 1, 2, 3, 4, 5, 6]),
    ("extract_disabling_rules_from_kv", 1, "parse_extension_bytes, extract_disabling_rules_from_kv", 20, &[0]),
    ("parse_validation_settings_update", 1, "parse_validation_settings_update", 30, &[0, 7, 8]),
    ("rule_at", 2, "parse_validation_settings_update, of an update with that number", 20, &[0, 7]),
    ("status_at", 2, "parse_validation_settings_update, of an update with that status", 20, &[0, 7]),
    ("rule_may_not_be_disabled", 1, "parse_validation_settings_update, of an update with that rule", 0, &[0, 1]),
    ("pack_extension_bytes", 2, "pack_extension_bytes", 15, &[0]),
    ("pack_fields", 3, "pack_extension_bytes, without the id and the count", 15, &[0]),
    ("pack_parameters_to_kv", 1, "pack_parameters_to_kv", 15, &[0]),
    ("table_parameters", 1, "the entries of its table", 15, &[0]),
    ("encode_validation_settings_update", 5, "encode_validation_settings_update", 20, &[0, 23]),
    ("encode_disabled_rules", 1, "encode_disabled_rules", 15, &[0]),
    ("open", 2, "the oracle's opening", 15, &[0, 26]),
    ("replay", 2, REPLAY, 2, &[0, 1, 2, 3, 4, 5, 6, 7, 8, 9, 10, 11, 12, 13, 14, 15, 19, 20, 25, 26]),
];

const REPLAY: &str = "check_header_votes, check_fork_vote, parse_extension_bytes, parse_parameters_from_kv, \
    compute_boundary_parameters, check_parameters_v6, tally_votes_seeded: the oracle's replay over them";

const FLAGS: [&str; 3] = ["soft_fork_approved", "change_approved", "rule_may_not_be_disabled"];

/// The rows of each call and number.
type Rows = BTreeMap<(&'static str, u8), Vec<String>>;

/// Writes the rows, each call's under a comment with the Rust's function, and answers how many there are.
pub fn write(file: &Path) -> io::Result<Vec<String>> {
    let rows = rows();
    let mut text = String::new();
    for (name, _, function, _, numbers) in CALLS {
        text += &format!("# {name}: {function}\n");
        numbers.iter().for_each(|number| text += &rows[&(name, *number)].concat());
    }
    assert!(text.len() <= LARGEST, "{} bytes in all", text.len());
    fs::write(file, &text)?;
    Ok(vec![format!("{} rows, {} bytes", rows.values().map(Vec::len).sum::<usize>(), text.len())])
}

fn rows() -> Rows {
    let mut rows = Rows::new();
    for refused in refused::orders() {
        assert_eq!(answer(&refused.call()).map(|answer| answer.number), Ok(refused.number));
        add(&mut rows, &refused.call(), usize::MAX);
    }
    refused::streams().iter().for_each(|refused| add_few(&mut rows, &refused.call()));
    for (_, times, make) in KINDS.into_iter().chain([("headers", 5_000, voting::headers as Make)]) {
        let mut random = Random(SEED);
        (0..times.min(MOST_TIMES)).flat_map(|_| make(&mut random)).for_each(|call| add_few(&mut rows, &call));
    }
    chosen().iter().for_each(|call| add(&mut rows, call, usize::MAX));
    for (name, .., numbers) in CALLS {
        let given: Vec<u8> = rows.keys().filter(|key| key.0 == name).map(|key| key.1).collect();
        assert_eq!(given, numbers, "the numbers of {name}");
    }
    rows
}

/// A row is kept while its call and number have fewer than they get; those that are not refused get twice as many.
fn add_few(rows: &mut Rows, call: &Call) {
    if let Some((.., most, _)) = CALLS.iter().find(|row| row.0 == call.name) {
        add(rows, call, *most);
    }
}

/// Program `vectors` asks a boundary on three entries at most, none of them with id 0.
fn add(rows: &mut Rows, call: &Call, most: usize) {
    let few = |tally: &[u8]| tally.len() <= 15 && tally.chunks(5).all(|entry| entry[0] != 0);
    let given = match answer(call) {
        Ok(given) if call.name != "compute_boundary_parameters" || few(&call.arguments[0]) => given,
        Ok(_) | Err(Gap::Outside) => return,
        Err(Gap::NoCounterpart) => panic!("no counterpart for {}", text::call(call)),
    };
    let number = if FLAGS.contains(&call.name) { given.bytes[0] } else { given.number };
    let kept = rows.entry((call.name, number)).or_default();
    let most = if number == 0 { most.saturating_mul(2) } else { most };
    let row = text::row(call, &given);
    if kept.len() < most && (call.name == "replay" || row.len() <= LONGEST) && !kept.contains(&row) {
        kept.push(row);
    }
}

/// Calls whose rows are kept in any case.
fn chosen() -> Vec<Call> {
    let of_bytes = |name, bytes: &[u8]| bytes.iter().map(|&byte| Call::new(name, [vec![byte]])).collect::<Vec<_>>();
    let ids: Vec<u8> = (0..=12).chain(118..=138).chain(244..=255).collect();
    let edges = [95..=125, 198..=218, 298..=309, 401..=410, 498..=503, 999..=1_001, 32_767..=32_768, 65_534..=65_535];
    let rules = edges.into_iter().flatten().map(|rule| Call::new("rule_may_not_be_disabled", [numbers(&[rule])]));
    let limits = ["parameter_min", "parameter_max", "parameter_step"].map(|name| of_bytes(name, &ids)).concat();
    let networks = ["default_parameters", "voting_config"].map(|name| of_bytes(name, &[0, 1, 2, 255])).concat();
    [boundaries::chosen(), bodies::several(), networks, limits, rules.collect()].concat()
}

/// What rows of a file the Rust answers otherwise, and a last line with how many were asked, differ, and can't be asked.
pub fn check(file: &Path) -> io::Result<(Vec<String>, usize)> {
    let text = fs::read_to_string(file)?;
    let rows = text.lines().filter(|line| !line.is_empty() && !line.starts_with('#'));
    let (asked, gaps): (Vec<_>, Vec<_>) = rows.map(differs).partition(Result::is_ok);
    let mut report: Vec<String> = asked.iter().flatten().flatten().cloned().collect();
    let differ = report.len();
    report.push(format!("{}: {} rows asked, {differ} differ, {} not asked", file.display(), asked.len(), gaps.len()));
    Ok((report, differ))
}

/// A row with the Rust's answer, if it differs. A row out of form differs.
fn differs(line: &str) -> Result<Option<String>, Gap> {
    let whole = |row: &(Call, Answer)| CALLS.iter().any(|call| call.0 == row.0.name && call.1 == row.0.arguments.len());
    let given = match text::read(line, &CALLS.map(|call| call.0)).filter(whole) {
        None => "not asked, since the row is out of form".to_owned(),
        Some((call, expected)) => match answer(&call)? {
            given if given == expected => return Ok(None),
            given => text::answer(&given),
        },
    };
    let [row, given] = [line, &given].map(|text| text.chars().take(MOST_PRINTED).collect::<String>());
    Ok(Some(format!("differs: {row}\n  the Rust: {given}")))
}
