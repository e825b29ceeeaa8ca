//! The recorded answers of docs/VECTORS.md, asked of the typed functions and, over lent cells, of those that C has.

use ergo_voting::ffi::*;
use ergo_voting::*;

const UNTOUCHED: u8 = 0xee;
const NETWORKS: [Network; 2] = [Network::Mainnet, Network::Testnet];

/// A refusal's number or 0, and bytes.
type Answer = (u8, Vec<u8>);

/// Pieces with `+` between them: hexadecimal bytes, as often as the count after a `*` says. `-` is none.
fn bytes_of(word: &str) -> Vec<u8> {
    let piece = |piece: &str| {
        let (digits, count) = piece.split_once('*').unwrap_or((piece, "1"));
        let byte = |at| u8::from_str_radix(&digits[at..at + 2], 16).expect("hexadecimal digits");
        (0..digits.len()).step_by(2).map(byte).collect::<Vec<_>>().repeat(count.parse().expect("a count"))
    };
    word.replace('-', "").split('+').flat_map(piece).collect()
}

fn array<const N: usize>(bytes: &[u8]) -> [u8; N] {
    bytes.try_into().expect("as many bytes as the type has")
}

fn number(bytes: &[u8]) -> u32 {
    u32::from_be_bytes(array(bytes))
}

fn list<const N: usize, T>(bytes: &[u8], item: fn([u8; N]) -> T) -> Vec<T> {
    bytes.chunks(N).map(|bytes| item(array(bytes))).collect()
}

fn entry([id, count @ ..]: [u8; 5]) -> Entry {
    Entry { id: id as i8, count: u32::from_be_bytes(count) }
}

fn settings_of(bytes: &[u8]) -> Settings {
    Settings::from_bytes(&array(bytes))
}

fn table_of(bytes: &[u8]) -> Table {
    Table::from_bytes(&array(bytes))
}

/// Of two with one id the later one counts; bytes left over are none.
fn parameters_of(bytes: &[u8]) -> Parameters {
    bytes.chunks_exact(5).map(|entry| (entry[0] as i8, number(&entry[1..]) as i32)).collect()
}

/// None where a field is cut.
fn fields_of(mut bytes: &[u8]) -> Option<Vec<Field>> {
    let mut fields = Vec::new();
    while let Some(&[key0, key1, size]) = bytes.split_off(..3) {
        fields.push(Field { key: [key0, key1], value: bytes.split_off(..usize::from(size))?.to_vec() });
    }
    bytes.is_empty().then_some(fields)
}

/// None where the lists disagree.
fn listed(keys: &[u8], sizes: &[u32], mut values: &[u8]) -> Option<Vec<Field>> {
    let mut fields = Vec::new();
    for (key, &size) in keys.chunks(2).zip(sizes) {
        fields.push(Field { key: key.try_into().ok()?, value: values.split_off(..size as usize)?.to_vec() });
    }
    (keys.len() == 2 * sizes.len() && values.is_empty()).then_some(fields)
}

/// None where the lists disagree.
fn statuses_of(ids: &[i16], codes: &[u8], sizes: &[u32], mut raw: &[u8]) -> Option<Vec<Status>> {
    let mut statuses = Vec::new();
    for ((&rule, &code), &size) in ids.iter().zip(codes).zip(sizes) {
        statuses.push(Status { rule, code, raw: raw.split_off(..size as usize)?.to_vec() });
    }
    ([ids.len(), codes.len(), sizes.len()] == [statuses.len(); 3] && raw.is_empty()).then_some(statuses)
}

fn numbers<const N: usize>(numbers: [usize; N]) -> Vec<u8> {
    numbers.iter().flat_map(|number| (*number as u32).to_be_bytes()).collect()
}

fn section(section: Section, items: usize) -> Vec<u8> {
    assert_eq!(section.count as usize, items);
    numbers([items, section.begin, section.end])
}

fn update(update: Update) -> Vec<u8> {
    let rules = section(update.rules_section(), update.rules().len());
    [rules, section(update.statuses_section(), update.statuses().len())].concat()
}

fn value(value: Option<i32>) -> Vec<u8> {
    value.map_or(vec![0; 5], |value| [&[1], &value.to_be_bytes()[..]].concat())
}

fn map(parameters: Parameters) -> Vec<u8> {
    let entry = |id: u8| Some([&[id], &parameters.get(&(id as i8))?.to_be_bytes()[..]].concat());
    (0..=255).filter_map(entry).flatten().collect()
}

/// What the typed function answers; none where the bytes are not of its types.
fn typed(name: &str, arguments: &[&[u8]]) -> Option<Answer> {
    let answer = match (name, arguments) {
        ("check_header_votes", [votes]) => check_header_votes(array(votes)).map(|()| vec![]),
        ("check_headers", [votes]) => check_headers(votes).map(|()| vec![]),
        ("tally_votes_seeded", [first, votes, boundary, length]) => {
            tally_votes_seeded(number(first), votes, number(boundary), number(length)).map(|tally| tally.to_bytes().to_vec())
        }
        ("check_fork_vote", [settings, height, votes, table]) => {
            check_fork_vote(&settings_of(settings), number(height), array(votes), &table_of(table)).map(|()| vec![])
        }
        ("compute_boundary_parameters", [tally, proposed, question]) => {
            let (settings, height, table) =
                (settings_of(&question[..16]), number(&question[16..20]), table_of(&question[20..80]));
            compute_boundary_parameters(&list(tally, entry), proposed, &settings, height, &table, question[80] != 0)
                .map(|computed| [computed.table.to_bytes().to_vec(), update(computed.activated)].concat())
        }
        ("check_parameters_v6", [table, map]) => check_parameters_v6(&table_of(table), &parameters_of(map)).map(|()| vec![]),
        ("check_block_version", [table, &[version]]) => check_block_version(&table_of(table), version).map(|()| vec![]),
        ("default_parameters", [&[network]]) => {
            Ok(Table::default_parameters(*NETWORKS.get(usize::from(network))?).to_bytes().to_vec())
        }
        ("voting_config", [&[network]]) => Ok(Settings::of(*NETWORKS.get(usize::from(network))?).to_bytes().to_vec()),
        ("soft_fork_approved", [of, votes]) => Ok(vec![settings_of(of).soft_fork_approved(number(votes) as i32).into()]),
        ("change_approved", [of, votes]) => Ok(vec![settings_of(of).change_approved(number(votes)).into()]),
        ("parameter_min", [&[id]]) => Ok(value(parameter_min(id as i8))),
        ("parameter_max", [&[id]]) => Ok(value(parameter_max(id as i8))),
        ("parameter_step", [&[id]]) => Ok(value(parameter_step(id as i8))),
        ("check_body", [body]) => check_body(body).map(|()| vec![]),
        ("parse_extension_bytes", [body]) => {
            parse_extension_bytes(body).map(|it| section(it.fields_section(), it.fields().len()))
        }
        ("field_at", [body, at]) => field_at(body, number(at) as usize)
            .map(|FieldPlace { key: [key0, key1], value }| numbers([key0.into(), key1.into(), value.start, value.end])),
        ("parse_parameters_from_kv", [body]) => parse_parameters_from_kv(body).map(map),
        ("extract_disabling_rules_from_kv", [body]) => Ok(extract_disabling_rules_from_kv(body)),
        ("parse_validation_settings_update", [bytes]) => parse_validation_settings_update(bytes).map(update),
        ("rule_at", [bytes, at]) => rule_at(bytes, number(at) as usize).map(|place| numbers([place.rule.into(), place.next])),
        ("status_at", [bytes, at]) => status_at(bytes, number(at) as usize)
            .map(|StatusPlace { rule, code, raw }| numbers([(rule as u16).into(), code.into(), raw.start, raw.end])),
        ("rule_may_not_be_disabled", [id]) => Ok(vec![rule_may_not_be_disabled(number(id) as i32).into()]),
        ("pack_extension_bytes", [id, fields]) => pack_extension_bytes(&array(id), &fields_of(fields)?),
        ("pack_fields", [keys, sizes, values]) => pack_fields(&listed(keys, &list(sizes, u32::from_be_bytes), values)?),
        ("table_parameters", [table]) => Ok(map(table_of(table).parameters())),
        ("pack_parameters_to_kv", [map]) => {
            let field = |Field { key, value }| [&key[..], &[value.len() as u8], &value].concat();
            Ok(pack_parameters_to_kv(&parameters_of(map)).into_iter().flat_map(field).collect())
        }
        ("encode_validation_settings_update", [rules, ids, codes, sizes, raw]) => {
            let statuses = statuses_of(&list(ids, i16::from_be_bytes), codes, &list(sizes, u32::from_be_bytes), raw)?;
            encode_validation_settings_update(&list(rules, u16::from_be_bytes), &statuses)
        }
        ("encode_disabled_rules", [rules]) => encode_disabled_rules(&list(rules, u16::from_be_bytes)),
        ("open", [height, table]) => State::open(number(height), &table_of(table)).map(|state| state.to_bytes().to_vec()),
        ("replay", [state, record]) => {
            let mut state = State::from_bytes(&array(state));
            state.replay(record).map(|()| state.to_bytes().to_vec())
        }
        _ => return None,
    };
    Some(match answer {
        Ok(bytes) => (0, bytes),
        Err(Refusal::EntryDiffers { id }) => (15, vec![id]),
        Err(refusal) => (refusal.number(), vec![]),
    })
}

/// The number that the library answers over lent cells, of which it is to fill so many; none where it takes no cells.
fn lent(name: &str, arguments: &[&[u8]], size: usize, out: &mut [u8]) -> Option<u8> {
    let sized = |answer: i64| u8::try_from(-answer).unwrap_or(if answer == size as i64 { 0 } else { u8::MAX });
    let written = |answer: Result<usize, Refusal>| answer.map_or_else(Refusal::number, |size| sized(size as i64));
    Some(match (name, arguments) {
        ("tally_votes_seeded", [first, votes, boundary, length]) => {
            ergo_tally_votes_seeded(number(first), votes, number(boundary), number(length), out)
        }
        ("compute_boundary_parameters", [tally, proposed, question]) => {
            ergo_compute_boundary_parameters(&list(tally, entry), proposed, question, out)
        }
        ("default_parameters", [&[network]]) => ergo_default_parameters(network, out),
        ("voting_config", [&[network]]) => ergo_voting_config(network, out),
        ("parameter_min", [&[id]]) => ergo_parameter_min(id as i8, out),
        ("parameter_max", [&[id]]) => ergo_parameter_max(id as i8, out),
        ("parameter_step", [&[id]]) => ergo_parameter_step(id as i8, out),
        ("parse_extension_bytes", [body]) => ergo_parse_extension_bytes(body, out),
        ("field_at", [body, at]) => ergo_field_at(body, number(at) as usize, out),
        ("parse_parameters_from_kv", [body]) => sized(ergo_parse_parameters_from_kv(body, out)),
        ("extract_disabling_rules_from_kv", [body]) => sized(ergo_extract_disabling_rules_from_kv(body, out)),
        ("parse_validation_settings_update", [bytes]) => ergo_parse_validation_settings_update(bytes, out),
        ("rule_at", [bytes, at]) => ergo_rule_at(bytes, number(at) as usize, out),
        ("status_at", [bytes, at]) => ergo_status_at(bytes, number(at) as usize, out),
        ("pack_extension_bytes", [id, fields]) => match fields_of(fields) {
            Some(fields) => written(pack_extension_bytes_into(&array(id), &fields, out)),
            None => sized(ergo_pack_extension_bytes(id, fields, out)),
        },
        ("pack_fields", [keys, sizes, values]) => {
            let sizes = list(sizes, u32::from_be_bytes);
            match listed(keys, &sizes, values) {
                Some(fields) => written(pack_fields_into(&fields, out)),
                None => sized(ergo_pack_fields(keys, &sizes, values, out)),
            }
        }
        ("table_parameters", [table]) => sized(ergo_table_parameters(table, out)),
        ("pack_parameters_to_kv", [map]) => written(pack_parameters_to_kv_into(&parameters_of(map), out)),
        ("encode_validation_settings_update", [rules, ids, codes, sizes, raw]) => {
            let (rules, ids) = (list(rules, u16::from_be_bytes), list(ids, i16::from_be_bytes));
            let sizes = list(sizes, u32::from_be_bytes);
            match statuses_of(&ids, codes, &sizes, raw) {
                Some(statuses) => written(encode_validation_settings_update_into(&rules, &statuses, out)),
                None => sized(ergo_encode_validation_settings_update(&rules, &ids, codes, &sizes, raw, out)),
            }
        }
        ("encode_disabled_rules", [rules]) => written(encode_disabled_rules_into(&list(rules, u16::from_be_bytes), out)),
        ("open", [height, table]) => ergo_open(number(height), table, out),
        ("replay", [_, record]) => ergo_replay(out, record).to_be_bytes()[1],
        _ => return None,
    })
}

/// The cells that a call is lent, and what it must answer and leave. Refused, it fills none. A replay has its state in them.
fn cells(state: Option<&[u8]>, (number, bytes): &Answer) -> Vec<(Vec<u8>, Answer)> {
    let filled = if *number == 0 { bytes.len() } else { 0 };
    let before = state.map_or(vec![UNTOUCHED; filled], <[u8]>::to_vec);
    let after = if *number == 0 { bytes } else { &before };
    let longer = |cells: &[u8], more| [cells, &vec![UNTOUCHED; more]].concat();
    let mut all = [0, 3, 999].map(|more| (longer(&before, more), (*number, longer(after, more)))).to_vec();
    if state.is_none() && filled > 0 {
        all.push((vec![UNTOUCHED; filled - 1], (21, vec![UNTOUCHED; filled - 1])));
    }
    all
}

/// The first answer that differs, after the expected one.
fn differing(name: &str, arguments: &[&[u8]], answer: &Answer) -> Option<(Answer, Answer)> {
    let mut pairs: Vec<_> = typed(name, arguments).into_iter().map(|typed| (answer.clone(), typed)).collect();
    for (mut out, expected) in cells((name == "replay").then(|| arguments[0]), answer) {
        pairs.extend(lent(name, arguments, answer.1.len(), &mut out).map(|number| (expected, (number, out))));
    }
    assert!(!pairs.is_empty(), "no call {name} of {} arguments", arguments.len());
    pairs.into_iter().find(|(expected, answered)| expected != answered)
}

/// Runs rows, and answers how many calls they have.
fn run(rows: &str) -> usize {
    let (mut calls, mut differ) = (std::collections::BTreeSet::new(), 0);
    for line in rows.lines().filter(|line| !line.is_empty() && !line.starts_with('#')) {
        let (call, answer) = line.split_once(" = ").expect("a call and its answer");
        let (name, words) = call.split_once(' ').expect("a name and arguments");
        let arguments: Vec<Vec<u8>> = words.split(' ').map(bytes_of).collect();
        let (number, bytes) = answer.split_once(' ').unwrap_or((answer, "-"));
        let answer = (number.parse().expect("a number"), bytes_of(bytes));
        calls.insert(name);
        if let Some((expected, answered)) = differing(name, &arguments.iter().map(Vec::as_slice).collect::<Vec<_>>(), &answer) {
            differ += 1;
            println!("{line}\n  expected {} {:02x?}\n  answered {} {:02x?}", expected.0, expected.1, answered.0, answered.1);
        }
    }
    assert_eq!(differ, 0, "rows that differ");
    calls.len()
}

#[test]
fn rows_of_the_rust() {
    assert_eq!(run(include_str!("../../../crates/vectors/data/rust.rows")), 31, "all calls that have rows");
}

#[test]
fn rows_of_the_rules() {
    assert!(run(include_str!("../../../crates/vectors/data/edges.rows")) > 0);
}
