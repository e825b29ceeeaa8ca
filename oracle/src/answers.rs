//! The Rust's answers to calls by name.

use chain::voting::{self, ExtensionField, RuleStatus, ValidationSettingsUpdate, VotingConfig};
use chain::Network;

use crate::bytes::{map_bytes, numbers, places_bytes, settings_bytes, table_bytes, value_bytes, Input, IN_ORDER};
use crate::call::{Answer, Call, Gap, Given};
use crate::places;
use crate::record::{first_votes, read_record};
use crate::refusal::Refusal;
use crate::replay::{self, State};
use crate::rules::{self, Question, Votes, MOST};
use crate::table::to_map;

const STATE_SIZE: usize = 95;

/// The calls that have rows, and those that write lines.
pub fn answer(call: &Call) -> Given {
    let bytes = |i: usize| &call.arguments[i][..];
    let a = |i| Input(bytes(i));
    let (id, at) = (|| a(0).byte() as i8, || a(1).u32() as usize);
    match call.name {
        "check_header_votes" => told(rules::check_header(a(0).array()), nothing),
        "check_headers" => told(a(0).votes().into_iter().try_for_each(rules::check_header), nothing),
        "tally_votes_seeded" => tally(a(0).u32(), &a(1).votes(), a(2).u32(), a(3).u32()),
        "check_fork_vote" => told(rules::fork_check(&a(0).settings(), a(1).u32(), a(2).array(), &a(3).table()), nothing),
        "compute_boundary_parameters" => boundary(&a(0).tally(), bytes(1), &a(2).question()),
        "check_parameters_v6" => told(rules::match_parameters(&a(0).table(), &a(1).map()), nothing),
        "check_block_version" => told(rules::block_version(&a(0).table(), a(1).byte()), nothing),
        "default_parameters" if id() == 0 => accepted(table_bytes(&rules::mainnet_table())),
        "default_parameters" => accepted(table_bytes(&voting::default_parameters(Network::Testnet))),
        "voting_config" if id() == 0 => accepted(settings_bytes(&rules::mainnet())),
        "voting_config" => accepted(settings_bytes(&VotingConfig::testnet())),
        "soft_fork_approved" => {
            let settings = VotingConfig { activation_epochs: 0, ..a(0).settings() };
            told(rules::settings_small(&settings), |()| vec![settings.soft_fork_approved((a(1).u32() as i32).into()).into()])
        }
        "change_approved" => accepted(vec![a(0).settings().change_approved(a(1).u32()).into()]),
        "parameter_min" => accepted(value_bytes(voting::parameter_min(id()))),
        "parameter_max" => accepted(value_bytes(voting::parameter_max(id()))),
        "parameter_step" => accepted(value_bytes(voting::parameter_step(id()))),
        "check_body" => told(rules::body_parameters(body(bytes(0))?), nothing),
        "parse_extension_bytes" => {
            told(rules::parse_body(body(bytes(0))?), |fields| numbers(&places::section(&places::fields(bytes(0), &fields))))
        }
        "field_at" => told(places::field_at(bytes(0), at()), |places| numbers(&places)),
        "parse_parameters_from_kv" => told(rules::body_parameters(body(bytes(0))?), |(map, _)| map_bytes(&map)),
        "extract_disabling_rules_from_kv" => {
            let fields = rules::parse_body(body(bytes(0))?);
            accepted(fields.map_or(Vec::new(), |fields| voting::extract_disabling_rules_from_kv(&fields)))
        }
        "parse_validation_settings_update" => told(rules::parse_update(bytes(0)), |update| sections(bytes(0), &update)),
        "rule_at" => told(places::rule_at(bytes(0), at()), |places| numbers(&places)),
        "status_at" => told(places::status_at(bytes(0), at()), |places| numbers(&places)),
        "rule_may_not_be_disabled" if a(0).u32() > 65_535 => Err(Gap::NoCounterpart),
        "rule_may_not_be_disabled" => accepted(vec![rules::mandatory(a(0).u32() as u16).into()]),
        "pack_extension_bytes" => told(rules::pack_body(a(0).array(), &listed_fields(bytes(1))?), Vec::from),
        "pack_fields" => told(rules::pack_body([0; 32], &fields_in(call)?), |body| behind_count(&body)),
        "table_parameters" => accepted(map_bytes(&to_map(&a(0).table()))),
        "pack_parameters_to_kv" => accepted(field_bytes(&voting::pack_parameters_to_kv(&a(0).map()))),
        "encode_validation_settings_update" => told(rules::encode_update(&listed_update(call)?), Vec::from),
        "encode_disabled_rules" => told(rules::encode_rules(&a(0).items(u16::from_be_bytes)), Vec::from),
        "open" => told(replay::open(a(0).u32(), a(1).table()), |state| state_bytes(&state, IN_ORDER)),
        "replay" => replayed(a(0), bytes(1)),
        "write_head" => accepted(replay::HEAD_LINE.into()),
        "write_epoch" => accepted(replay::epoch_line(a(0).u32(), &a(1).table()).into()),
        "write_end" => accepted(replay::end_line(a(0).u32(), a(1).byte()).into()),
        other => panic!("no call {other}"),
    }
}

fn accepted(bytes: Vec<u8>) -> Given {
    Ok(Answer { number: 0, bytes })
}

/// The bytes of what is accepted, or the refusal, with its least id. Tests that are the rules' alone are outside.
fn told<T>(result: Result<T, Refusal>, bytes: impl FnOnce(T) -> Vec<u8>) -> Given {
    match result {
        Ok(value) => accepted(bytes(value)),
        Err(Refusal { number: 18 | 22 | 24, .. }) => Err(Gap::Outside),
        Err(Refusal { number, ids }) => Ok(Answer { number, bytes: ids.first().map(|&id| id as u8).into_iter().collect() }),
    }
}

fn nothing<T>(_: T) -> Vec<u8> {
    Vec::new()
}

/// Later heights aren't read: they rise by one.
fn tally(first: u32, votes: &[Votes], boundary: u32, length: u32) -> Given {
    let window: Vec<(u32, Votes)> = (0..).map(|i| first.wrapping_add(i)).zip(votes.iter().copied()).collect();
    told(rules::tally(&window, boundary, length), |tally| places_bytes(&tally, *votes.first().unwrap_or(&IN_ORDER)))
}

/// An update that says whether it is activated: it disables 215.
const TELLING: [u8; 4] = [1, 0xd7, 1, 0];

/// An activated update is told by its sections.
fn boundary(tally: &[(i8, u32)], update: &[u8], question: &Question) -> Given {
    told(rules::boundary(question, tally, update), |(table, activated)| {
        let telling = || rules::boundary(question, tally, &TELLING).is_ok_and(|(_, told)| !told.rules.is_empty());
        let proposed = if !update.is_empty() && telling() { update } else { &[] };
        assert!(!proposed.is_empty() || activated == Default::default(), "an update that is not activated is empty");
        [table_bytes(&table), sections(proposed, &activated)].concat()
    })
}

/// The sections of an update's rules and statuses.
fn sections(bytes: &[u8], update: &ValidationSettingsUpdate) -> Vec<u8> {
    numbers(places::update(bytes, update).each_ref().map(places::section).as_flattened())
}

/// A body that is too long or declares more than 65,536 fields is outside.
fn body(body: &[u8]) -> Result<&[u8], Gap> {
    let outside = body.len() > MOST || rules::declared(body).is_some_and(|(count, _)| count > MOST);
    (!outside).then_some(body).ok_or(Gap::Outside)
}

/// Fields as they stand in a body.
pub fn field_bytes(fields: &[ExtensionField]) -> Vec<u8> {
    fields.iter().flat_map(|(key, value)| [&key[..], &[value.len() as u8], value].concat()).collect()
}

/// The same, read. The Rust has no list that is cut.
fn listed_fields(mut bytes: &[u8]) -> Result<Vec<ExtensionField>, Gap> {
    let mut fields = Vec::new();
    while !bytes.is_empty() {
        let ([first, second, size], rest) = bytes.split_first_chunk().ok_or(Gap::NoCounterpart)?;
        let (value, rest) = rest.split_at_checked((*size).into()).ok_or(Gap::NoCounterpart)?;
        fields.push(([*first, *second], value.to_vec()));
        bytes = rest;
    }
    Ok(fields)
}

/// The lists must fit one another: the Rust has one list of fields.
fn fields_in(call: &Call) -> Result<Vec<ExtensionField>, Gap> {
    let [keys, sizes, mut values] = [0, 1, 2].map(|i| &call.arguments[i][..]);
    let (keys, odd) = keys.as_chunks();
    let sizes = Input(sizes).items(u32::from_be_bytes);
    let mut fields = Vec::new();
    for (&key, &size) in keys.iter().zip(&sizes) {
        let (value, rest) = values.split_at_checked(size as usize).ok_or(Gap::NoCounterpart)?;
        fields.push((key, value.to_vec()));
        values = rest;
    }
    let fit = odd.is_empty() && keys.len() == sizes.len() && values.is_empty();
    if fit { Ok(fields) } else { Err(Gap::NoCounterpart) }
}

/// The fields of a body that the Rust wrote, without the id and the count before them.
fn behind_count(body: &[u8]) -> Vec<u8> {
    let count = body[32..].iter().take_while(|&&byte| byte >= 128).count() + 1;
    body[32 + count..].to_vec()
}

/// The lists of statuses must fit one another: the Rust has one list of them.
fn listed_update(call: &Call) -> Result<ValidationSettingsUpdate, Gap> {
    let [rules, ids, codes, sizes, raw] = &call.arguments[..] else { panic!("five lists") };
    let (ids, sizes) = (Input(ids).items(i16::from_be_bytes), Input(sizes).items(u32::from_be_bytes));
    let (mut left, mut statuses) = (&raw[..], Vec::new());
    if ids.len() != codes.len() || ids.len() != sizes.len() {
        return Err(Gap::NoCounterpart);
    }
    for ((id, &code), size) in ids.into_iter().zip(codes).zip(sizes) {
        let (data, rest) = left.split_at_checked(size as usize).ok_or(Gap::NoCounterpart)?;
        statuses.push((id, RuleStatus { code, data: data.to_vec() }));
        left = rest;
    }
    let update = ValidationSettingsUpdate { rules: Input(rules).items(u16::from_be_bytes), statuses };
    left.is_empty().then_some(update).ok_or(Gap::NoCounterpart)
}

/// The bytes of a state whose tally was seeded by these votes.
pub fn state_bytes(state: &State, seed: Votes) -> Vec<u8> {
    let next = state.next.to_be_bytes().into();
    [settings_bytes(&rules::mainnet()), table_bytes(&state.table), next, places_bytes(&state.tally, seed)].concat()
}

/// The replay has mainnet's settings, and a state is whole.
fn replayed(mut state: Input, record: &[u8]) -> Given {
    if state.0.len() != STATE_SIZE || state.settings() != rules::mainnet() {
        return Err(Gap::NoCounterpart);
    }
    let (table, next, mut tally) = (state.table(), state.u32(), state.tally());
    tally.retain(|(id, _)| *id != 0);
    if let Ok((record, _)) = read_record(record) {
        body(record.body)?;
    }
    told(State { next, table, tally }.replay(record), |after| state_bytes(&after, first_votes(record)))
}
