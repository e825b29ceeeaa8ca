//! Where fields, rules and statuses stand. The Rust hands the items back and not their places: the stand-in's reader finds them.

use chain::voting::{self, ExtensionField, RuleStatus, ValidationSettingsUpdate};
use ergo_lib::ergotree_ir::serialization::SigmaSerializable;
use ergo_lib::ergotree_ir::validation::FIRST_RULE_ID;
use sigma_ser::vlq_encode::ReadSigmaVlqExt;

use crate::refusal::Refusal;
use crate::rules;

/// Where each item begins, and at the end where the last one ends.
pub type Places = Vec<usize>;

/// How many items, where they begin and where they end.
pub fn section(places: &Places) -> [usize; 3] {
    [places.len() - 1, places[0], places[places.len() - 1]]
}

/// Where the rest of some bytes begins.
fn place(bytes: &[u8], rest: &[u8]) -> usize {
    bytes.len() - rest.len()
}

/// The fields of a body that was read.
pub fn fields(body: &[u8], fields: &[ExtensionField]) -> Places {
    let (_, rest) = rules::declared(body).expect("a count that was read");
    let mut places = vec![place(body, rest)];
    fields.iter().for_each(|(_, value)| places.push(places[places.len() - 1] + 3 + value.len()));
    places
}

/// The rules and the statuses of an update that was read. Empty bytes have none.
pub fn update(bytes: &[u8], update: &ValidationSettingsUpdate) -> [Places; 2] {
    if bytes.is_empty() {
        return [vec![0], vec![0]];
    }
    let mut rest = bytes;
    let rules = items(bytes, &mut rest, update.rules.len(), |rest| rest.get_u16().is_ok());
    let status = |rest: &mut &[u8]| rest.get_u16().is_ok() && RuleStatus::sigma_parse(rest).is_ok();
    [rules, items(bytes, &mut rest, update.statuses.len(), status)]
}

fn items(bytes: &[u8], rest: &mut &[u8], count: usize, item: impl Fn(&mut &[u8]) -> bool) -> Places {
    rest.get_u32().expect("a count that was read");
    let mut places = vec![place(bytes, rest)];
    for _ in 0..count {
        assert!(item(rest), "an item that was read");
        places.push(place(bytes, rest));
    }
    places
}

/// The key of the field at a position, and where its value begins and ends: the Rust reads a body that has it alone.
pub fn field_at(body: &[u8], at: usize) -> Result<[usize; 4], Refusal> {
    let (_, fields) = voting::parse_extension_bytes(&[&[0; 32][..], &[1], from(body, at)?].concat())?;
    let ([first, second], value) = &fields[0];
    Ok([(*first).into(), (*second).into(), at + 3, at + 3 + value.len()])
}

/// The rule at a position and where it ends. The Rust reads it as the offset of a status without raw bytes: so it may be mandatory.
pub fn rule_at(bytes: &[u8], at: usize) -> Result<[usize; 2], Refusal> {
    let rule = from(bytes, at)?;
    let mut rest = rule;
    let status: &[u8] = if rest.get_u16().is_ok() { &[0, 0] } else { &[] };
    let end = place(rule, rest);
    let (id, _) = only_status(&[&rule[..end], status].concat())?;
    Ok([id.wrapping_sub(FIRST_RULE_ID as u16).into(), at + end])
}

/// The 16 bits of the id and the code of the status at a position, and where its raw bytes begin and end.
pub fn status_at(bytes: &[u8], at: usize) -> Result<[usize; 4], Refusal> {
    let status = from(bytes, at)?;
    let (id, RuleStatus { code, data }) = only_status(status)?;
    let mut rest = status;
    for _ in 0..2 {
        rest.get_u16().expect("a number that was read");
    }
    let begin = at + place(status, rest) + 1;
    Ok([id.into(), code.into(), begin, begin + data.len()])
}

fn only_status(bytes: &[u8]) -> Result<(u16, RuleStatus), Refusal> {
    let mut update = voting::parse_validation_settings_update(&[&[0, 1], bytes].concat())?;
    let (id, status) = update.statuses.remove(0);
    Ok((id as u16, status))
}

/// What bytes have from a position on.
fn from(bytes: &[u8], at: usize) -> Result<&[u8], Refusal> {
    rules::at_most(bytes.len(), rules::MOST)?;
    Ok(bytes.get(at..).unwrap_or(&[]))
}
