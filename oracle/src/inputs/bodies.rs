//! Extension bodies, and parameters against a table.

use chain::voting::ExtensionField;
use ergo_lib::chain::parameters::Parameters;

use super::random::Random;
use super::updates;
use super::voting::any_table;
use crate::answers::field_bytes;
use crate::bytes::{map_bytes, numbers, table_bytes};
use crate::call::Call;
use crate::table::{self, Map};
use crate::{places, rules};

fn field(random: &mut Random) -> ExtensionField {
    let second = random.pick(&[1, 2, 3, 8, 9, 121, 122, 123, 124, 125, 128, 255, 0]);
    let key = [random.pick(&[0, 0, 0, 0, 1, 2, 255]), second];
    let size = if random.one_in(12) { random.pick(&[0, 1, 3, 5, 63, 64]) } else { 4 };
    let mut value = if key == [0, 124] { updates::update(random) } else { random.bytes(size) };
    value.truncate(64);
    (key, value)
}

/// The id, the count and the fields; now and then another count, or a value of 65 bytes and more.
pub fn body(random: &mut Random) -> Vec<u8> {
    let mut body = random.bytes(32);
    let fields: Vec<ExtensionField> = (0..random.pick(&[0, 1, 2, 3, 9, 14])).map(|_| field(random)).collect();
    let count = if random.one_in(10) { random.number() } else { fields.len() as u32 };
    body.extend(random.vlq(count));
    body.extend(field_bytes(&fields));
    if random.one_in(10) {
        let size = random.pick(&[64, 65, 66, 128, 255]);
        body.extend([&[0, 1, size as u8], &random.bytes(size)[..]].concat());
    }
    let after = if random.one_in(5) { random.below(5) } else { 0 };
    body.extend(random.bytes(after));
    body
}

/// What a body is asked: whether it is in form, its fields, parameters and update, and the field at each of these places.
pub fn asked<'a>(body: &'a [u8], at: &'a [usize]) -> impl Iterator<Item = Call> + 'a {
    let whole = ["check_body", "parse_extension_bytes", "parse_parameters_from_kv", "extract_disabling_rules_from_kv"];
    let fields = at.iter().map(|&at| Call::new("field_at", [body.to_vec(), numbers(&[at])]));
    whole.into_iter().map(|name| Call::new(name, [body.to_vec()])).chain(fields)
}

/// Where the fields of a body stand, if the Rust reads it.
pub fn fields_at(body: &[u8]) -> Vec<usize> {
    rules::parse_body(body).map_or(Vec::new(), |fields| places::fields(body, &fields))
}

/// A body is asked with its fields, and one at any place; or every cut of it.
pub fn make(random: &mut Random) -> Vec<Call> {
    let body = body(random);
    let body = random.damaged(body);
    if random.one_in(50) {
        return (0..=body.len()).map(|size| Call::new("check_body", [body[..size].to_vec()])).collect();
    }
    let mut at = fields_at(&body);
    at.push(random.below(body.len() + 3));
    asked(&body, &at).collect()
}

/// The entries of a table, some of them changed, absent or more.
pub fn matches(random: &mut Random) -> Vec<Call> {
    let computed = any_table(random);
    let mut found = table::to_map(&computed);
    for _ in 0..random.below(4) {
        let id = random.pick(&[1, 2, 5, 9, 121, 122, 123, 124, 10, 0, -1, -128]);
        match random.below(3) {
            0 => drop(found.remove(&id)),
            1 => drop(found.insert(id, random.number() as i32)),
            _ => drop(found.entry(id).and_modify(|value| *value = value.wrapping_add(1))),
        }
    }
    vec![matched(&computed, &found)]
}

/// A whole table, and several of its entries that are missing or different: 15 carries the least id of them.
pub fn several() -> Vec<Call> {
    let same: Map = table::ENTRIES.map(|entry| (entry as i8, 1_000)).into();
    let computed = table::from_map(&same);
    let all: Vec<i8> = same.keys().copied().collect();
    let spoiled = |ids: &[i8]| {
        let (mut less, mut other) = (same.clone(), same.clone());
        less.retain(|id, _| !ids.contains(id));
        other.extend(ids.iter().map(|&id| (id, -1)));
        [matched(&computed, &less), matched(&computed, &other)]
    };
    [&[1, 123][..], &[9, 121], &[122], &all].map(spoiled).concat()
}

fn matched(computed: &Parameters, found: &Map) -> Call {
    Call::new("check_parameters_v6", [table_bytes(computed), map_bytes(found)])
}
