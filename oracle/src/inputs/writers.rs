//! Inputs of the writers.

use super::random::Random;
use super::updates::rule;
use super::voting::any_table;
use crate::bytes::{numbers, table_bytes};
use crate::call::Call;

pub fn make(random: &mut Random) -> Vec<Call> {
    vec![match random.below(4) {
        0 => Call::new("pack_extension_bytes", [random.bytes(32), fields(random)]),
        1 => Call::new("pack_parameters_to_kv", [parameters(random)]),
        2 => Call::new("encode_validation_settings_update", update(random)),
        _ => Call::new("encode_disabled_rules", [rules(random, &[0, 1, 2, 3, 9, 127, 128, 129])]),
    }]
}

/// Fields as keys, sizes and values, which fit one another, a few of them too long; and the parameters of a table.
pub fn lists(random: &mut Random) -> Vec<Call> {
    if random.one_in(2) {
        return vec![Call::new("table_parameters", [table_bytes(&any_table(random))])];
    }
    let count = random.pick(&[0, 1, 2, 3, 20, 127, 128, 130]);
    let most = if random.one_in(60) { 300 } else { 64 };
    let sizes: Vec<usize> = (0..count).map(|_| if random.one_in(2) { 4 } else { random.below(most + 1) }).collect();
    let values = random.bytes(sizes.iter().sum());
    vec![Call::new("pack_fields", [random.bytes(2 * count), numbers(&sizes), values])]
}

fn fields(random: &mut Random) -> Vec<u8> {
    let any = |random: &mut Random| {
        let most = if random.one_in(60) { 70 } else { 64 };
        let size = if random.one_in(2) { 4 } else { random.below(most + 1) };
        field(random, size)
    };
    (0..random.pick(&[0, 1, 2, 3, 20, 127, 128, 130])).flat_map(|_| any(random)).collect()
}

/// A field as it stands in a body, with any key and a value of so many bytes.
pub fn field(random: &mut Random, size: usize) -> Vec<u8> {
    [&[random.byte(), random.byte(), size as u8], &random.bytes(size)[..]].concat()
}

fn parameters(random: &mut Random) -> Vec<u8> {
    let entry = |random: &mut Random| {
        let any = random.byte();
        [&[random.pick(&[any, any, 1, 9, 123, 124, 125, 127, 128])], &random.number().to_be_bytes()[..]].concat()
    };
    (0..random.below(12)).flat_map(|_| entry(random)).collect()
}

fn rules(random: &mut Random, counts: &[usize]) -> Vec<u8> {
    (0..random.pick(counts)).flat_map(|_| (rule(random) as u16).to_be_bytes()).collect()
}

fn status_id(random: &mut Random) -> i16 {
    match random.below(12) {
        0 => random.number() as i16,
        1 => random.pick(&[999, 1_000, 1_127, 1_128, 32_767, -1]),
        _ => 1_000 + random.below(2_000) as i16,
    }
}

/// The lists of the statuses fit one another.
fn update(random: &mut Random) -> [Vec<u8>; 5] {
    let statuses = random.pick(&[0, 1, 2, 3, 130]);
    let ids = (0..statuses).flat_map(|_| status_id(random).to_be_bytes()).collect();
    let sizes: Vec<u32> = (0..statuses).map(|_| random.pick(&[0, 1, 2, 5, 127])).collect();
    let raw = random.bytes(sizes.iter().sum::<u32>() as usize);
    [rules(random, &[0, 1, 2, 3]), ids, random.bytes(statuses), sizes.into_iter().flat_map(u32::to_be_bytes).collect(), raw]
}
