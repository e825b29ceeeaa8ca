//! Settings updates.

use super::random::Random;
use crate::bytes::numbers;
use crate::call::Call;
use crate::{places, rules};

/// A rule: around those that may not be disabled.
pub fn rule(random: &mut Random) -> u32 {
    match random.below(4) {
        0 => random.number(),
        1 => random.pick(&[100, 110, 118, 122, 202, 203, 212, 213, 215, 216, 300, 306, 307, 403, 409, 500, 502]),
        _ => random.pick(&[110, 111, 118, 202, 212, 215, 306, 409, 502, 32_000, 65_535]),
    }
}

/// A status: its offset, size, code and raw bytes. Now and then the size is another one.
fn status(random: &mut Random) -> Vec<u8> {
    let size = random.pick(&[0, 0, 1, 2, 7, 130]);
    let offset = if random.one_in(2) { random.below(600) as u32 } else { random.number() };
    let declared = if random.one_in(20) { random.number() } else { size as u32 };
    [random.vlq(offset), random.vlq(declared), random.bytes(1 + size)].concat()
}

fn count(random: &mut Random, items: u32) -> Vec<u8> {
    let count = if random.one_in(15) { random.number() } else { items };
    random.vlq(count)
}

pub fn update(random: &mut Random) -> Vec<u8> {
    if random.one_in(10) {
        return Vec::new();
    }
    let (rules, statuses) = (random.below(4), random.below(3));
    let mut bytes = count(random, rules as u32);
    for _ in 0..rules {
        let rule = rule(random);
        bytes.extend(random.vlq(rule));
    }
    bytes.extend(count(random, statuses as u32));
    (0..statuses).for_each(|_| bytes.extend(status(random)));
    bytes
}

/// An update: none, one of rules that may be disabled, or any.
pub fn proposed(random: &mut Random) -> Vec<u8> {
    match random.below(4) {
        0 | 1 => Vec::new(),
        2 => {
            let rules: Vec<u16> = (0..1 + random.below(3)).map(|_| random.pick(&[215, 409, 409, 32_000])).collect();
            rules::encode_rules(&rules).expect("a few rules")
        }
        _ => any(random),
    }
}

/// An update that may be damaged.
pub fn any(random: &mut Random) -> Vec<u8> {
    let update = update(random);
    random.damaged(update)
}

/// What an update is asked: its sections, and the rule and the status at each of these places.
pub fn asked<'a>(update: &'a [u8], [rules, statuses]: [&'a [usize]; 2]) -> impl Iterator<Item = Call> + 'a {
    let at = |name, place: &usize| Call::new(name, [update.to_vec(), numbers(&[*place])]);
    let rules = rules.iter().map(move |place| at("rule_at", place));
    let statuses = statuses.iter().map(move |place| at("status_at", place));
    std::iter::once(Call::new("parse_validation_settings_update", [update.to_vec()])).chain(rules).chain(statuses)
}

/// Where the rules and the statuses of an update stand, if the Rust reads it.
pub fn items_at(update: &[u8]) -> [Vec<usize>; 2] {
    rules::parse_update(update).map_or_else(|_| Default::default(), |parsed| places::update(update, &parsed))
}

/// An update is asked with its rules and statuses, and one of each at any place; or every cut of it.
pub fn make(random: &mut Random) -> Vec<Call> {
    let bytes = any(random);
    if random.one_in(50) {
        return (0..=bytes.len()).flat_map(|size| asked(&bytes[..size], [&[]; 2])).collect();
    }
    let [mut rules, mut statuses] = items_at(&bytes);
    rules.push(random.below(bytes.len() + 2));
    statuses.push(random.below(bytes.len() + 2));
    asked(&bytes, [&rules, &statuses]).collect()
}
