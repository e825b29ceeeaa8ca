//! Boundaries: at random near rounds, and chosen ones that tell wrong orders and steps apart.

use chain::voting;
use ergo_lib::chain::parameters::Parameter;

use super::random::Random;
use super::updates::{any, proposed};
use super::voting::{entries, near_round, settings, tally};
use crate::bytes::{question_bytes, tally_bytes};
use crate::call::Call;
use crate::rules::{self, Question, Tally};
use crate::table::{from_map, to_map, Map};

fn asked(question: &Question, tally: &[(i8, u32)], update: Vec<u8>) -> Call {
    Call::new("compute_boundary_parameters", [tally_bytes(tally), update, question_bytes(question)])
}

/// Near a round of a tally made for the settings' length. Now and then the height is that of version 2.
fn at_boundary(random: &mut Random, make: fn(&mut Random, u32) -> Tally) -> (Question, Tally) {
    let mut settings = settings(random);
    let tally = make(random, settings.voting_length);
    let (table, height) = near_round(random, &settings, &tally);
    if random.one_in(4) {
        settings.version2_activation_height = height;
    }
    (Question { settings, height, table, fork_vote: random.one_in(2) }, tally)
}

/// The update disables 409, or there is none.
pub fn plain(random: &mut Random) -> Vec<Call> {
    let (question, tally) = at_boundary(random, tally);
    vec![asked(&question, &tally, if random.one_in(2) { disabling(&[409]) } else { Vec::new() })]
}

pub fn with_update(random: &mut Random) -> Vec<Call> {
    let (question, tally) = at_boundary(random, tally);
    vec![asked(&question, &tally, any(random))]
}

pub fn over_list(random: &mut Random) -> Vec<Call> {
    let (question, tally) = at_boundary(random, entries);
    vec![asked(&question, &tally, proposed(random))]
}

fn disabling(rules: &[u16]) -> Vec<u8> {
    voting::encode_disabled_rules(rules)
}

/// Entries of which none repeats or contradicts another: up to some 25, most often for parameters and the fork alone.
fn consistent_entries(random: &mut Random, length: u32) -> Tally {
    let mut tally = Tally::new();
    let unknown = random.one_in(4);
    for _ in 0..random.pick(&[1, 2, 2, 3, 12]) {
        for (id, count) in entries(random, length) {
            let known = id == 120 || (1..=9).contains(&id.unsigned_abs());
            if (known || unknown) && tally.iter().all(|&(other, _)| id != other && id != other.wrapping_neg()) {
                tally.push((id, count));
            }
        }
    }
    tally
}

/// Two boundaries that differ in the order of such entries.
pub fn in_two_orders(random: &mut Random) -> [Call; 2] {
    let (question, tally) = at_boundary(random, consistent_entries);
    let update = proposed(random);
    let mut other = tally.clone();
    (1..other.len()).for_each(|i| other.swap(i, random.below(i + 1)));
    [tally, other].map(|tally| asked(&question, &tally, update.clone()))
}

/// More votes than half.
const ENOUGH: u32 = 513;

/// A boundary of mainnet so many epochs after its round opened, with 29,492 votes and these entries.
fn after(epochs: u32, entries: &[(i8, i32)]) -> Question {
    let mut map: Map = to_map(&rules::mainnet_table());
    map.extend([(121, 29_492), (122, 1_024)].iter().chain(entries).copied());
    Question { settings: rules::mainnet(), height: 1_024 + 1_024 * epochs, table: from_map(&map), fork_vote: false }
}

/// Mainnet where the round raises the version, so that the update is activated.
pub fn rising(tally: &[(i8, u32)], update: Vec<u8>) -> Call {
    asked(&after(64, &[]), tally, update)
}

/// Chosen boundaries of mainnet: each of them is answered otherwise where one rule is another.
pub fn chosen() -> Vec<Call> {
    let mut calls = Vec::new();
    let mut ask = |question: &Question, tally: &[(i8, u32)], update| calls.push(asked(question, tally, update));
    // All that happens to a round, approved or not, with and without a vote for the next one; and a total that wraps.
    for epochs in [1, 32, 33, 34, 64, 65] {
        for (total, fork_vote) in [(29_491, false), (29_491, true), (29_492, false), (29_492, true)] {
            ask(&Question { fork_vote, ..after(epochs, &[(121, total)]) }, &[], Vec::new());
        }
        ask(&after(epochs, &[(121, i32::MAX)]), &[(120, 1)], Vec::new());
    }
    // Versions that rise, some of them at the version-2 height: 1 rises to 2 and 0 to 1, which is then forced. The greatest one wraps.
    for (version, epochs) in [-1, 0, 1, 2, i32::MAX].into_iter().flat_map(|version| [(version, 63), (version, 64)]) {
        let mut question = after(epochs, &[(123, version)]);
        ask(&question, &[], Vec::new());
        question.settings.version2_activation_height = question.height;
        ask(&question, &[], Vec::new());
    }
    // Entry 9 at version 4: 409 counts only in an update that is activated, and a vote for an absent 9 comes before it is put in.
    for (epochs, version) in [(63, 4), (64, 3), (64, 4), (63, 3)] {
        let question = after(epochs, &[(123, version)]);
        [&[][..], &[409], &[215, 409], &[215]].iter().for_each(|rules| ask(&question, &[], disabling(rules)));
        [9, -9].iter().for_each(|&vote| ask(&question, &[(vote, ENOUGH)], Vec::new()));
        ask(&after(epochs, &[(123, version), (9, 30)]), &[(9, ENOUGH)], Vec::new());
    }
    // Each parameter at and beside its least and its greatest value, and between them, moved up and down.
    for id in 1..=9 {
        let [least, greatest] = [voting::parameter_min(id), voting::parameter_max(id)].map(|limit| limit.expect("a limit"));
        let mut moved = |vote, value| ask(&after(40, &[(id, value)]), &[(vote, ENOUGH)], Vec::new());
        [least, least + 1, 300, greatest].iter().for_each(|&value| moved(-id, value));
        [least, 199, 300, greatest - 1, greatest].iter().for_each(|&value| moved(id, value));
        ask(&after(40, &[(id, 300)]), &[(id, ENOUGH - 1)], Vec::new());
    }
    // docs/RULES.md, "In another order": where it matters, with parameter 1 at its greatest value and no parameter 2.
    let mut question = after(1, &[(1, 2_500_000)]);
    question.table.parameters_table.remove(&Parameter::MinValuePerByte);
    for (first, second) in [(-1, 1), (1, -1), (10, 2), (2, 10)] {
        ask(&question, &[(first, ENOUGH), (second, ENOUGH)], Vec::new());
    }
    calls
}
