//! Thin functions over the Rust's own. A test marked "the rules alone" is ours: the Rust has none, or can't be run there. 21 can't be
//! met: no output is lent.

use chain::voting::{self, ExtensionField, ValidationSettingsUpdate, VotingConfig};
use chain::Network;
use ergo_chain_types::{BlockId, Digest32};
use ergo_lib::chain::parameters::Parameters;
use sigma_ser::vlq_encode::{ReadSigmaVlqExt, WriteSigmaVlqExt};
use validation::checks;

use crate::refusal::{refuse, Refusal};
use crate::table::{self, Map};

pub type Votes = [u8; 3];
pub type Tally = Vec<(i8, u32)>;

/// What a boundary is asked beside its tally and update.
#[derive(Clone)]
pub struct Question {
    pub settings: VotingConfig,
    pub height: u32,
    pub table: Parameters,
    pub fork_vote: bool,
}

pub const MOST: usize = 65_536;
const LONGEST_VALUE: usize = 64;
const LONGEST_STATUS: usize = 65_535;

pub fn check_header(votes: Votes) -> Result<(), Refusal> {
    Ok(voting::check_header_votes(votes)?)
}

pub fn tally(window: &[(u32, Votes)], boundary: u32, length: u32) -> Result<Tally, Refusal> {
    at_most(window.len(), MOST)?;
    Ok(voting::tally_votes_seeded(window, boundary, length))
}

/// Refuses by 7 or 8, 17, 18, then as met. The Rust tests the update and 17 before it computes with the settings, so 18
/// stands between two of its calls.
pub fn boundary(q: &Question, tally: &[(i8, u32)], update: &[u8]) -> Result<(Parameters, ValidationSettingsUpdate), Refusal> {
    parse_update(update)?;
    if q.settings.voting_length != 0 {
        settings_small(&q.settings)?;
    }
    Ok(voting::compute_boundary_parameters(&q.settings, q.height, &q.table, tally, q.fork_vote, update)?)
}

/// Whether the header may vote as it does: 12 if not.
pub fn fork_check(settings: &VotingConfig, height: u32, votes: Votes, table: &Parameters) -> Result<(), Refusal> {
    settings_small(settings)?;
    match voting::check_fork_vote(settings, height, votes, table)? {
        true => Ok(()),
        false => refuse(12),
    }
}

pub fn parse_body(body: &[u8]) -> Result<Vec<ExtensionField>, Refusal> {
    at_most(body.len(), MOST)?;
    Ok(voting::parse_extension_bytes(&with_count_lowered(body))?.1)
}

/// The number of fields that a body declares, and what follows it.
pub fn declared(body: &[u8]) -> Option<(usize, &[u8])> {
    let mut rest = body.get(32..)?;
    let count = rest.get_u32().ok()?;
    Some((count as usize, rest))
}

/// The rules alone: the Rust reserves memory by the declared count. A body that declares more than 65,536 fields is handed
/// to it with 65,536 declared. It has room for fewer than 22,000, so both end at the same field, by 3, 4 or 5.
fn with_count_lowered(body: &[u8]) -> Vec<u8> {
    let Some((_, rest)) = declared(body).filter(|(count, _)| *count > MOST) else { return body.to_vec() };
    let mut lowered = body[..32].to_vec();
    lowered.put_u32(MOST as u32).expect("write to memory");
    [&lowered[..], rest].concat()
}

/// The parameters of a body, and its proposed update.
pub fn body_parameters(body: &[u8]) -> Result<(Map, Vec<u8>), Refusal> {
    let fields = parse_body(body)?;
    Ok((voting::parse_parameters_from_kv(&fields)?, voting::extract_disabling_rules_from_kv(&fields)))
}

/// The rules alone: 24. The Rust cuts a longer length to a byte.
pub fn pack_body(id: [u8; 32], fields: &[ExtensionField]) -> Result<Vec<u8>, Refusal> {
    at_most(fields.len(), MOST)?;
    if fields.iter().any(|(_, value)| value.len() > LONGEST_VALUE) {
        return refuse(24);
    }
    Ok(voting::pack_extension_bytes(&BlockId(Digest32(id)), fields))
}

/// The fields that carry a table.
pub fn fields(table: &Parameters) -> Vec<ExtensionField> {
    voting::pack_parameters_to_kv(&table::to_map(table))
}

pub fn parse_update(bytes: &[u8]) -> Result<ValidationSettingsUpdate, Refusal> {
    at_most(bytes.len(), MOST)?;
    Ok(voting::parse_validation_settings_update(bytes)?)
}

pub fn encode_update(update: &ValidationSettingsUpdate) -> Result<Vec<u8>, Refusal> {
    at_most(update.rules.len().max(update.statuses.len()), MOST)?;
    update.statuses.iter().try_for_each(|(_, status)| at_most(status.data.len(), LONGEST_STATUS))?;
    Ok(voting::encode_validation_settings_update(update)?)
}

pub fn encode_rules(rules: &[u16]) -> Result<Vec<u8>, Refusal> {
    at_most(rules.len(), MOST)?;
    Ok(voting::encode_disabled_rules(rules))
}

/// The Rust's table of mandatory rules is private: an update that disables the rule alone tells.
pub fn mandatory(rule: u16) -> bool {
    voting::parse_validation_settings_update(&voting::encode_disabled_rules(&[rule])).is_err()
}

/// The computed table against the parameters of a body. Height, version and updates have no part in the Rust's answer.
pub fn match_parameters(computed: &Parameters, found: &Map) -> Result<(), Refusal> {
    Ok(checks::check_parameters_v6(computed, &table::from_map(found), 0, 0, &[], &[])?)
}

pub fn block_version(table: &Parameters, version: u8) -> Result<(), Refusal> {
    Ok(checks::check_block_version(table, version, 0)?)
}

pub fn mainnet() -> VotingConfig {
    VotingConfig::mainnet()
}

pub fn mainnet_table() -> Parameters {
    voting::default_parameters(Network::Mainnet)
}

/// The rules alone: 22.
pub fn at_most(count: usize, most: usize) -> Result<(), Refusal> {
    match count <= most {
        true => Ok(()),
        false => refuse(22),
    }
}

/// The rules alone: 18. The Rust's products can pass 64 bits.
pub fn settings_small(s: &VotingConfig) -> Result<(), Refusal> {
    match s.voting_length.max(s.soft_fork_epochs).max(s.activation_epochs) {
        0..=65_535 => Ok(()),
        _ => refuse(18),
    }
}
