//! Settings updates, read.

use std::ops::Range;

use crate::bytes::{numbers, Section, SECTION_SIZE};
use crate::ffi;
use crate::refusal::{accepted, Refusal};

pub const UPDATE_SIZE: usize = 2 * SECTION_SIZE;

const RULE_SIZE: usize = 8;
const STATUS_SIZE: usize = 16;

/// An update that was read: its bytes, and where its rules and statuses stand in them.
#[derive(Debug, Clone, Copy, PartialEq, Eq)]
pub struct Update<'a> {
    bytes: &'a [u8],
    rules: Section,
    statuses: Section,
}

/// The status of a rule.
#[derive(Debug, Clone, PartialEq, Eq, Hash)]
pub struct Status {
    pub rule: i16,
    pub code: u8,
    pub raw: Vec<u8>,
}

impl<'a> Update<'a> {
    pub(crate) fn from_bytes(places: &[u8], bytes: &'a [u8]) -> Update<'a> {
        let (rules, statuses) = places.split_at(SECTION_SIZE);
        Update { bytes, rules: Section::from_bytes(rules), statuses: Section::from_bytes(statuses) }
    }

    /// The rules that it disables.
    pub fn rules(&self) -> Vec<u16> {
        let mut at = self.rules.begin;
        let mut next = || {
            let place = rule_at(self.bytes, at).expect("a rule that was read");
            at = place.next;
            place.rule
        };
        (0..self.rules.count).map(|_| next()).collect()
    }

    pub fn statuses(&self) -> Vec<Status> {
        let mut at = self.statuses.begin;
        let mut next = || {
            let place = status_at(self.bytes, at).expect("a status that was read");
            at = place.raw.end;
            Status { rule: place.rule, code: place.code, raw: self.bytes[place.raw].to_vec() }
        };
        (0..self.statuses.count).map(|_| next()).collect()
    }

    /// Where the rules stand.
    pub fn rules_section(&self) -> Section {
        self.rules
    }

    /// Where the statuses stand.
    pub fn statuses_section(&self) -> Section {
        self.statuses
    }
}

/// Reads an update: 22, 7, 8.
pub fn parse_validation_settings_update(bytes: &[u8]) -> Result<Update<'_>, Refusal> {
    let mut out = [0; UPDATE_SIZE];
    accepted(ffi::ergo_parse_validation_settings_update(bytes, &mut out))?;
    Ok(Update::from_bytes(&out, bytes))
}

/// A rule of an update, and where the next one stands.
#[derive(Debug, Clone, Copy, PartialEq, Eq)]
pub struct RulePlace {
    pub rule: u16,
    pub next: usize,
}

/// The rule at a position of an update: 22, 7.
pub fn rule_at(bytes: &[u8], at: usize) -> Result<RulePlace, Refusal> {
    let mut out = [0; RULE_SIZE];
    accepted(ffi::ergo_rule_at(bytes, at, &mut out))?;
    let [rule, next] = numbers(&out);
    Ok(RulePlace { rule: rule as u16, next: next as usize })
}

/// A status of an update. The next one stands where its raw bytes end.
#[derive(Debug, Clone, PartialEq, Eq)]
pub struct StatusPlace {
    pub rule: i16,
    pub code: u8,
    pub raw: Range<usize>,
}

/// The status at a position of an update: 22, 7.
pub fn status_at(bytes: &[u8], at: usize) -> Result<StatusPlace, Refusal> {
    let mut out = [0; STATUS_SIZE];
    accepted(ffi::ergo_status_at(bytes, at, &mut out))?;
    let [rule, code, begin, end] = numbers(&out);
    Ok(StatusPlace { rule: rule as u16 as i16, code: code as u8, raw: begin as usize..end as usize })
}

/// Whether a rule is mandatory.
pub fn rule_may_not_be_disabled(id: i32) -> bool {
    ffi::ergo_rule_may_not_be_disabled(id) != 0
}
