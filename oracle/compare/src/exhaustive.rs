//! Inputs that are tried whole.

use oracle::bytes::{numbers, Input};
use oracle::call::{Answer, Call};
use oracle::inputs::random::Random;
use oracle::inputs::{bodies, updates};
use oracle::listing;
use oracle::rules::check_header;

use crate::report::Report;

pub fn all_headers(report: &mut Report, _: &mut Random) {
    listing::all().for_each(|votes| report.compare(&Call::new("check_header_votes", [votes.to_vec()])));
}

/// From the last header down: the next one is the last that the Rust accepted on the way.
pub fn next_headers(report: &mut Report, _: &mut Random) {
    let mut next = Vec::new();
    for votes in listing::all().rev().map(Vec::from) {
        let call = Call::new("next_legal_votes", [votes.clone()]);
        report.compare_with(&call, Ok(Answer { number: 0, bytes: next.clone() }));
        if check_header(Input(&votes).array()).is_ok() {
            next = votes;
        }
    }
}

/// Every string of up to so many bytes, the shorter ones first, then in ascending order.
fn short_strings(longest: u32) -> impl Iterator<Item = Vec<u8>> {
    (0..=longest).flat_map(|size| (0..1u32 << (8 * size)).map(move |n| n.to_be_bytes()[4 - size as usize..].to_vec()))
}

pub fn short_bodies(report: &mut Report, _: &mut Random) {
    for end in short_strings(2) {
        let body = [&[0xa5; 32][..], &end].concat();
        bodies::asked(&body, &[31, 32, 33]).for_each(|call| report.compare(&call));
    }
}

pub fn short_updates(report: &mut Report, _: &mut Random) {
    short_strings(3).for_each(|bytes| report.compare(&Call::new("parse_validation_settings_update", [bytes])));
    short_strings(2).for_each(|bytes| updates::asked(&bytes, [&[0, 1]; 2]).for_each(|call| report.compare(&call)));
}

pub fn tables(report: &mut Report, _: &mut Random) {
    (0..=0xffff).for_each(|rule| report.compare(&Call::new("rule_may_not_be_disabled", [numbers(&[rule])])));
    for byte in 0..=255 {
        for name in ["parameter_min", "parameter_max", "parameter_step", "default_parameters", "voting_config"] {
            report.compare(&Call::new(name, [vec![byte]]));
        }
    }
}
