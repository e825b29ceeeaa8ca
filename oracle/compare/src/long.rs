//! Lists at the lengths where the rules have their limits, and beyond them where they have none. The random inputs are short.

use oracle::bytes::{numbers, table_bytes};
use oracle::call::Call;
use oracle::inputs::random::Random;
use oracle::inputs::voting::any_table;
use oracle::inputs::writers::field;
use oracle::inputs::{bodies, boundaries, updates};
use oracle::rules;

use crate::report::Report;

const MOST: usize = 65_536;
const INPUT_LONG: u8 = 22;
const UPDATE: &str = "encode_validation_settings_update";
const HEADER_ID: [u8; 32] = [0xa5; 32];

pub fn run(report: &mut Report, random: &mut Random) {
    let long = [rules_to_write, statuses_to_write, fields_to_write, parameters, boundaries, bodies, updates, votes];
    long.into_iter().for_each(|run| run(report, random));
}

/// Compares a call over so many items, or has it refused where they are too many.
fn compare(report: &mut Report, items: usize, call: Call) {
    if items > MOST {
        report.refused_outside(INPUT_LONG, &call);
    } else {
        report.compare(&call);
    }
}

fn rules_to_write(report: &mut Report, random: &mut Random) {
    for count in [32_769, MOST - 1, MOST, MOST + 1] {
        let rules: Vec<u8> = (0..count).flat_map(|_| (random.number() as u16).to_be_bytes()).collect();
        compare(report, count, Call::new("encode_disabled_rules", [rules.clone()]));
        compare(report, count, Call::new(UPDATE, [rules, vec![], vec![], vec![], vec![]]));
    }
}

/// Statuses without raw bytes, and one with as many as it can have and more.
fn statuses_to_write(report: &mut Report, random: &mut Random) {
    for count in [32_769, MOST - 1, MOST, MOST + 1] {
        let ids = (0..count).flat_map(|_| (1_000 + random.below(128) as i16).to_be_bytes()).collect();
        compare(report, count, Call::new(UPDATE, [vec![], ids, random.bytes(count), vec![0; 4 * count], vec![]]));
    }
    for size in [MOST - 1, MOST] {
        let lists = [vec![], 1_000i16.to_be_bytes().into(), vec![9], numbers(&[size]), random.bytes(size)];
        compare(report, size + 1, Call::new(UPDATE, lists));
    }
}

fn fields_to_write(report: &mut Report, random: &mut Random) {
    for count in [32_769, MOST, MOST + 1] {
        let sizes: Vec<usize> = (0..count).map(|_| random.pick(&[0, 0, 0, 4, 64])).collect();
        let fields = sizes.into_iter().flat_map(|size| field(random, size)).collect();
        compare(report, count, Call::new("pack_extension_bytes", [HEADER_ID.into(), fields]));
    }
}

/// 70,000 parameters, most ids many times.
fn parameters(report: &mut Report, random: &mut Random) {
    let list: Vec<u8> = (0..70_000).flat_map(|_| [&[random.byte()], &random.number().to_be_bytes()[..]].concat()).collect();
    report.compare(&Call::new("pack_parameters_to_kv", [list.clone()]));
    report.compare(&Call::new("check_parameters_v6", [table_bytes(&any_table(random)), list]));
}

/// Entries that are approved and not, for known ids, so that none is refused; and one for an unknown id at the end.
fn boundaries(report: &mut Report, random: &mut Random) {
    for count in [MOST, MOST + 1, 70_000, 200_000] {
        let ids = [1, 2, 3, 4, 5, 6, 7, 8, 120, 121, -1, -2, -3, -4, -5, -6, -7, -8];
        let tally: Vec<(i8, u32)> = (0..count).map(|_| (random.pick(&ids), random.near(512))).collect();
        report.compare(&boundaries::rising(&tally, Vec::new()));
        report.compare(&boundaries::rising(&[tally, vec![(10, 513)]].concat(), Vec::new()));
    }
    [MOST, MOST + 1].into_iter().for_each(|size| compare(report, size, boundaries::rising(&[], long_update(size))));
}

/// Bodies of parameters and other fields, near and at the most bytes that one has.
fn bodies(report: &mut Report, random: &mut Random) {
    for size in [MOST - 1, MOST, MOST + 1] {
        let count = (size - 32 - 2) / 7;
        let mut body = [&HEADER_ID[..], &[count as u8 | 0x80, (count >> 7) as u8]].concat();
        (0..count).for_each(|_| body.extend([&[random.pick(&[0, 0, 1])], &field(random, 4)[1..]].concat()));
        body.resize(size, 0);
        let at = if size > MOST { vec![34] } else { bodies::fields_at(&body) };
        let taken = |call: &Call| size > MOST && call.name == "extract_disabling_rules_from_kv";
        bodies::asked(&body, &at).filter(|call| !taken(call)).for_each(|call| compare(report, size, call));
    }
}

/// Updates of the most bytes that one has: of rules, and of statuses.
fn updates(report: &mut Report, _: &mut Random) {
    let statuses = [&[0, 0xd4, 0xaa, 1][..], &[0, 0, 9].repeat(21_844)].concat();
    assert_eq!(statuses.len(), MOST);
    for update in [long_update(MOST), statuses, long_update(MOST - 1), long_update(MOST + 1)] {
        let [rules, statuses] = if update.len() > MOST { [vec![3], vec![3]] } else { updates::items_at(&update) };
        updates::asked(&update, [&rules, &statuses]).for_each(|call| compare(report, update.len(), call));
    }
}

/// So many bytes: 32,764 times the rule 409, no status, and bytes that are ignored.
fn long_update(size: usize) -> Vec<u8> {
    let mut update = rules::encode_rules(&[409; 32_764]).expect("rules that can be written");
    assert!(update.len() <= size);
    update.resize(size, 0xff);
    update
}

/// Windows at their limit, and headers, of which there may be any number.
fn votes(report: &mut Report, random: &mut Random) {
    for count in [MOST - 1, MOST, MOST + 1] {
        let window = (0..count).flat_map(|_| random.pick(&[[1, 0, 120], [0, 0, 0], [120, 0, 1], [1, 1, 2]])).collect();
        let [first, boundary] = [0, count].map(|number| numbers(&[number]));
        compare(report, count, Call::new("tally_votes_seeded", [first, window, boundary.clone(), boundary]));
    }
    for (count, last) in [(MOST, 0), (MOST, 128), (69_999, 0), (69_999, 128)] {
        let legal = (0..count).flat_map(|_| random.pick(&[[1, 2, 120], [0, 0, 0], [0xff, 0, 2]]));
        report.compare(&Call::new("check_headers", [legal.chain([0, 0, last]).collect()]));
    }
}
