//! What no row says: a year's steps, the ends of streams, and what a row is.

use std::collections::BTreeSet;

use oracle::call::{Answer, Call};
use oracle::rules::{self, Question};
use oracle::table::{from_map, to_map, Map};
use oracle::{streams, text};

/// docs/RULES.md, "Steps over the years": parameter 4 moved the same way at 257 boundaries.
#[test]
fn year_of_steps() {
    let moved = |value, vote| {
        let table = from_map(&Map::from([(4, value), (123, 1)]));
        let question = Question { settings: rules::mainnet(), height: 2048, table, fork_vote: false };
        to_map(&rules::boundary(&question, &[(vote, 1024)], &[]).expect("a table").0)[&4]
    };
    let year = |vote| (0..257).fold(1_000_000, |value, _| moved(value, vote));
    assert_eq!([year(4), year(-4)], [12_899_538, 75_599]);
}

/// Every stream ends as it was made for.
#[test]
fn ends_of_streams() {
    let cases = streams::cases();
    cases.iter().for_each(|case| drop(case.lines()));
    let met: BTreeSet<u8> = cases.iter().map(|case| case.refusal).collect();
    assert_eq!(met.into_iter().collect::<Vec<_>>(), [0, 1, 2, 3, 4, 5, 6, 7, 8, 9, 10, 11, 12, 13, 14, 15, 25, 26]);
}

#[test]
fn rows_are_read_back() {
    let names = ["check_body", "check_parameters_v6"];
    let call = Call::new(names[1], [vec![0, 255], Vec::new()]);
    let read = |line: &str| text::read(line, &names);
    let row = text::row(&call, &Answer { number: 15, bytes: vec![0x7b] });
    assert_eq!(row, "check_parameters_v6 00ff - = 15 7b\n");
    assert_eq!(read(row.trim_end()), Some((call, Answer { number: 15, bytes: vec![0x7b] })));
    assert_eq!(read("check_body 00*2+01 = 01").map(|(call, _)| call.arguments), Some(vec![vec![0, 0, 1]]));
    for wrong in ["- = 1", "0 = 01", "-  = 01", "- =01", "A0 = 01", "00*x = 01", "00+ = 01", "- = 00 ", "- = 00 -", "- = +1"] {
        assert_eq!(read(&format!("check_body {wrong}")), None, "{wrong}");
    }
}
