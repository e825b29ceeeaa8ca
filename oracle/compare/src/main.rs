//! `compare [SEED]`: feeds the Rust and the static library the same inputs, and compares the answers byte by byte. It prints a
//! line for each kind of inputs, and fails if an answer differs or a kind had no input. What the Rust has no function for is
//! written anew beside its own (`windows`, `steps`).

mod door;
mod exhaustive;
mod long;
mod orders;
mod report;
mod steps;
mod streams;
mod windows;

use std::process::ExitCode;

use oracle::inputs::random::Random;
use oracle::inputs::KINDS;
use report::Report;

type Run = fn(&mut Report, &mut Random);

/// The kinds that rows are not taken from.
const OTHERS: [(&str, Run); 11] = [
    ("header votes, all", exhaustive::all_headers),
    ("next legal header, all", exhaustive::next_headers),
    ("bodies of up to two bytes after the id, all", exhaustive::short_bodies),
    ("updates of up to three bytes, all", exhaustive::short_updates),
    ("rules, limits, settings and defaults, all", exhaustive::tables),
    ("tallies in two orders", orders::run),
    ("long lists", long::run),
    ("steps over long lists of records", steps::run),
    ("lines over streams", streams::run),
    ("windows, header by header", windows::header_by_header),
    ("windows, any cells", windows::any_cells),
];

fn main() -> ExitCode {
    let seed = std::env::args().nth(1).map_or(1, |word| word.parse().expect("a seed is a number"));
    println!("seed {seed}");
    let (mut all, mut whole) = (Report::default(), true);
    let mut print = |name: &str, run: &dyn Fn(&mut Report, &mut Random)| {
        let mut report = Report::default();
        run(&mut report, &mut Random(seed));
        println!("{name}: {report}");
        whole &= report.compared > 0;
        all.compared += report.compared;
        all.differ += report.differ;
        all.outside += report.outside;
    };
    OTHERS.iter().for_each(|(name, run)| print(name, run));
    for (name, times, make) in KINDS {
        print(name, &|report, random| (0..times).flat_map(|_| make(random)).for_each(|call| report.compare(&call)));
    }
    println!("{all}");
    ExitCode::from(u8::from(all.differ > 0 || !whole))
}
