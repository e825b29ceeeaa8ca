//! Streams of records for program `replay`, with the lines that it prints for them.

pub mod accepted;
pub mod build;
mod case;
pub mod refused;

use std::fs;
use std::io;
use std::path::Path;

use case::Case;

const LARGEST_SUM: usize = 1_100_000;

pub fn cases() -> Vec<Case> {
    accepted::cases().into_iter().chain(refused::streams().iter().map(|refused| refused.case())).collect()
}

/// Writes NAME.records and NAME.lines for each case and for wrong lines, and answers a line for each and one for all.
pub fn write(folder: &Path) -> io::Result<Vec<String>> {
    fs::create_dir_all(folder)?;
    let (mut report, mut sum) = (Vec::new(), 0);
    let right = cases().into_iter().map(|case| (case.name, case.lines(), case.bytes));
    for (name, lines, records) in right.chain(case::wrong()) {
        fs::write(folder.join(format!("{name}.records")), &records)?;
        fs::write(folder.join(format!("{name}.lines")), &lines)?;
        report.push(format!("{name}: {} bytes, {}", records.len(), lines.lines().last().unwrap_or("no line")));
        sum += records.len() + lines.len();
    }
    assert!(sum <= LARGEST_SUM, "{sum} bytes in all");
    report.push(format!("{} streams, {sum} bytes", report.len()));
    Ok(report)
}
