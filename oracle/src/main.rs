//! `oracle record CRATES`, `oracle check FILE..`, `oracle replay`.

use std::fs::File;
use std::io::{self, BufWriter, Read};
use std::path::Path;
use std::process::ExitCode;

use oracle::{listing, replay, rows, streams};

fn main() -> io::Result<ExitCode> {
    let arguments: Vec<String> = std::env::args().skip(1).collect();
    match arguments.iter().map(String::as_str).collect::<Vec<_>>()[..] {
        ["record", crates] => record(Path::new(crates))?,
        ["check", ref files @ ..] if !files.is_empty() => return check(files),
        ["replay"] => {
            let mut bytes = Vec::new();
            io::stdin().read_to_end(&mut bytes)?;
            print!("{}", replay::replay_stream(&bytes));
        }
        _ => {
            eprintln!("oracle record CRATES | oracle check FILE.. | oracle replay");
            return Ok(ExitCode::from(2));
        }
    }
    Ok(ExitCode::SUCCESS)
}

fn print_lines(lines: &[String]) {
    lines.iter().for_each(|line| println!("{line}"));
}

/// Writes all that is recorded of the Rust, in the folder of the repository's crates.
fn record(crates: &Path) -> io::Result<()> {
    print_lines(&rows::write(&crates.join("vectors/data/rust.rows"))?);
    print_lines(&streams::write(&crates.join("replay_streams/data"))?);
    listing::write(&mut BufWriter::new(File::create(crates.join("legal_votes/stdout"))?))
}

/// Fails where a row differs.
fn check(files: &[&str]) -> io::Result<ExitCode> {
    let reports = files.iter().map(|file| rows::check(Path::new(file))).collect::<io::Result<Vec<_>>>()?;
    reports.iter().for_each(|(lines, _)| print_lines(lines));
    Ok(ExitCode::from(u8::from(reports.iter().any(|(_, differ)| *differ > 0))))
}
