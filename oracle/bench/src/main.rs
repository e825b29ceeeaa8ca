//! Times the port and the Rust over the same records in memory, a window of support beside counting it afresh, and program
//! `replay` beside `sha256sum`.

mod streams;
mod timing;
mod window;

use std::fs::{self, File};
use std::io;
use std::path::{Path, PathBuf};
use std::process::{Command, Stdio};

use ergo_voting::{Network, State, Table};
use oracle::record::HEADERS;
use oracle::replay::open_mainnet;
use streams::{Timed, EPOCHS};
use timing::{best, RUNS};

fn main() -> io::Result<()> {
    let streams = streams::all();
    println!("{EPOCHS} epochs in memory, the best of {RUNS} runs; no buffer is cleared between runs");
    streams.iter().for_each(in_memory);
    window::time();
    println!("end to end, from a file, the best of {RUNS} runs");
    let folder = Path::new("target/bench");
    fs::create_dir_all(folder)?;
    streams.iter().try_for_each(|stream| end_to_end(stream, folder))
}

fn in_memory(stream: &Timed) {
    let rust = best(|| replay_rust(&stream.records));
    let port = best(|| replay_port(&stream.records));
    println!("{}: Rust {}, port {}, ratio {:.1}", stream.name, speed(rust), speed(port), rust / port);
}

fn replay_rust(records: &[Vec<u8>]) {
    let replay = |state: oracle::replay::State, record: &Vec<u8>| state.replay(record).expect("a record that is accepted");
    let state = records.iter().fold(open_mainnet(), replay);
    assert_eq!(state.next as usize, (EPOCHS + 1) * HEADERS);
}

fn replay_port(records: &[Vec<u8>]) {
    let mut state = State::open(HEADERS as u32, &Table::default_parameters(Network::Mainnet)).expect("an opening at 1,024");
    records.iter().for_each(|record| state.replay(record).expect("a record that is accepted"));
    assert_eq!(state.next_height() as usize, (EPOCHS + 1) * HEADERS);
}

fn end_to_end(stream: &Timed, folder: &Path) -> io::Result<()> {
    let path = folder.join(stream.name).with_extension("records");
    fs::write(&path, stream.records.concat())?;
    let programs = [("crates/replay/out/replay", vec![]), ("sha256sum", vec![&path])];
    let [replay, sha] = programs.map(|(program, arguments)| 1e3 * best(|| run(program, &arguments, &path)));
    println!("{}: replay {replay:.1} ms, sha256sum {sha:.1} ms, ratio {:.1}", stream.name, sha / replay);
    Ok(())
}

fn run(program: &str, arguments: &[&PathBuf], input: &Path) {
    let input = File::open(input).expect("the stream's file");
    let status = Command::new(program).args(arguments).stdin(input).stdout(Stdio::null()).status();
    assert!(status.expect("a program that runs").success());
}

fn speed(seconds: f64) -> String {
    let headers = (EPOCHS * HEADERS) as f64;
    format!("{:.0} epochs a second, {:.2} ns a header", EPOCHS as f64 / seconds, seconds * 1e9 / headers)
}
