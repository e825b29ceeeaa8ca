//! A stream with what must be printed for it.

use super::build::Stream;
use crate::replay::replay_stream;

/// A stream, and what its last line must say.
pub struct Case {
    pub name: &'static str,
    pub accepted: usize,
    pub refusal: u8,
    pub bytes: Vec<u8>,
}

impl Case {
    /// What is printed. A last line other than the one that the case was made for ends the run.
    pub fn lines(&self) -> String {
        let lines = replay_stream(&self.bytes);
        let end = format!("end {} {}\n", self.accepted, self.refusal);
        assert!(lines.ends_with(&end), "{}: not {end}{lines}", self.name);
        lines
    }
}

/// A quiet epoch under wrong lines, which must differ: another version, no last line, a line too many.
pub fn wrong() -> [(&'static str, String, Vec<u8>); 3] {
    let records = Stream::mainnet().quiet().bytes();
    let lines = replay_stream(&records);
    let long = lines.replace("end", "2048 1 - -\nend");
    let wrong =
        [("wrong", lines.replace("1024 1", "1024 2")), ("wrong_short", lines.replace("end 1 0\n", "")), ("wrong_long", long)];
    wrong.map(|(name, lines)| (name, lines, records.clone()))
}
