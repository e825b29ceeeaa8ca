//! How many inputs were compared, and which is the shortest of those that differ.

use std::fmt;

use oracle::answers::answer;
use oracle::call::{Answer, Call, Gap, Given};
use oracle::text;

use crate::door;

/// How many characters of an input or an answer are printed. A longer input can be made anew from its seed.
const MOST_PRINTED: usize = 20_000;

#[derive(Default)]
pub struct Report {
    pub compared: u64,
    pub differ: u64,
    pub outside: u64,
    shortest: Option<Difference>,
}

/// An input, and what the Rust and the library answer.
type Difference = [String; 3];

impl Report {
    /// Hands a call to both sides.
    pub fn compare(&mut self, call: &Call) {
        self.compare_with(call, answer(call));
    }

    /// Hands a call to the library. One that the rules alone answer is counted and not compared; one that the Rust can't be asked ends
    /// the run, since no kind should have it.
    pub fn compare_with(&mut self, call: &Call, rust: Given) {
        let rust = match rust {
            Ok(rust) => rust,
            Err(Gap::Outside) => return self.outside += 1,
            Err(Gap::NoCounterpart) => panic!("no counterpart for {}", text::call(call)),
        };
        let library = door::differs(call, &rust);
        self.count(library.is_none(), || [text::call(call), text::answer(&rust), library.unwrap_or_default()]);
    }

    /// One that the rules alone answer, and that the library must refuse by this number.
    pub fn refused_outside(&mut self, number: u8, call: &Call) {
        assert_eq!(answer(call), Err(Gap::Outside), "{}", call.name);
        self.compare_with(call, Ok(Answer { number, bytes: Vec::new() }));
        self.compared -= 1;
        self.outside += 1;
    }

    /// Counts what was compared, and keeps the shortest input that differs.
    pub fn count(&mut self, same: bool, difference: impl FnOnce() -> Difference) {
        self.compared += 1;
        if same {
            return;
        }
        self.differ += 1;
        let difference = difference();
        if self.shortest.as_ref().is_none_or(|shortest| difference[0].len() < shortest[0].len()) {
            self.shortest = Some(difference);
        }
    }
}

impl fmt::Display for Report {
    fn fmt(&self, f: &mut fmt::Formatter<'_>) -> fmt::Result {
        write!(f, "{} compared, {} differ, {} outside", self.compared, self.differ, self.outside)?;
        let Some(shortest) = &self.shortest else { return Ok(()) };
        let [input, rust, library] = shortest.each_ref().map(|text| text.get(..MOST_PRINTED).unwrap_or(text));
        write!(f, "\n  {input}\n  the Rust    {rust}\n  the library {library}")
    }
}
