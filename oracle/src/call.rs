//! A call of the exported library by its name, and its answer.

/// The name has no `ergo_`. The arguments are those of docs/VECTORS.md, "A row": bytes, or a number or list in bytes.
#[derive(Debug, Clone, PartialEq, Eq)]
pub struct Call {
    pub name: &'static str,
    pub arguments: Vec<Vec<u8>>,
}

impl Call {
    pub fn new<const N: usize>(name: &'static str, arguments: [Vec<u8>; N]) -> Call {
        Call { name, arguments: arguments.into() }
    }
}

/// A refusal's number or 0, and the bytes: what is written, a flag, or the id of 15.
#[derive(Debug, Clone, PartialEq, Eq)]
pub struct Answer {
    pub number: u8,
    pub bytes: Vec<u8>,
}

/// Why the Rust has no answer.
#[derive(Debug, Clone, Copy, PartialEq, Eq)]
pub enum Gap {
    /// The call meets 18, 22 or 24, or declares more than 65,536 fields: the rules alone answer it.
    Outside,
    /// The Rust can't be asked this.
    NoCounterpart,
}

pub type Given = Result<Answer, Gap>;
