//! From what the Rust says to the numbers of docs/RULES.md.

use chain::ChainError;
use validation::ValidationError;

use crate::table;

/// A refusal: its number, and for 15 the ids that it may carry, the least first.
#[derive(Debug, Clone, PartialEq, Eq)]
pub struct Refusal {
    pub number: u8,
    pub ids: Vec<i8>,
}

/// Refuses by a number that the oracle decides itself.
pub fn refuse<T>(number: u8) -> Result<T, Refusal> {
    Err(by_number(number))
}

fn by_number(number: u8) -> Refusal {
    Refusal { number, ids: Vec::new() }
}

/// An error of the Rust: its variant, how its text begins, what else stands in it, and the number. The first row that fits
/// counts. Not in the Rust are 12 (its fork check says no), 18, 21, 22, 24 (the rules alone), 25 and 26 (the replay).
pub const ERRORS: [(&str, &str, &str, u8); 21] = [
    ("ExtensionParse", "extension body too short: ", "", 1),
    ("ExtensionParse", "VLQ field_count: ", "", 2),
    ("ExtensionParse", "truncated field header for field ", "", 3),
    ("ExtensionParse", "field ", " exceeds max 64", 4),
    ("ExtensionParse", "truncated field ", " value at offset ", 5),
    ("ExtensionParse", "param id ", " has wrong value length: ", 6),
    ("ExtensionParse", "settings update: trying to deactivate rule ", ", that may not be disabled", 8),
    ("ExtensionParse", "settings update: ", "", 7),
    ("Voting", "hdrVotesNumber (212): ", "", 9),
    ("Voting", "hdrVotesDuplicates (213): ", "", 10),
    ("Voting", "hdrVotesContradictory (214): ", "", 11),
    ("Voting", "approved vote for unknown parameter id ", "", 13),
    ("Voting", "approved vote for parameter id ", " absent from table ", 14),
    ("ParameterMismatch", "", "", 15),
    ("BlockVersionMismatch", "", "", 16),
    ("Voting", "voting_length must be > 0", "", 17),
    ("Voting", "SoftForkVotesCollected (121) absent ", "", 19),
    ("Voting", "BlockVersion missing from parameters table at soft-fork activation", "", 20),
    ("Voting", "BlockVersion missing from parameters table at forced-v2 height", "", 20),
    ("StateOperationFailed", "governing parameters table has no BlockVersion entry ", "", 20),
    ("Voting", "settings update encode: status update rule id ", " is below FIRST_RULE_ID ", 23),
];

/// The refusal of the first row that fits. An error without a row ends the run: nothing is guessed.
fn by_error(variant: &str, text: &str) -> Refusal {
    let fits = |row: &&(&str, &str, &str, u8)| row.0 == variant && text.starts_with(row.1) && text.contains(row.2);
    by_number(ERRORS.iter().find(fits).unwrap_or_else(|| panic!("no number for {variant}: {text}")).3)
}

impl From<ChainError> for Refusal {
    fn from(error: ChainError) -> Refusal {
        match &error {
            ChainError::ExtensionParse(text) => by_error("ExtensionParse", text),
            ChainError::Voting(text) => by_error("Voting", text),
            other => panic!("no number for {other:?}"),
        }
    }
}

impl From<ValidationError> for Refusal {
    fn from(error: ValidationError) -> Refusal {
        match &error {
            ValidationError::ParameterMismatch { expected, actual, .. } => {
                Refusal { ids: table::differing(expected, actual), ..by_error("ParameterMismatch", "") }
            }
            ValidationError::BlockVersionMismatch { .. } => by_error("BlockVersionMismatch", ""),
            ValidationError::StateOperationFailed(text) => by_error("StateOperationFailed", text),
            other => panic!("no number for {other:?}"),
        }
    }
}
