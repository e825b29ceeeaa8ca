//! Refusals.

use std::fmt;
use std::mem::discriminant;

/// Why a call is turned down. docs/RULES.md says who can meet which.
#[derive(Debug, Clone, Copy, PartialEq, Eq, Hash)]
pub enum Refusal {
    BodyShort,
    CountUnreadable,
    FieldHeaderCut,
    ValueLong,
    ValueCut,
    ParameterSize,
    UpdateUnreadable,
    MandatoryDisabled,
    TooManyVotes,
    RepeatedVote,
    ContradictoryVote,
    ForkVoteBarred,
    UnknownParameter,
    AbsentParameter,
    /// With the least id that differs.
    EntryDiffers {
        id: u8,
    },
    BlockVersionDiffers,
    VotingLengthZero,
    SettingLarge,
    VotesCollectedAbsent,
    BlockVersionAbsent,
    OutputShort,
    InputLong,
    StatusRuleLow,
    WrittenValueLong,
    RecordMalformed,
    HeightUnexpected,
    WindowLengthOutside,
}

use Refusal::*;

/// Each with its number and its words in docs/RULES.md, in the order of the numbers.
const ALL: [(u8, Refusal, &str); 27] = [
    (1, BodyShort, "a body has fewer than 32 bytes"),
    (2, CountUnreadable, "the number of fields can't be read"),
    (3, FieldHeaderCut, "a field's key or length is cut"),
    (4, ValueLong, "a field's value is declared longer than 64 bytes"),
    (5, ValueCut, "a field's value is cut"),
    (6, ParameterSize, "a parameter's value is not 4 bytes"),
    (7, UpdateUnreadable, "a settings update can't be read"),
    (8, MandatoryDisabled, "a settings update disables a mandatory rule"),
    (9, TooManyVotes, "a header has more than two ordinary votes (Ergo's rule 212)"),
    (10, RepeatedVote, "a header repeats a vote (rule 213)"),
    (11, ContradictoryVote, "a header has a vote beside its negation (rule 214)"),
    (12, ForkVoteBarred, "a fork vote where none is allowed"),
    (13, UnknownParameter, "an approved vote for an unknown id"),
    (14, AbsentParameter, "an approved vote for a parameter that is absent"),
    (15, EntryDiffers { id: 0 }, "a computed entry is missing or different in the extension"),
    (16, BlockVersionDiffers, "a block's version is not the table's"),
    (17, VotingLengthZero, "the voting length is 0"),
    (18, SettingLarge, "a length or a number of epochs is above 65,535"),
    (19, VotesCollectedAbsent, "entry 121 is absent where it is needed"),
    (20, BlockVersionAbsent, "entry 123 is absent where it is needed"),
    (21, OutputShort, "the output can't hold all that is to be written"),
    (
        22,
        InputLong,
        "a body or update over 65,536 bytes, a window over 65,536 headers, more than 65,536 rules, statuses or fields to write, \
         or over 65,535 bytes in one status",
    ),
    (23, StatusRuleLow, "a status with a rule id under 1,000 is to be written"),
    (24, WrittenValueLong, "a value over 64 bytes is to be written"),
    (25, RecordMalformed, "a record is malformed"),
    (26, HeightUnexpected, "a height is not the expected one, or past the last one allowed"),
    (33, WindowLengthOutside, "a window for support is to span no header, or more than 4,096"),
];

impl Refusal {
    /// Its number in docs/RULES.md.
    pub fn number(self) -> u8 {
        self.listed().0
    }

    fn listed(self) -> &'static (u8, Refusal, &'static str) {
        let same = |(_, refusal, _): &&(u8, Refusal, &str)| discriminant(refusal) == discriminant(&self);
        ALL.iter().find(same).expect("all refusals are listed")
    }

    /// The refusal of a number, and the id that 15 has. The library is proved to answer with no other number: one means that
    /// another library was linked, and ends the run.
    fn of(number: u8, id: u8) -> Refusal {
        match ALL.iter().find(|(listed, ..)| *listed == number) {
            Some((_, EntryDiffers { .. }, _)) => EntryDiffers { id },
            Some((_, refusal, _)) => *refusal,
            None => panic!("the library answered {number}, which is no refusal"),
        }
    }
}

impl fmt::Display for Refusal {
    fn fmt(&self, f: &mut fmt::Formatter<'_>) -> fmt::Result {
        let words = self.listed().2;
        match self {
            EntryDiffers { id } => write!(f, "{words}: id {id}"),
            _ => f.write_str(words),
        }
    }
}

impl std::error::Error for Refusal {}

/// An answer that is 0 or a refusal's number.
pub fn accepted(answer: u8) -> Result<(), Refusal> {
    accepted_with_id(answer.into())
}

/// An answer that is 0, or a refusal's number and 256 times the id of 15.
pub fn accepted_with_id(answer: u16) -> Result<(), Refusal> {
    let [id, number] = answer.to_be_bytes();
    match number {
        0 => Ok(()),
        number => Err(Refusal::of(number, id)),
    }
}

/// An answer that is a size, or minus a refusal's number.
pub fn sized(answer: i64) -> Result<usize, Refusal> {
    numbered(answer).map(|size| size as usize)
}

/// An answer that is any number, or minus a refusal's.
pub fn numbered(answer: i64) -> Result<u64, Refusal> {
    u64::try_from(answer).map_err(|_| Refusal::of(u8::try_from(answer.unsigned_abs()).unwrap_or(u8::MAX), 0))
}
