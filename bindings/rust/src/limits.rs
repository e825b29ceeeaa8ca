//! The limits and the fixed steps of the ordinary parameters. An id may be that of a vote: its sign is not looked at.

use crate::ffi;
use crate::refusal::accepted;
use crate::table::{value_of, VALUE_SIZE};

/// The least value from which a parameter is lowered; none where no parameter has the id.
pub fn parameter_min(id: i8) -> Option<i32> {
    limit(ffi::ergo_parameter_min, id)
}

/// The greatest value from which a parameter is raised; none where no parameter has the id.
pub fn parameter_max(id: i8) -> Option<i32> {
    limit(ffi::ergo_parameter_max, id)
}

/// A parameter's fixed step; none where it is computed, or no parameter has the id.
pub fn parameter_step(id: i8) -> Option<i32> {
    limit(ffi::ergo_parameter_step, id)
}

fn limit(ask: fn(i8, &mut [u8]) -> u8, id: i8) -> Option<i32> {
    let mut out = [0; VALUE_SIZE];
    accepted(ask(id, &mut out)).expect("room for a value");
    value_of(&out)
}
