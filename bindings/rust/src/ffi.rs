//! The functions of target/staticlib/libexports.a, by the names and the arguments that crates/exports/src has.
//!
//! bindings/c/ergo_voting.h says what each does, in which bytes, and what it answers. A `usize` of theirs that can be minus a
//! refusal's number is an `i64` here. No function asks anything of its caller, so all of them are safe.

use crate::entry::Entry;

/// Declares functions of the library, and under the same name safe ones over them. A slice crosses as its pointer and its length.
macro_rules! library {
    ($(fn $name:ident($($arguments:tt)*) -> $answer:ty;)*) => {
        $(library!(@ $name, $answer, ($($arguments)*), ($($arguments)*,), (), ());)*
    };
    (@ $name:ident, $answer:ty, $all:tt, ($x:ident: &mut [$item:ty], $($rest:tt)*), ($($c:tt)*), ($($given:tt)*)) => {
        library!(@ $name, $answer, $all, ($($rest)*),
            ($($c)* $x: *mut $item, _: usize,), ($($given)* $x.as_mut_ptr(), $x.len(),));
    };
    (@ $name:ident, $answer:ty, $all:tt, ($x:ident: &[$item:ty], $($rest:tt)*), ($($c:tt)*), ($($given:tt)*)) => {
        library!(@ $name, $answer, $all, ($($rest)*),
            ($($c)* $x: *const $item, _: usize,), ($($given)* $x.as_ptr(), $x.len(),));
    };
    (@ $name:ident, $answer:ty, $all:tt, ($x:ident: $number:ty, $($rest:tt)*), ($($c:tt)*), ($($given:tt)*)) => {
        library!(@ $name, $answer, $all, ($($rest)*), ($($c)* $x: $number,), ($($given)* $x,));
    };
    (@ $name:ident, $answer:ty, ($($arguments:tt)*), (), ($($c:tt)*), ($($given:tt)*)) => {
        pub fn $name($($arguments)*) -> $answer {
            extern "C" {
                fn $name($($c)*) -> $answer;
            }
            // SAFETY: the library reads as many items as a length says, and writes to none but those of a `&mut` slice, which
            // overlaps no other. All slices live as long as the call, and no pointer is kept. Any bytes written are numbers.
            unsafe { $name($($given)*) }
        }
    };
}

library! {
    fn ergo_default_parameters(network: u8, out: &mut [u8]) -> u8;
    fn ergo_table_parameters(table: &[u8], out: &mut [u8]) -> i64;
    fn ergo_voting_config(network: u8, out: &mut [u8]) -> u8;
    fn ergo_soft_fork_approved(settings: &[u8], votes: i32) -> u8;
    fn ergo_change_approved(settings: &[u8], votes: u32) -> u8;
    fn ergo_parameter_min(id: i8, out: &mut [u8]) -> u8;
    fn ergo_parameter_max(id: i8, out: &mut [u8]) -> u8;
    fn ergo_parameter_step(id: i8, out: &mut [u8]) -> u8;

    fn ergo_check_header_votes(votes: &[u8]) -> u8;
    fn ergo_check_headers(votes: &[u8]) -> u8;
    fn ergo_next_legal_votes(votes: &[u8], out: &mut [u8]) -> i64;
    fn ergo_tally_votes_seeded(first_height: u32, votes: &[u8], boundary_height: u32, voting_length: u32, out: &mut [u8]) -> u8;
    fn ergo_check_fork_vote(settings: &[u8], height: u32, votes: &[u8], table: &[u8]) -> u8;

    fn ergo_window_new(length: u32, cells: &mut [u16]) -> i64;
    fn ergo_window_put(window: u64, cells: &mut [u16], votes: &[u8]) -> i64;

    fn ergo_compute_boundary_parameters(tally: &[Entry], proposed_update: &[u8], question: &[u8], out: &mut [u8]) -> u8;
    fn ergo_check_parameters_v6(table: &[u8], parameters: &[u8]) -> u16;
    fn ergo_check_block_version(table: &[u8], version: u8) -> u8;

    fn ergo_check_body(bytes: &[u8]) -> u8;
    fn ergo_parse_extension_bytes(bytes: &[u8], out: &mut [u8]) -> u8;
    fn ergo_field_at(bytes: &[u8], at: usize, out: &mut [u8]) -> u8;
    fn ergo_parse_parameters_from_kv(bytes: &[u8], out: &mut [u8]) -> i64;
    fn ergo_extract_disabling_rules_from_kv(bytes: &[u8], out: &mut [u8]) -> i64;

    fn ergo_parse_validation_settings_update(bytes: &[u8], out: &mut [u8]) -> u8;
    fn ergo_rule_at(bytes: &[u8], at: usize, out: &mut [u8]) -> u8;
    fn ergo_status_at(bytes: &[u8], at: usize, out: &mut [u8]) -> u8;
    fn ergo_rule_may_not_be_disabled(id: i32) -> u8;

    fn ergo_pack_extension_bytes(header_id: &[u8], fields: &[u8], out: &mut [u8]) -> i64;
    fn ergo_pack_fields(keys: &[u8], sizes: &[u32], values: &[u8], out: &mut [u8]) -> i64;
    fn ergo_pack_parameters_to_kv(parameters: &[u8], out: &mut [u8]) -> i64;
    fn ergo_encode_validation_settings_update(
        rules: &[u16],
        ids: &[i16],
        codes: &[u8],
        sizes: &[u32],
        raw: &[u8],
        out: &mut [u8]
    ) -> i64;
    fn ergo_encode_disabled_rules(rules: &[u16], out: &mut [u8]) -> i64;

    fn ergo_open(height: u32, table: &[u8], state: &mut [u8]) -> u8;
    fn ergo_replay(state: &mut [u8], rec: &[u8]) -> u16;
    fn ergo_read_record(bytes: &[u8], votes_size: usize, out: &mut [u8]) -> i64;
    fn ergo_write_head(out: &mut [u8]) -> i64;
    fn ergo_write_epoch(height: u32, table: &[u8], out: &mut [u8]) -> i64;
    fn ergo_write_end(accepted: u32, refusal: u8, out: &mut [u8]) -> i64;
}
