//! Bodies, fields, parameters and updates written: into a new vector, or from the start of a buffer that is lent, with how many bytes were
//! written as the answer. A buffer that is too short is 21; a call that is refused changes no cell of it.

use crate::body::{fields_of, parameters_bytes, Field, Parameters};
use crate::bytes::Section;
use crate::ffi;
use crate::refusal::{sized, Refusal};
use crate::update::Status;

/// The most bytes of what the writers write: a number of fields, rules or statuses, and a number of 16 bits.
const COUNT_SIZE_MOST: usize = 3;
const U16_SIZE_MOST: usize = 3;

const HEADER_ID_SIZE: usize = 32;

/// A field's key and length, and a parameter as a field: key, length, number.
const FIELD_HEADER_SIZE: usize = 3;
const PARAMETER_FIELD_SIZE: usize = 7;

/// A body: 22, 24.
pub fn pack_extension_bytes(header_id: &[u8; 32], fields: &[Field]) -> Result<Vec<u8>, Refusal> {
    let fields = pack_fields(fields)?;
    let most = HEADER_ID_SIZE + COUNT_SIZE_MOST + fields.len();
    written(most, |out| sized(ffi::ergo_pack_extension_bytes(header_id, &fields, out)))
}

/// A body: 22, 24, 21.
pub fn pack_extension_bytes_into(header_id: &[u8; 32], fields: &[Field], out: &mut [u8]) -> Result<usize, Refusal> {
    sized(ffi::ergo_pack_extension_bytes(header_id, &pack_fields(fields)?, out))
}

/// Fields as they stand in a body, one after another: 22, 24.
pub fn pack_fields(fields: &[Field]) -> Result<Vec<u8>, Refusal> {
    let values: usize = fields.iter().map(|field| field.value.len()).sum();
    written(FIELD_HEADER_SIZE * fields.len() + values, |out| pack_fields_into(fields, out))
}

/// Fields as they stand in a body, one after another: 22, 24, 21.
pub fn pack_fields_into(fields: &[Field], out: &mut [u8]) -> Result<usize, Refusal> {
    let keys: Vec<u8> = fields.iter().flat_map(|field| field.key).collect();
    let sizes: Vec<u32> = fields.iter().map(|field| size_of(&field.value)).collect();
    let values: Vec<u8> = fields.iter().flat_map(|field| field.value.iter().copied()).collect();
    sized(ffi::ergo_pack_fields(&keys, &sizes, &values, out))
}

/// Parameters as fields, in the order of their ids and without 124.
pub fn pack_parameters_to_kv(parameters: &Parameters) -> Vec<Field> {
    let most = PARAMETER_FIELD_SIZE * parameters.len();
    let bytes = written(most, |out| pack_parameters_to_kv_into(parameters, out)).expect("room for all parameters");
    let count = (bytes.len() / PARAMETER_FIELD_SIZE) as u32;
    fields_of(&bytes, Section { count, begin: 0, end: bytes.len() })
}

/// The same as the fields stand in a body: 21.
pub fn pack_parameters_to_kv_into(parameters: &Parameters, out: &mut [u8]) -> Result<usize, Refusal> {
    sized(ffi::ergo_pack_parameters_to_kv(&parameters_bytes(parameters), out))
}

/// An update: 22, 23.
pub fn encode_validation_settings_update(rules: &[u16], statuses: &[Status]) -> Result<Vec<u8>, Refusal> {
    let raw: usize = statuses.iter().map(|status| status.raw.len()).sum();
    let most = 2 * COUNT_SIZE_MOST + U16_SIZE_MOST * rules.len() + (2 * U16_SIZE_MOST + 1) * statuses.len() + raw;
    written(most, |out| encode_validation_settings_update_into(rules, statuses, out))
}

/// An update: 22, 23, 21.
pub fn encode_validation_settings_update_into(rules: &[u16], statuses: &[Status], out: &mut [u8]) -> Result<usize, Refusal> {
    let ids: Vec<i16> = statuses.iter().map(|status| status.rule).collect();
    let codes: Vec<u8> = statuses.iter().map(|status| status.code).collect();
    let sizes: Vec<u32> = statuses.iter().map(|status| size_of(&status.raw)).collect();
    let raw: Vec<u8> = statuses.iter().flat_map(|status| status.raw.iter().copied()).collect();
    sized(ffi::ergo_encode_validation_settings_update(rules, &ids, &codes, &sizes, &raw, out))
}

/// A size that has no 32 bits is refused as any other that is too large.
fn size_of(bytes: &[u8]) -> u32 {
    u32::try_from(bytes.len()).unwrap_or(u32::MAX)
}

/// An update of rules alone: 22.
pub fn encode_disabled_rules(rules: &[u16]) -> Result<Vec<u8>, Refusal> {
    let most = 2 * COUNT_SIZE_MOST + U16_SIZE_MOST * rules.len();
    written(most, |out| encode_disabled_rules_into(rules, out))
}

/// An update of rules alone: 22, 21.
pub fn encode_disabled_rules_into(rules: &[u16], out: &mut [u8]) -> Result<usize, Refusal> {
    sized(ffi::ergo_encode_disabled_rules(rules, out))
}

/// What is written into a buffer that holds the most that can be.
fn written(most: usize, write: impl FnOnce(&mut [u8]) -> Result<usize, Refusal>) -> Result<Vec<u8>, Refusal> {
    let mut out = vec![0; most];
    let size = write(&mut out)?;
    out.truncate(size);
    Ok(out)
}
