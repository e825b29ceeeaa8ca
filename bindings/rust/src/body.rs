//! Extension bodies, read.

use std::collections::BTreeMap;
use std::ops::Range;

use crate::bytes::{number, numbers, part, Section, SECTION_SIZE};
use crate::ffi;
use crate::refusal::{accepted, sized, Refusal};

const FIELD_SIZE: usize = 16;

/// An id and a number, for each of 256 ids.
const PARAMETERS_SIZE_MOST: usize = 256 * PARAMETER_SIZE;
const PARAMETER_SIZE: usize = 5;

const FIELD_VALUE_SIZE_MOST: usize = 64;

/// The parameters of a body, by id.
pub type Parameters = BTreeMap<i8, i32>;

/// A field of a body.
#[derive(Debug, Clone, PartialEq, Eq, Hash)]
pub struct Field {
    pub key: [u8; 2],
    pub value: Vec<u8>,
}

/// A body that was read: its bytes, and where its fields stand in them.
#[derive(Debug, Clone, Copy, PartialEq, Eq)]
pub struct Extension<'a> {
    bytes: &'a [u8],
    fields: Section,
}

impl Extension<'_> {
    /// The id of the header that the body belongs to.
    pub fn header_id(&self) -> [u8; 32] {
        part(self.bytes)
    }

    pub fn fields(&self) -> Vec<Field> {
        fields_of(self.bytes, self.fields)
    }

    /// Where the fields stand.
    pub fn fields_section(&self) -> Section {
        self.fields
    }
}

pub fn fields_of(bytes: &[u8], section: Section) -> Vec<Field> {
    let mut at = section.begin;
    let mut next = || {
        let place = field_at(bytes, at).expect("a field that was read");
        at = place.value.end;
        Field { key: place.key, value: bytes[place.value].to_vec() }
    };
    (0..section.count).map(|_| next()).collect()
}

/// Whether a body is in form: 22, 1 to 6.
pub fn check_body(body: &[u8]) -> Result<(), Refusal> {
    accepted(ffi::ergo_check_body(body))
}

/// Reads a body: 22, 1 to 5.
pub fn parse_extension_bytes(body: &[u8]) -> Result<Extension<'_>, Refusal> {
    let mut out = [0; SECTION_SIZE];
    accepted(ffi::ergo_parse_extension_bytes(body, &mut out))?;
    Ok(Extension { bytes: body, fields: Section::from_bytes(&out) })
}

/// A field of a body. The next one stands where its value ends.
#[derive(Debug, Clone, PartialEq, Eq)]
pub struct FieldPlace {
    pub key: [u8; 2],
    pub value: Range<usize>,
}

/// The field at a position of a body: 22, 3, 4, 5.
pub fn field_at(body: &[u8], at: usize) -> Result<FieldPlace, Refusal> {
    let mut out = [0; FIELD_SIZE];
    accepted(ffi::ergo_field_at(body, at, &mut out))?;
    let [key0, key1, begin, end] = numbers(&out);
    Ok(FieldPlace { key: [key0 as u8, key1 as u8], value: begin as usize..end as usize })
}

/// The parameters of a body: 22, 1 to 6.
pub fn parse_parameters_from_kv(body: &[u8]) -> Result<Parameters, Refusal> {
    let mut out = [0; PARAMETERS_SIZE_MOST];
    let size = sized(ffi::ergo_parse_parameters_from_kv(body, &mut out))?;
    Ok(parameters_of(&out[..size]))
}

/// Parameters as the library writes them.
pub fn parameters_of(bytes: &[u8]) -> Parameters {
    bytes.chunks(PARAMETER_SIZE).map(|entry| (entry[0] as i8, number(&entry[1..]) as i32)).collect()
}

/// Parameters as the library reads them.
pub fn parameters_bytes(parameters: &Parameters) -> Vec<u8> {
    let entry = |(id, value): (&i8, &i32)| [&[*id as u8], &value.to_be_bytes()[..]].concat();
    parameters.iter().flat_map(entry).collect()
}

/// The bytes of the update that a body proposes; none where there is no update, or the body is refused.
pub fn extract_disabling_rules_from_kv(body: &[u8]) -> Vec<u8> {
    let mut out = [0; FIELD_VALUE_SIZE_MOST];
    let size = sized(ffi::ergo_extract_disabling_rules_from_kv(body, &mut out)).expect("room for a field's value");
    out[..size].to_vec()
}
