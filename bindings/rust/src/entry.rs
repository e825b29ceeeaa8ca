//! An entry of a tally.

/// How often an id was voted, as the library reads it.
#[repr(C)]
#[derive(Debug, Clone, Copy, Default, PartialEq, Eq, Hash)]
pub struct Entry {
    pub id: i8,
    pub count: u32,
}

const _: () = assert!(std::mem::size_of::<Entry>() == 8 && std::mem::align_of::<Entry>() == 4);
const _: () = assert!(std::mem::offset_of!(Entry, id) == 0 && std::mem::offset_of!(Entry, count) == 4);
