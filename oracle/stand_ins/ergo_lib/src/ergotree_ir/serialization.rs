use std::io::{self, Read, Write};

/// A number is unreadable, or bytes are missing.
pub use sigma_ser::vlq_encode::VlqEncodingError as SigmaParsingError;

pub trait SigmaSerializable: Sized {
    fn sigma_parse<R: Read>(r: &mut R) -> Result<Self, SigmaParsingError>;
    fn sigma_serialize<W: Write>(&self, w: &mut W) -> io::Result<()>;
}

pub mod sigma_byte_reader {
    use std::io::Cursor;

    pub fn from_bytes(bytes: &[u8]) -> Cursor<&[u8]> {
        Cursor::new(bytes)
    }
}

pub mod sigma_byte_writer {
    pub struct SigmaByteWriter;

    impl SigmaByteWriter {
        /// Bytes are put at the end of the list itself. The Rust hands no constants over.
        #[allow(clippy::new_ret_no_self)]
        pub fn new(out: &mut Vec<u8>, _constants: Option<()>) -> &mut Vec<u8> {
            out
        }
    }
}
