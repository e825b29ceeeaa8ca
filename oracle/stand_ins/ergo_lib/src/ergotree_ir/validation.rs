use std::io::{self, Read, Write};

use sigma_ser::vlq_encode::{ReadSigmaVlqExt, WriteSigmaVlqExt};

use super::serialization::{SigmaParsingError, SigmaSerializable};

/// What a wire offset is counted from.
pub const FIRST_RULE_ID: i16 = 1000;

/// A status: every code is kept, with its raw bytes.
#[derive(Debug, Clone, PartialEq, Eq)]
pub struct RuleStatus {
    pub code: u8,
    pub data: Vec<u8>,
}

impl SigmaSerializable for RuleStatus {
    fn sigma_parse<R: Read>(r: &mut R) -> Result<Self, SigmaParsingError> {
        let size = r.get_u16()?;
        let mut data = vec![0; 1 + usize::from(size)];
        r.read_exact(&mut data).map_err(|_| SigmaParsingError)?;
        Ok(RuleStatus { code: data.remove(0), data })
    }

    fn sigma_serialize<W: Write>(&self, w: &mut W) -> io::Result<()> {
        let size = u16::try_from(self.data.len()).map_err(io::Error::other)?;
        w.put_u16(size)?;
        w.write_all(&[self.code])?;
        w.write_all(&self.data)
    }
}
