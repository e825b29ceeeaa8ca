//! Stand-in for `sigma_ser`: numbers of variable length (VLQ) as docs/RULES.md has them.

#[derive(Debug)]
pub struct ScorexParsingError;

pub mod vlq_encode {
    use std::fmt;
    use std::io::{self, Read, Write};

    /// The number is cut, its tenth byte continues, or the value is over the width.
    #[derive(Debug)]
    pub struct VlqEncodingError;

    impl fmt::Display for VlqEncodingError {
        fn fmt(&self, f: &mut fmt::Formatter<'_>) -> fmt::Result {
            f.write_str("unreadable")
        }
    }

    /// Seven bits a byte, low first, at most ten bytes. The shift drops bits from 64 up.
    fn read<R: Read + ?Sized, T: TryFrom<u64>>(r: &mut R) -> Result<T, VlqEncodingError> {
        let (mut value, mut byte) = (0u64, [0]);
        for i in 0..10 {
            r.read_exact(&mut byte).map_err(|_| VlqEncodingError)?;
            value |= u64::from(byte[0] & 0x7f) << (7 * i);
            if byte[0] < 0x80 {
                return T::try_from(value).map_err(|_| VlqEncodingError);
            }
        }
        Err(VlqEncodingError)
    }

    fn write<W: Write + ?Sized>(w: &mut W, mut value: u32) -> io::Result<()> {
        while value >= 0x80 {
            w.write_all(&[value as u8 | 0x80])?;
            value >>= 7;
        }
        w.write_all(&[value as u8])
    }

    pub trait ReadSigmaVlqExt: Read {
        fn get_u16(&mut self) -> Result<u16, VlqEncodingError> {
            read(self)
        }
        fn get_u32(&mut self) -> Result<u32, VlqEncodingError> {
            read(self)
        }
    }

    impl<R: Read + ?Sized> ReadSigmaVlqExt for R {}

    pub trait WriteSigmaVlqExt: Write {
        fn put_u16(&mut self, value: u16) -> io::Result<()> {
            write(self, value.into())
        }
        fn put_u32(&mut self, value: u32) -> io::Result<()> {
            write(self, value)
        }
    }

    impl<W: Write + ?Sized> WriteSigmaVlqExt for W {}
}
