//! What the sources use of `byteorder`.
#![no_std]

/// An order of bytes.
pub trait ByteOrder {
    /// The number of the first two bytes.
    fn read_u16(bytes: &[u8]) -> u16;
}

/// The low byte first.
pub struct LittleEndian;

impl ByteOrder for LittleEndian {
    fn read_u16(bytes: &[u8]) -> u16 {
        u16::from_le_bytes([bytes[0], bytes[1]])
    }
}
