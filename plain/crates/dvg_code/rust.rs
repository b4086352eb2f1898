//! What Rust's users have beside the sources: conversions, instructions as texts, and the digest of
//! saved states. By hand; tested, not proved.
use crate::code::Code;
use crate::instr::Instr;
use core::fmt::{self, Display, Formatter};
use thiserror::Error;

/// A field of an instruction is out of its range.
#[derive(Clone, Copy, Debug, PartialEq, Eq, Hash, Error)]
#[error("a field of the instruction is out of its range")]
pub struct BadCode;

/// As `Code::new`, with an error for `?`.
impl TryFrom<Instr> for Code {
    type Error = BadCode;

    fn try_from(instr: Instr) -> Result<Code, BadCode> {
        Code::new(instr).ok_or(BadCode)
    }
}

impl From<Code> for Instr {
    fn from(code: Code) -> Instr {
        code.instr()
    }
}

/// As `dvg list` has it behind its address.
impl Display for Instr {
    fn fmt(&self, f: &mut Formatter<'_>) -> fmt::Result {
        match *self {
            Instr::Vctr { scale, dx, dy, z } => write!(f, "VCTR {scale} {dx} {dy} {z}"),
            Instr::Svec { scale, dx, dy, z } => write!(f, "SVEC {scale} {dx} {dy} {z}"),
            Instr::Labs { x, y, scale } => write!(f, "LABS {x} {y} {scale}"),
            Instr::Jsrl(address) => write!(f, "JSRL {address:03X}"),
            Instr::Jmpl(address) => write!(f, "JMPL {address:03X}"),
            Instr::Rtsl => f.write_str("RTSL"),
            Instr::Halt => f.write_str("HALT"),
        }
    }
}

/// As its instruction.
impl Display for Code {
    fn fmt(&self, f: &mut Formatter<'_>) -> fmt::Result {
        Display::fmt(&self.instr(), f)
    }
}

/// Returns the digest of these bytes: FNV-1a of 64 bits, by Fowler, Noll and Vo, who gave it to the
/// public domain (<http://www.isthe.com/chongo/tech/comp/fnv>). Two that differ in a single byte
/// have different ones. A saved state names its ROM by it, and has one as its sum.
pub fn digest(bytes: impl IntoIterator<Item = u8>) -> u64 {
    bytes.into_iter().fold(0xCBF2_9CE4_8422_2325, |digest, byte| {
        (digest ^ u64::from(byte)).wrapping_mul(0x0100_0000_01B3)
    })
}
