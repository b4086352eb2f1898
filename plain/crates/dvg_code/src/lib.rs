//! Words and instructions of the Digital Vector Generator.
//!
//! A word has 16 bits; word `k` of a list of bytes is byte `2k` (low) and byte `2k + 1` (high). The
//! top four bits of an instruction's first word are its opcode: 0 to 9 VCTR, A LABS, B HALT, C
//! JSRL, D RTSL, E JMPL, F SVEC. VCTR and LABS have two words, the others one. The formats are
//! those of Atari's DVG documentation and of Margolin's *The Secret Life of Vector Generators*;
//! what is this project's own choice is marked so. No call of this crate takes memory.
#![no_std]

extern crate plain_std as std;

mod code {
//! Instructions in range.
use crate::instr::Instr;

/// An instruction whose fields are all in range, so that words spell it.
#[derive(Clone, Copy, Debug, PartialEq, Eq, Hash)]
#[cfg_attr(feature = "serde", derive(serde::Serialize, serde::Deserialize))]
#[cfg_attr(feature = "serde", serde(try_from = "Instr", into = "Instr"))]
pub struct Code {
    instr: Instr,
}

impl Code {
    /// Returns `instr` as a `Code`, or `None` exactly where a field of it is out of its range.
    #[must_use]
    pub fn new(instr: Instr) -> Option<Code> {
        if is_in_range(instr) {
            Some(Code { instr })
        } else {
            None
        }
    }

    /// Returns `instr` as a `Code`, which the caller knows to be in range.
    pub fn within(instr: Instr) -> Code {
        Code { instr }
    }

    /// Returns the instruction, which is in range.
    pub fn instr(&self) -> Instr {
        self.instr
    }

    /// Returns the number of words: 2 for a VCTR and a LABS, 1 for all others.
    pub fn word_count(&self) -> u16 {
        match self.instr {
            Instr::Vctr { .. } | Instr::Labs { .. } => 2,
            Instr::Halt | Instr::Jsrl(_) | Instr::Rtsl | Instr::Jmpl(_) | Instr::Svec { .. } => 1,
        }
    }
}

// Returns whether each field of `instr` is in range.
fn is_in_range(instr: Instr) -> bool {
    match instr {
        Instr::Vctr { scale, dx, dy, z } => scale <= 9 && is_move(1023, dx, dy, z),
        Instr::Labs { x, y, scale } => x <= 4095 && y <= 4095 && scale <= 15,
        Instr::Jsrl(address) | Instr::Jmpl(address) => address <= 4095,
        Instr::Halt | Instr::Rtsl => true,
        Instr::Svec { scale, dx, dy, z } => {
            2 <= scale && scale <= 5 && is_move(3, i16::from(dx), i16::from(dy), z)
        }
    }
}

// Returns whether the magnitudes of `dx` and `dy` are at most `most`, and `z` has four bits.
fn is_move(most: u16, dx: i16, dy: i16, z: u8) -> bool {
    dx.unsigned_abs() <= most && dy.unsigned_abs() <= most && z <= 15
}
}
mod decoding {
//! From words to instructions.
use crate::code::Code;
use crate::instr::Instr;
use thiserror::Error;

/// Why words begin with no instruction.
#[derive(Clone, Copy, Debug, PartialEq, Eq, Error, Hash)]
#[cfg_attr(feature = "serde", derive(serde::Serialize, serde::Deserialize))]
pub enum CodeFault {
    /// There is no word.
    #[error("there is no word")]
    Empty,
    /// There is exactly one word, of opcode 0 to A: its second word is missing.
    #[error("the second word is missing")]
    Cut,
}

// Returns `count` bits of `word`, from bit `from` up. Both numbers are below 16.
fn bits(word: u16, from: u32, count: u32) -> u16 {
    (word >> from) & ((1 << count) - 1)
}

// Returns `magnitude`, which is below 1,024, or its negative where `sign` isn't 0.
fn signed(sign: u16, magnitude: u16) -> i16 {
    if sign == 0 {
        magnitude as i16
    } else {
        -(magnitude as i16)
    }
}

// Returns what `first` and `second` spell, where `first` has an opcode of 0 to 9.
fn read_vctr(first: u16, second: u16) -> Code {
    let dy = signed(bits(first, 10, 1), bits(first, 0, 10));
    let dx = signed(bits(second, 10, 1), bits(second, 0, 10));
    Code::within(Instr::Vctr {
        scale: bits(first, 12, 4) as u8,
        dx,
        dy,
        z: bits(second, 12, 4) as u8,
    })
}

// Returns what `first` and `second` spell, where `first` has the opcode A.
fn read_labs(first: u16, second: u16) -> Code {
    Code::within(Instr::Labs {
        x: bits(second, 0, 12),
        y: bits(first, 0, 12),
        scale: bits(second, 12, 4) as u8,
    })
}

// Returns what `first` and `second` spell, where `first` has an opcode of 0 to A.
fn read_two(first: u16, second: u16) -> Code {
    if first < 0xA000 {
        read_vctr(first, second)
    } else {
        read_labs(first, second)
    }
}

// Returns what `word` spells, where it has the opcode F.
fn read_short(word: u16) -> Code {
    let dy = signed(bits(word, 10, 1), bits(word, 8, 2));
    let dx = signed(bits(word, 2, 1), bits(word, 0, 2));
    let scale = 2 + 2 * bits(word, 3, 1) + bits(word, 11, 1);
    Code::within(Instr::Svec {
        scale: scale as u8,
        dx: dx as i8,
        dy: dy as i8,
        z: bits(word, 4, 4) as u8,
    })
}

// Returns what `word` spells, where it has an opcode of B to F.
fn read_one(word: u16) -> Code {
    match bits(word, 12, 4) {
        0xB => Code::within(Instr::Halt),
        0xC => Code::within(Instr::Jsrl(bits(word, 0, 12))),
        0xD => Code::within(Instr::Rtsl),
        0xE => Code::within(Instr::Jmpl(bits(word, 0, 12))),
        _ => read_short(word),
    }
}

/// Returns the instruction that the front of `words` spells, and its number of words.
///
/// | Opcode | Instruction | First word | Second word |
/// |---|---|---|---|
/// | 0 to 9 | VCTR | opcode: local scale; 10, 9 to 0: y | 15 to 12: intensity; 10, 9 to 0: x |
/// | A | LABS | 11 to 0: y | 15 to 12: global scale; 11 to 0: x |
/// | B | HALT | | |
/// | C, E | JSRL, JMPL | 11 to 0: word address | |
/// | D | RTSL | | |
/// | F | SVEC | 11, 3: scale; 10, 9 to 8: y; 7 to 4: intensity; 2, 1 to 0: x | |
///
/// The numbers are those of bits. Two parts of x or y are its sign and its magnitude. Of the scale
/// of an SVEC bit 11 has weight 1, and bit 3 weight 2.
///
/// A sign bit of 1 means negative: sign and magnitude, where minus zero reads as zero. Bit 11 of
/// both words of a VCTR and bits 11 to 0 of HALT and RTSL are ignored (this project's own choice),
/// so there are spellings that aren't canonical, and they are read all the same.
///
/// Returns `Empty` exactly where there is no word, and `Cut` exactly where there is one, of opcode
/// 0 to A, whose second word is missing.
#[inline(always)]
pub fn decode(words: &[u16]) -> Result<(Code, usize), CodeFault> {
    match words {
        [] => Err(CodeFault::Empty),
        [word, ..] if *word >= 0xB000 => Ok((read_one(*word), 1)),
        [first, second, ..] => Ok((read_two(*first, *second), 2)),
        [_] => Err(CodeFault::Cut),
    }
}
}
mod encoding {
//! From instructions to words.
use crate::code::Code;
use crate::decoding::decode;
use crate::instr::Instr;
use arrayvec::ArrayVec;

/// The words of one instruction.
pub type Words = ArrayVec<u16, 2>;

// Returns the sign bit that is written for `n`: 1 where it is negative, else 0.
fn sign_of(n: i16) -> u16 {
    if n < 0 { 1 } else { 0 }
}

// Returns the word of the four bits `top`, and of the sign bit and the magnitude of `n`, which is
// -1023 to 1023.
fn long_word(top: u8, n: i16) -> u16 {
    4096 * u16::from(top) + 1024 * sign_of(n) + n.unsigned_abs()
}

// Returns the word of a short vector with these fields, which are in range: the scale `scale`, the
// moves `dx` and `dy`, and the intensity `z`.
fn short_word(scale: u8, dx: i8, dy: i8, z: u8) -> u16 {
    let weights = u16::from(scale) - 2;
    0xF000
        + 2048 * (weights % 2)
        + 1024 * sign_of(i16::from(dy))
        + 256 * u16::from(dy.unsigned_abs())
        + 16 * u16::from(z)
        + 8 * (weights / 2)
        + 4 * sign_of(i16::from(dx))
        + u16::from(dx.unsigned_abs())
}

// Returns `word` alone.
fn one_word(word: u16) -> Words {
    let mut words = Words::new();
    words.push(word);
    words
}

// Returns `first` and then `second`.
fn two_words(first: u16, second: u16) -> Words {
    let mut words = Words::new();
    words.push(first);
    words.push(second);
    words
}

/// Returns the canonical words of `code`: every ignored bit is 0, and so is the sign of a magnitude
/// of zero (this project's own choice).
pub fn encode(code: &Code) -> Words {
    match code.instr() {
        Instr::Vctr { scale, dx, dy, z } => two_words(long_word(scale, dy), long_word(z, dx)),
        Instr::Labs { x, y, scale } => two_words(0xA000 + y, 4096 * u16::from(scale) + x),
        Instr::Halt => one_word(0xB000),
        Instr::Jsrl(address) => one_word(0xC000 + address),
        Instr::Rtsl => one_word(0xD000),
        Instr::Jmpl(address) => one_word(0xE000 + address),
        Instr::Svec { scale, dx, dy, z } => one_word(short_word(scale, dx, dy, z)),
    }
}

/// Returns whether `words` are what `encode` writes for some instruction.
pub fn is_canonical(words: &[u16]) -> bool {
    match decode(words) {
        Ok(read) => encode(&read.0).as_slice() == words,
        Err(_) => false,
    }
}
}
mod instr {
//! The generator's instructions.
/// An instruction, in range or not. `Code` is one that is in range.
///
/// The formats and the names are those of Atari's DVG documentation and of Margolin's *The Secret
/// Life of Vector Generators*.
#[derive(Clone, Copy, Debug, PartialEq, Eq, Hash)]
#[cfg_attr(feature = "serde", derive(serde::Serialize, serde::Deserialize))]
pub enum Instr {
    /// Moves the beam, drawing where the intensity isn't 0. Two words.
    Vctr {
        /// The local scale, 0 to 9; it is the opcode.
        scale: u8,
        /// The move along x, -1023 to 1023, before it is scaled.
        dx: i16,
        /// The move along y, -1023 to 1023, before it is scaled.
        dy: i16,
        /// The intensity, 0 (blank) to 15.
        z: u8,
    },
    /// Puts the beam at a position and sets the global scale, drawing nothing. Two words.
    Labs {
        /// The position along x, 0 to 4095. All twelve bits count (this project's own choice).
        x: u16,
        /// The position along y, 0 to 4095. All twelve bits count (this project's own choice).
        y: u16,
        /// The global scale, 0 to 15.
        scale: u8,
    },
    /// Ends the run.
    Halt,
    /// Calls the subroutine at this word address, 0 to 4095.
    Jsrl(u16),
    /// Returns from the newest call.
    Rtsl,
    /// Jumps to this word address, 0 to 4095.
    Jmpl(u16),
    /// A short vector: moves the beam, drawing where the intensity isn't 0. One word.
    Svec {
        /// The local scale, 2 to 5. Its two bits stand at bit 11, with weight 1, and at bit 3, with
        /// weight 2 (these weights are this project's own choice).
        scale: u8,
        /// The move along x, -3 to 3, which stands for 256 times that magnitude, before it is
        /// scaled.
        dx: i8,
        /// The move along y, -3 to 3, which stands for 256 times that magnitude, before it is
        /// scaled.
        dy: i8,
        /// The intensity, 0 (blank) to 15.
        z: u8,
    },
}
}
mod listing {
//! The instructions of a list of words, one after the other.
use crate::code::Code;
use crate::decoding::{CodeFault, decode};

/// What stands at a place of a list of words. Places count words, from 0.
#[derive(Clone, Copy, Debug, PartialEq, Eq, Hash)]
#[cfg_attr(feature = "serde", derive(serde::Serialize, serde::Deserialize))]
pub enum Listed {
    /// An instruction, at the place of its first word.
    At(usize, Code),
    /// A word whose second word is missing, at its place.
    Cut(usize),
}

/// An iterator over the instructions of borrowed words, from place 0 on. If a word is left whose
/// second word is missing, its `Listed::Cut` comes last.
#[derive(Clone, Debug)]
pub struct Listing<'a> {
    words: &'a [u16],
    place: usize,
}

impl<'a> Listing<'a> {
    /// Returns an iterator over the instructions of `words`, from place 0 on.
    pub fn new(words: &'a [u16]) -> Listing<'a> {
        Listing { words, place: 0 }
    }
}

impl Iterator for Listing<'_> {
    type Item = Listed;

    fn next(&mut self) -> Option<Listed> {
        let place = self.place;
        match decode(self.words) {
            Ok((code, count)) => {
                self.words = &self.words[count..];
                self.place = place + count;
                Some(Listed::At(place, code))
            }
            Err(CodeFault::Empty) => None,
            Err(CodeFault::Cut) => {
                self.words = &[];
                Some(Listed::Cut(place))
            }
        }
    }
}
}
mod memory {
//! Lack of memory.
use std::prelude::*;

use std::alloc::{AllocError, AllocFailed};
use thiserror::Error;

/// An allocation failed. What was to grow has not changed.
#[derive(Clone, Copy, Debug, PartialEq, Eq, Error, Hash)]
#[error("out of memory")]
#[cfg_attr(feature = "serde", derive(serde::Serialize, serde::Deserialize))]
pub struct OutOfMemory;

impl From<AllocError> for OutOfMemory {
    fn from(_refused: AllocError) -> OutOfMemory {
        OutOfMemory
    }
}

impl<T: Drop> From<AllocFailed<T>> for OutOfMemory {
    fn from(_refused: AllocFailed<T>) -> OutOfMemory {
        OutOfMemory
    }
}
}
mod word {
//! Words in bytes.
use byteorder::{ByteOrder, LittleEndian};

/// Returns word `k` of `bytes`: byte `2k` (low) and byte `2k + 1` (high), which must be there.
pub fn word_at(bytes: &[u8], k: usize) -> u16 {
    LittleEndian::read_u16(&bytes[2 * k..])
}
}

pub use code::Code;
pub use decoding::{CodeFault, decode};
pub use encoding::{Words, encode, is_canonical};
pub use instr::Instr;
pub use listing::{Listed, Listing};
pub use memory::OutOfMemory;
pub use word::word_at;

#[path = "../rust.rs"]
mod rust;
pub use rust::*;
