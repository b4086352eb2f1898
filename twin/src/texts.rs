//! Texts of drafts in plain Rust, for the plain twin.

use crate::frames::{Instr, MOST, Op, Rom};

/// The most bytes of a text.
pub const MOST_TEXT_BYTES: usize = 1_048_576;

/// Why a text denotes no draft.
pub enum TextFault {
    TooLong,
    Syntax(usize),
    Full(usize),
    Many(usize),
    Unended,
}

/// A number without leading zeros, up to `most`.
pub fn natural(part: &[u8], most: u32) -> Option<u32> {
    if part.len() > 5 || part.is_empty() || part.len() > 1 && part[0] == b'0' {
        return None;
    }
    let mut number = 0;
    for byte in part {
        if !byte.is_ascii_digit() {
            return None;
        }
        number = 10 * number + u32::from(byte - b'0');
    }
    (number <= most).then_some(number)
}

/// A number from `-most` to `most`, without leading zeros.
fn integer(part: &[u8], most: u32) -> Option<i16> {
    match part {
        [b'-', digits @ ..] => match natural(digits, most)? {
            0 => None,
            number => Some(-(number as i16)),
        },
        _ => Some(natural(part, most)? as i16),
    }
}

/// A number of this many hexadecimal digits.
pub fn hex(part: &[u8], count: usize) -> Option<u16> {
    if part.len() != count {
        return None;
    }
    let mut number = 0;
    for byte in part {
        number = 16 * number + (*byte as char).to_digit(16)?;
    }
    Some(number as u16)
}

pub fn last<'a, T>(mut parts: impl Iterator<Item = &'a [u8]>, value: T) -> Option<T> {
    match parts.next() {
        None => Some(value),
        Some(_) => None,
    }
}

/// The operation that a line spells.
pub fn read_op(line: &[u8]) -> Option<Op> {
    op_of_parts(line.split(|byte| *byte == b' '))
}

/// The operation that the parts of a line spell.
pub fn op_of_parts<'a>(mut parts: impl Iterator<Item = &'a [u8]>) -> Option<Op> {
    let op = match parts.next()? {
        b"vctr" => Op::Draw(Instr::Vctr {
            scale: natural(parts.next()?, 9)? as u8,
            dx: integer(parts.next()?, 1023)?,
            dy: integer(parts.next()?, 1023)?,
            z: natural(parts.next()?, 15)? as u8,
        }),
        b"svec" => Op::Draw(Instr::Svec {
            scale: natural(parts.next()?, 5).filter(|scale| *scale >= 2)? as u8,
            dx: integer(parts.next()?, 3)? as i8,
            dy: integer(parts.next()?, 3)? as i8,
            z: natural(parts.next()?, 15)? as u8,
        }),
        b"labs" => Op::Draw(Instr::Labs {
            x: natural(parts.next()?, 4095)? as u16,
            y: natural(parts.next()?, 4095)? as u16,
            scale: natural(parts.next()?, 15)? as u8,
        }),
        b"callrom" => Op::CallRom(hex(parts.next()?, 3)?),
        b"jumprom" => Op::JumpRom(hex(parts.next()?, 3)?),
        b"call" => Op::Call(natural(parts.next()?, 65535)? as u16),
        b"jump" => Op::Jump(natural(parts.next()?, 65535)? as u16),
        b"return" => Op::Return,
        b"halt" => Op::Halt,
        _ => return None,
    };
    last(parts, op)
}

/// A word that no line gives.
const UNGIVEN: u16 = 0xD000;

/// The ROM that the lines give which were read.
pub struct RomText {
    is_stated: bool,
    rom: Rom,
    /// The word address after the highest word that was given, or else the ROM's first one.
    free: u16,
}

impl RomText {
    pub fn new() -> RomText {
        RomText {
            is_stated: false,
            rom: Rom::of(0x800, UNGIVEN),
            free: 0x800,
        }
    }

    /// The word address of the ROM's first word.
    pub fn first(&self) -> u16 {
        self.rom.first
    }

    /// The word address after the highest word that was given, or else the ROM's first one.
    pub fn free(&self) -> u16 {
        self.free
    }

    pub fn into_rom(self) -> Rom {
        self.rom
    }

    /// Reads one line more. None where it says nothing of the ROM, or may not stand here.
    pub fn read(&mut self, line: &[u8]) -> Option<()> {
        let first = match line {
            b"map 2048" => 0x800,
            b"map 4096" => 0x400,
            _ => return self.read_words(line),
        };
        if self.is_stated {
            return None;
        }
        self.is_stated = true;
        self.rom = Rom::of(first, UNGIVEN);
        self.free = first;
        Some(())
    }

    /// Puts the words of a ROM line into the ROM.
    fn read_words(&mut self, line: &[u8]) -> Option<()> {
        let mut parts = line.split(|byte| *byte == b' ');
        if parts.next()? != b"rom" {
            return None;
        }
        let mut place = usize::from(hex(parts.next()?, 3)?.checked_sub(self.rom.first)?);
        let first = place;
        for part in parts {
            if place == first + 8 {
                return None;
            }
            *self.rom.words.get_mut(place)? = hex(part, 4)?;
            place += 1;
        }
        self.is_stated = true;
        self.free = self.free.max(self.rom.first + place as u16);
        (first < place).then_some(())
    }
}

/// The draft and the ROM that a text denotes.
pub fn read_draft(text: &[u8]) -> Result<(Vec<Op>, Rom), TextFault> {
    if text.len() > MOST_TEXT_BYTES {
        return Err(TextFault::TooLong);
    }
    let mut rom = RomText::new();
    let mut ops = Vec::new();
    // The part after the last LF is no line where it is empty, and such a line is passed over.
    for (line, number) in text.split(|byte| *byte == b'\n').zip(1..) {
        if line.is_empty() || line[0] == b'#' {
            continue;
        }
        if ops.is_empty() && rom.read(line).is_some() {
            continue;
        }
        let op = read_op(line).ok_or(TextFault::Syntax(number))?;
        if ops.len() == MOST {
            return Err(TextFault::Full(number));
        }
        ops.push(op);
    }
    Ok((ops, rom.into_rom()))
}
