//! The frames of a sketch as drafts without names, in plain Rust, for the plain twin.

use crate::frames::{Instr, Op, Rom};
use crate::sketch::Sketch;
use std::io::{self, Write};

/// How many words a line of a ROM has, and the word that none has to give.
const ROW: usize = 8;
const UNGIVEN: u16 = 0xD000;

/// Writes the line of an operation.
fn write_op(op: Op, writer: &mut impl Write) -> io::Result<()> {
    match op {
        Op::Draw(Instr::Vctr { scale, dx, dy, z }) => {
            writeln!(writer, "vctr {scale} {dx} {dy} {z}")
        }
        Op::Draw(Instr::Svec { scale, dx, dy, z }) => {
            writeln!(writer, "svec {scale} {dx} {dy} {z}")
        }
        Op::Draw(Instr::Labs { x, y, scale }) => writeln!(writer, "labs {x} {y} {scale}"),
        Op::Call(n) => writeln!(writer, "call {n}"),
        Op::Jump(n) => writeln!(writer, "jump {n}"),
        Op::CallRom(word) => writeln!(writer, "callrom {word:03X}"),
        Op::JumpRom(word) => writeln!(writer, "jumprom {word:03X}"),
        Op::Return => writeln!(writer, "return"),
        Op::Halt => writeln!(writer, "halt"),
    }
}

/// Writes the map of a ROM, and each row of its words that isn't the word which none has to give.
fn write_rom(rom: &Rom, writer: &mut impl Write) -> io::Result<()> {
    if rom.first == 0x400 {
        writeln!(writer, "map 4096")?;
    }
    for (address, row) in (rom.first..).step_by(ROW).zip(rom.words.chunks(ROW)) {
        if row.iter().all(|word| *word == UNGIVEN) {
            continue;
        }
        write!(writer, "rom {address:03X}")?;
        for word in row {
            write!(writer, " {word:04X}")?;
        }
        writeln!(writer)?;
    }
    Ok(())
}

impl Sketch<'_> {
    /// Writes the ROM and the drafts: one alone, and several as a trace offers them.
    pub fn write_drafts(&self, writer: &mut impl Write) -> io::Result<()> {
        write_rom(&self.rom, writer)?;
        for frame in &self.frames {
            if self.frames.len() != 1 {
                writeln!(writer, "offer")?;
            }
            frame.ops.iter().try_for_each(|op| write_op(*op, writer))?;
            if self.frames.len() != 1 {
                writeln!(writer, "end")?;
            }
        }
        Ok(())
    }
}
