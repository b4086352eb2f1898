//! What a draft draws, by its operations alone, for the storm's recount.

use crate::storm::drafts::{Op, Rom};

/// What a run of a draft draws, after word zero.
#[derive(Default)]
pub struct Picture {
    /// The line of each stroke.
    pub strokes: Vec<String>,
    pub words: usize,
}

/// Where an operation stands.
#[derive(Clone, Copy)]
enum Place {
    Op(usize),
    Word(u16),
}

/// A beam, with its position in 1/512 of a screen unit.
#[derive(Default)]
struct Beam {
    x: i64,
    y: i64,
    scale: u32,
}

/// The positions along an axis.
const POSITIONS: i64 = 4096 * 512;

/// More operations than any run has that finishes in a schedule.
const MOST_STEPS: usize = 100_000;

impl Beam {
    /// Moves by this many units of 1/512 at scale 0, and answers the line of the stroke, if it is
    /// seen.
    fn moved(&mut self, scale: u32, dx: i64, dy: i64, z: u32) -> Option<String> {
        let unit = match (self.scale + scale) % 16 {
            shown @ 0..=9 => 1 << shown,
            _ => 0,
        };
        let (x, y) = (self.x, self.y);
        self.x = (x + dx * unit).rem_euclid(POSITIONS);
        self.y = (y + dy * unit).rem_euclid(POSITIONS);
        (z > 0).then(|| format!("{x} {y} {} {} {z}", self.x, self.y))
    }
}

/// A number of sign and magnitude: this many bits of magnitude from a word's lowest bit on, and the
/// sign above them.
fn signed(word: u16, bits: u32) -> i64 {
    let magnitude = i64::from(word % (1 << bits));
    if word & 1 << bits == 0 {
        magnitude
    } else {
        -magnitude
    }
}

/// The instruction at a word of the ROM. None where the ROM ends within it.
fn rom_op(rom: &Rom, address: u16) -> Option<Op> {
    let word = rom.word(address)?;
    let field = word % 0x1000;
    Some(match word / 0x1000 {
        scale @ 0..=9 => {
            let second = rom.word(address + 1)?;
            Op::Vctr {
                scale: u32::from(scale),
                dx: signed(second, 10),
                dy: signed(word, 10),
                z: u32::from(second / 0x1000),
            }
        }
        0xA => {
            let second = rom.word(address + 1)?;
            Op::Labs {
                x: i64::from(second % 0x1000),
                y: i64::from(field),
                scale: u32::from(second / 0x1000),
            }
        }
        0xB => Op::Halt,
        0xC => Op::CallRom(field),
        0xD => Op::Return,
        0xE => Op::JumpRom(field),
        _ => Op::Svec {
            scale: 2 + u32::from(word >> 11 & 1) + 2 * u32::from(word >> 3 & 1),
            dx: signed(word, 2),
            dy: signed(word >> 8, 2),
            z: u32::from(word >> 4 & 15),
        },
    })
}

/// The operation, or the instruction of the ROM, at a place.
fn op_at(place: Place, draft: &[Op], rom: &Rom) -> Option<Op> {
    match place {
        Place::Op(i) => draft.get(i).copied(),
        Place::Word(a) => rom_op(rom, a),
    }
}

/// The place after an operation.
fn after(place: Place, op: Op) -> Place {
    match place {
        Place::Op(i) => Place::Op(i + 1),
        Place::Word(a) => Place::Word(a + op.words() as u16),
    }
}

/// The picture of a draft, or why it has none.
pub fn picture(draft: &[Op], rom: &Rom) -> Result<Picture, String> {
    let mut picture = Picture::default();
    let mut beam = Beam::default();
    let mut callers = Vec::new();
    let mut place = Place::Op(0);
    for _ in 0..MOST_STEPS {
        let op = op_at(place, draft, rom).ok_or("the draft runs off")?;
        picture.words += op.words();
        let next = after(place, op);
        place = match op {
            Op::Vctr { scale, dx, dy, z } => {
                picture.strokes.extend(beam.moved(scale, dx, dy, z));
                next
            }
            Op::Svec { scale, dx, dy, z } => {
                picture
                    .strokes
                    .extend(beam.moved(scale, 256 * dx, 256 * dy, z));
                next
            }
            Op::Labs { x, y, scale } => {
                (beam.x, beam.y, beam.scale) = (512 * x, 512 * y, scale);
                next
            }
            Op::Jump(i) => Place::Op(i),
            Op::JumpRom(a) => Place::Word(a),
            Op::Call(i) => {
                callers.push(next);
                Place::Op(i)
            }
            Op::CallRom(a) => {
                callers.push(next);
                Place::Word(a)
            }
            Op::Return => callers.pop().ok_or("the draft returns without a call")?,
            Op::Halt => return Ok(picture),
        };
    }
    Err("the draft has no end".to_owned())
}
