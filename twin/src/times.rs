//! How long the generator of the arcade emulator takes for a picture in plain Rust, for the plain
//! twin.

use std::fmt;

/// How many parts of the time are a microsecond.
const MICROSECOND: u64 = 189;

/// The time of a run, of which the words come one after the other.
#[derive(Default)]
pub struct Time {
    vectors: u32,
    others: u32,
    /// In parts of a microsecond.
    parts: u64,
    /// The first word of an instruction that wants a second one.
    held: Option<u16>,
    /// The global scale.
    scale: u16,
}

impl Time {
    /// Takes the next word.
    pub fn take(&mut self, word: u16) {
        let opcode = word >> 12;
        match self.held.take().map(|first| first >> 12) {
            Some(0xA) => {
                self.scale = opcode;
                self.take_other();
            }
            Some(local) => self.take_vector(local),
            None if opcode <= 0xA => self.held = Some(word),
            None if opcode == 0xF => self.take_vector(2 + (word >> 11 & 1) + 2 * (word >> 3 & 1)),
            None => self.take_other(),
        }
    }

    fn take_vector(&mut self, local: u16) {
        self.vectors += 1;
        self.parts += 4 * MICROSECOND;
        let effective = (self.scale + local) % 16;
        if effective < 10 {
            self.parts += 250 << effective;
        }
    }

    fn take_other(&mut self) {
        self.others += 1;
        self.parts += 4 * MICROSECOND;
    }
}

impl fmt::Display for Time {
    fn fmt(&self, f: &mut fmt::Formatter) -> fmt::Result {
        let microseconds = (2 * self.parts + MICROSECOND) / (2 * MICROSECOND);
        write!(
            f,
            "{} vectors, {} other instructions, {microseconds} microseconds in the emulator",
            self.vectors, self.others
        )
    }
}
