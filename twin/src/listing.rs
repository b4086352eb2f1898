//! The lines that `list` writes of instructions, for the plain twin.

use crate::lines::Line;
use std::io::Write;

/// How many word addresses there are.
const ADDRESSES: usize = 0x1000;

/// Why words aren't listed.
pub enum ListFault {
    /// The instruction at this address lacks its second word.
    Cut(usize),
    Writer,
}

/// The signed number of a word: this many bits of magnitude, and the sign above them.
fn signed(word: u16, bits: u16) -> i16 {
    let magnitude = (word & ((1 << bits) - 1)) as i16;
    if word >> bits & 1 == 0 {
        magnitude
    } else {
        -magnitude
    }
}

/// Whether a word's signed number, with this many bits of magnitude, has a sign on a zero.
fn is_minus_zero(word: u16, bits: u16) -> bool {
    word & ((2 << bits) - 1) == 1 << bits
}

/// Whether an instruction of two words begins with this one.
pub fn is_first_of_two(word: u16) -> bool {
    word < 0xB000
}

// What `list` writes of instructions.
impl Line {
    /// Writes a name and the numbers of a vector.
    fn vector(&mut self, name: &[u8], scale: u16, dx: i16, dy: i16, z: u16) {
        self.text(name);
        self.number(scale as i16);
        self.number(dx);
        self.number(dy);
        self.number(z as i16);
    }

    /// Writes a name and a word address.
    fn jump(&mut self, name: &[u8], word: u16) {
        self.text(name);
        self.hex::<3>(usize::from(word));
    }

    /// Writes an instruction of two words, and answers whether they are canonical.
    fn two_words(&mut self, first: u16, second: u16) -> bool {
        if first < 0xA000 {
            let (dx, dy) = (signed(second, 10), signed(first, 10));
            self.vector(b" VCTR", first >> 12, dx, dy, second >> 12);
            (first | second) & 0x800 == 0 && !is_minus_zero(first, 10) && !is_minus_zero(second, 10)
        } else {
            self.text(b" LABS");
            self.number((second & 0xFFF) as i16);
            self.number((first & 0xFFF) as i16);
            self.number((second >> 12) as i16);
            true
        }
    }

    /// Writes an instruction of one word, and answers whether it is canonical.
    fn one_word(&mut self, word: u16) -> bool {
        match word >> 12 {
            0xB => {
                self.text(b" HALT");
                word == 0xB000
            }
            0xC => {
                self.jump(b" JSRL ", word);
                true
            }
            0xD => {
                self.text(b" RTSL");
                word == 0xD000
            }
            0xE => {
                self.jump(b" JMPL ", word);
                true
            }
            _ => {
                let scale = 2 + (word >> 2 & 2) + (word >> 11 & 1);
                let (dx, dy) = (signed(word, 2), signed(word >> 8, 2));
                self.vector(b" SVEC", scale, dx, dy, word >> 4 & 15);
                !is_minus_zero(word, 2) && !is_minus_zero(word >> 8, 2)
            }
        }
    }
}

impl Line {
    /// Writes a place and the instruction there, with a star where its words aren't canonical.
    pub fn listed(&mut self, place: usize, first: u16, second: u16) {
        self.hex::<3>(place);
        let canonical = if is_first_of_two(first) {
            self.two_words(first, second)
        } else {
            self.one_word(first)
        };
        if !canonical {
            self.text(b" *");
        }
    }
}

/// Writes a line for each instruction of the words, of which the first stands there.
pub fn write_list(bytes: &[u8], at: usize, writer: &mut impl Write) -> Result<(), ListFault> {
    let (words, _) = bytes.as_chunks();
    let mut place = 0;
    while place < words.len() {
        let mut line = Line::new();
        let address = (at + place) % ADDRESSES;
        let first = u16::from_le_bytes(words[place]);
        let (length, second) = if is_first_of_two(first) {
            let second = words.get(place + 1).ok_or(ListFault::Cut(address))?;
            (2, u16::from_le_bytes(*second))
        } else {
            (1, 0)
        };
        line.listed(address, first, second);
        line.push(b'\n');
        line.write(writer).map_err(|_| ListFault::Writer)?;
        place += length;
    }
    Ok(())
}
