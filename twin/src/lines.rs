//! Lines of text in plain Rust, for the plain twin.

use std::io::{self, Write};

/// A line of text that numbers are written into, with room for the longest line.
pub struct Line {
    bytes: [u8; 64],
    length: usize,
}

impl Line {
    pub fn new() -> Line {
        Line {
            bytes: [0; 64],
            length: 0,
        }
    }

    pub fn push(&mut self, byte: u8) {
        self.bytes[self.length] = byte;
        self.length += 1;
    }

    pub fn text(&mut self, text: &[u8]) {
        self.bytes[self.length..self.length + text.len()].copy_from_slice(text);
        self.length += text.len();
    }

    /// Writes this many hexadecimal digits of a number.
    pub fn hex<const DIGITS: usize>(&mut self, number: usize) {
        for digit in (0..DIGITS).rev() {
            self.push(b"0123456789ABCDEF"[number >> (4 * digit) & 15]);
        }
    }

    /// Writes a space and a number, of at most four digits, in decimal.
    pub fn number(&mut self, number: i16) {
        self.text(if number < 0 { b" -" } else { b" " });
        let number = number.unsigned_abs();
        for unit in [1000, 100, 10] {
            if number >= unit {
                self.push(b'0' + (number / unit % 10) as u8);
            }
        }
        self.push(b'0' + (number % 10) as u8);
    }

    /// Writes a number in decimal.
    pub fn decimal(&mut self, number: u32) {
        let mut digits = [0; 10];
        let (mut place, mut rest) = (digits.len(), number);
        loop {
            place -= 1;
            digits[place] = b'0' + (rest % 10) as u8;
            rest /= 10;
            if rest == 0 {
                break;
            }
        }
        self.text(&digits[place..]);
    }

    /// Writes a number, with a sign where it is negative, in decimal.
    pub fn signed(&mut self, number: i32) {
        if number < 0 {
            self.push(b'-');
        }
        self.decimal(number.unsigned_abs());
    }

    /// Writes the line to a stream.
    pub fn write(&self, writer: &mut impl Write) -> io::Result<()> {
        writer.write_all(&self.bytes[..self.length])
    }
}
