//! What is written of a log in plain Rust, for the plain twin.

use crate::driver::Action;
use crate::generator::Stroke;
use crate::lines::Line;
use crate::world::Entry;
use std::io::{self, Write};

// What `play` writes of entries.
impl Line {
    /// Writes a space and a text.
    fn part(&mut self, text: &[u8]) {
        self.push(b' ');
        self.text(text);
    }

    /// Writes a space and a number in decimal.
    fn natural(&mut self, number: u32) {
        self.push(b' ');
        self.decimal(number);
    }

    /// Writes a space, a name, a space and an address.
    fn at(&mut self, name: &[u8], address: u16) {
        self.part(name);
        self.push(b' ');
        self.hex::<3>(usize::from(address));
    }

    /// Writes a space, a name, a space, an address, a space and a byte.
    fn byte(&mut self, name: &[u8], address: u16, byte: u8) {
        self.at(name, address);
        self.push(b' ');
        self.hex::<2>(usize::from(byte));
    }

    /// Writes what an action did.
    fn action(&mut self, action: Action) {
        match action {
            Action::Peek => self.part(b"peek"),
            Action::Wrote(address, byte) => self.byte(b"wrote", address, byte),
            Action::Read(true) => self.part(b"read halted"),
            Action::Read(false) => self.part(b"read running"),
            Action::Sent => self.part(b"sent"),
            Action::Idle => self.part(b"idle"),
        }
    }

    /// Writes what a fetch led to.
    fn fetched(&mut self, name: &[u8], address: u16, word: u16) {
        self.at(name, address);
        self.push(b' ');
        self.hex::<4>(usize::from(word));
    }

    /// Writes what an event led to.
    fn entry(&mut self, entry: &Entry) {
        match entry {
            Entry::Offered => self.part(b"offered"),
            Entry::Refused(fault) => self.part(format!("refused {fault}").as_bytes()),
            Entry::Busy => self.part(b"busy"),
            Entry::Asked => self.part(b"asked"),
            Entry::NothingPublished => self.part(b"nothing published"),
            Entry::Acted(action) => self.action(*action),
            Entry::Started => self.part(b"started"),
            Entry::NoStrobe => self.part(b"no strobe"),
            Entry::Low(address, byte) => self.byte(b"low", *address, *byte),
            Entry::Fetched(address, word) => self.fetched(b"fetched", *address, *word),
            Entry::Done(address, word, strokes) => {
                self.fetched(b"done", *address, *word);
                self.natural(strokes.len() as u32);
            }
            Entry::Broke(address, fault) => {
                self.at(b"broke", *address);
                self.natural(fault.number());
            }
            Entry::Still => self.part(b"still"),
            Entry::Cleared => self.part(b"cleared"),
        }
    }
}

/// Writes the line of each stroke.
pub fn write_strokes(strokes: &[Stroke], writer: &mut impl Write) -> io::Result<()> {
    for stroke in strokes {
        let mut line = Line::new();
        line.decimal(stroke.x0);
        line.natural(stroke.y0);
        line.natural(stroke.x1);
        line.natural(stroke.y1);
        line.natural(u32::from(stroke.z));
        line.push(b'\n');
        line.write(writer)?;
    }
    Ok(())
}

/// Writes what is shown of each entry, or of pictures alone.
pub fn write_entries(entries: &[Entry], all: bool, writer: &mut impl Write) -> io::Result<()> {
    for (number, entry) in entries.iter().enumerate() {
        let mut line = Line::new();
        if all {
            line.decimal(number as u32);
            line.entry(entry);
            line.push(b'\n');
            line.write(writer)?;
        }
        if let Entry::Done(_, _, strokes) = entry {
            if !all {
                line.text(b"picture");
                line.natural(number as u32);
                line.natural(strokes.len() as u32);
                line.push(b'\n');
                line.write(writer)?;
            }
            write_strokes(strokes, writer)?;
        }
    }
    Ok(())
}
