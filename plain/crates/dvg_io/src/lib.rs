//! Readers and writers whose failures are counted, whole reads and writes through them, and why an
//! engine stops: what all engines of the program `dvg` stand on.
#![no_std]

extern crate plain_std as std;

mod engine {
//! What the engines of the program `dvg` have in common. What is read is lent to `find`, as an
//! implementation has no clauses where a trait's method takes a list by value. So `play` holds its
//! text while its events happen.
use std::prelude::*;

use crate::fault::ToolFault;
use crate::transfer::read_up_to;
use crate::watched::{StreamFailed, Watched};
use dvg_read::Unread;
use std::alloc::Allocator;
use std::io::{Read, Write};

/// What one engine does and the others don't: what it finds in an input, and the text that it
/// writes of that. `serve` reads the input, and deals with the failures of streams.
pub trait Engine<A: Allocator> {
    /// What is found in an input.
    type Found: Drop;

    /// The most bytes that an input may have. One more is read, if there is one.
    const MOST: u32;

    /// Finds what there is in `read`, the bytes that were read. Its memory comes from `alloc`.
    fn find(&self, alloc: A, read: &[u8]) -> Result<Self::Found, Unread>;

    /// Writes the text of `found` to `writer`.
    fn write<W: Write>(
        &self,
        found: &Self::Found,
        writer: &mut Watched<W>,
    ) -> Result<(), StreamFailed>;
}

/// Serves an input: reads it from `reader`, lets `engine` find what there is in it, and writes the
/// text of that to `writer`. Returns what was found.
///
/// - A fault of the text: the engine's. No more than `MOST + 1` bytes are taken.
/// - `Reader`, `Writer`: that stream failed. After `Writer` a beginning of the text went out.
/// - `Memory`: an allocation failed.
///
/// At any fault but `Writer` nothing is written.
pub fn serve<E: Engine<A>, A: Allocator + Copy, R: Read, W: Write>(
    engine: &E,
    alloc: A,
    reader: &mut Watched<R>,
    writer: &mut Watched<W>,
) -> Result<E::Found, ToolFault> {
    let found = {
        let read = read_up_to(alloc, reader, E::MOST as usize)?;
        engine.find(alloc, read.as_slice())?
    };
    match engine.write(&found, writer) {
        Ok(()) => Ok(found),
        Err(StreamFailed) => Err(ToolFault::Writer),
    }
}
}
mod fault {
//! Why an engine stops.
use dvg_code::OutOfMemory;
use dvg_read::{TextFault, Unread};
use thiserror::Error;

/// Why an engine stopped. Its text is what `dvg` prints of it (this project's own choice).
#[derive(Clone, Copy, Debug, PartialEq, Eq, Error, Hash)]
pub enum ToolFault {
    /// What was read is at fault.
    #[error(transparent)]
    Text(TextFault),
    /// The reader failed.
    #[error("read failed")]
    Reader,
    /// The writer failed.
    #[error("write failed")]
    Writer,
    /// An allocation failed.
    #[error("out of memory")]
    Memory,
}

impl From<OutOfMemory> for ToolFault {
    fn from(_refused: OutOfMemory) -> ToolFault {
        ToolFault::Memory
    }
}

impl From<Unread> for ToolFault {
    fn from(unread: Unread) -> ToolFault {
        match unread {
            Unread::Text(fault) => ToolFault::Text(fault),
            Unread::Memory => ToolFault::Memory,
        }
    }
}
}
mod strokes {
//! Strokes that are written.
use crate::transfer::write_whole;
use crate::watched::{StreamFailed, Watched};
use dvg_gen::Stroke;
use dvg_print::StrokeLines;
use std::io::Write;

/// Writes a line `x0 y0 x1 y1 z` to `writer` for each of `strokes`, each by itself: the next one is
/// handed to `writer` only when it took the whole of the one before (which is tested).
pub fn write_strokes<W: Write>(
    strokes: &[Stroke],
    writer: &mut Watched<W>,
) -> Result<(), StreamFailed> {
    write_strokes_in(&mut StrokeLines::new(), strokes, writer)
}

/// Writes lines as `write_strokes` does. They are made in `lines`.
#[inline(always)]
pub fn write_strokes_in<W: Write>(
    lines: &mut StrokeLines,
    strokes: &[Stroke],
    writer: &mut Watched<W>,
) -> Result<(), StreamFailed> {
    for stroke in strokes {
        lines.become_line(stroke);
        write_whole(writer, lines.as_bytes())?;
    }
    Ok(())
}
}
mod text {
//! A text that is made in memory.
use std::prelude::*;

use std::alloc::Allocator;
use std::fmt;

/// A text that grows as it is written to. A write fails where memory is refused.
pub struct Text<A: Allocator> {
    bytes: Vec<u8, A>,
}

impl<A: Allocator> Text<A> {
    /// Returns an empty text, whose memory comes from `alloc`.
    pub fn new(alloc: A) -> Text<A> {
        Text {
            bytes: Vec::new(alloc),
        }
    }

    /// Adds `bytes`. Fails where memory is refused.
    pub fn add(&mut self, bytes: &[u8]) -> fmt::Result {
        match self.bytes.extend_from_slice(bytes) {
            Ok(()) => Ok(()),
            Err(_) => Err(fmt::Error),
        }
    }

    /// Returns the bytes of the text.
    pub fn into_bytes(self) -> Vec<u8, A> {
        self.bytes
    }
}

impl<A: Allocator> fmt::Write for Text<A> {
    fn write_str(&mut self, part: &str) -> fmt::Result {
        self.add(part.as_bytes())
    }
}
}
mod transfer {
//! Whole reads and writes through watched streams.
use std::prelude::*;

use crate::fault::ToolFault;
use crate::watched::{StreamFailed, Watched};
use dvg_code::{OutOfMemory, word_at};
use memchr::memchr;
use std::alloc::Allocator;
use std::io::{Read, Write};

/// The most bytes that one read takes.
const PIECE: usize = 8192;

/// Returns all bytes that `reader` has left, or the first `most + 1` of them. It takes no more than
/// those. Returns `Reader` where a read fails, and `Memory` where an allocation does.
pub fn read_up_to<A: Allocator, R: Read>(
    alloc: A,
    reader: &mut Watched<R>,
    most: usize,
) -> Result<Vec<u8, A>, ToolFault> {
    let mut bytes = Vec::new(alloc);
    let mut piece = [0u8; PIECE];
    while bytes.len() <= most {
        let room = (most + 1 - bytes.len()).min(PIECE);
        let Ok(count) = reader.read(&mut piece[..room]) else {
            return Err(ToolFault::Reader);
        };
        if count == 0 {
            return Ok(bytes);
        }
        // A second piece gets all the room at once: to grow step by step would copy and touch more.
        if !bytes.is_empty() && bytes.reserve(most + 1 - bytes.len()).is_err() {
            return Err(ToolFault::Memory);
        }
        if bytes.extend_from_slice(&piece[..count]).is_err() {
            return Err(ToolFault::Memory);
        }
    }
    Ok(bytes)
}

/// Returns the words of `bytes`, an even number of bytes, the low byte of each word first. Returns
/// `OutOfMemory` where an allocation fails.
pub fn collect_words<A: Allocator>(alloc: A, bytes: &[u8]) -> Result<Vec<u16, A>, OutOfMemory> {
    let mut words = Vec::new(alloc);
    for k in 0..bytes.len() / 2 {
        words.push(word_at(bytes, k))?;
    }
    Ok(words)
}

/// Writes the whole of `text` to `writer`, by as many writes as it takes. After a failure a
/// beginning of `text` went out.
#[inline(always)]
pub fn write_whole<W: Write>(writer: &mut Watched<W>, text: &[u8]) -> Result<(), StreamFailed> {
    if text.is_empty() {
        return Ok(());
    }
    let Ok(count) = writer.write(text) else {
        return Err(StreamFailed);
    };
    if count == text.len() {
        return Ok(());
    }
    write_rest(writer, &text[count..])
}

// Writes `text`, what a first write left of a longer one, by as many writes as it takes. After a
// failure a beginning of it went out. A writer mostly takes all at once, so this loop stays out of
// the functions that write.
#[inline(never)]
fn write_rest<W: Write>(writer: &mut Watched<W>, text: &[u8]) -> Result<(), StreamFailed> {
    let mut rest = text;
    while !rest.is_empty() {
        let Ok(count) = writer.write(rest) else {
            return Err(StreamFailed);
        };
        rest = &rest[count..];
    }
    Ok(())
}

/// Writes the lines of `text` to `writer`, each by itself: the next one is handed to `writer` only
/// when it took the whole of the one before. (This is tested: a contract sees only what went out.)
/// After the last line end may stand a line without one. After a failure a beginning of `text` went
/// out.
pub fn write_lines<W: Write>(writer: &mut Watched<W>, text: &[u8]) -> Result<(), StreamFailed> {
    let mut rest = text;
    while let Some(end) = memchr(b'\n', rest) {
        write_whole(writer, &rest[..end + 1])?;
        rest = &rest[end + 1..];
    }
    write_whole(writer, rest)
}
}
mod watched {
//! Readers and writers whose failures are counted.
use std::io::{Read, Write};
use thiserror::Error;

/// A reader or writer failed, and the failure was counted.
#[derive(Clone, Copy, Debug, PartialEq, Eq, Error, Hash)]
#[error("a reader or writer failed")]
pub struct StreamFailed;

/// A reader or writer whose failures are counted. A failure is an error that it returns, or a write
/// that takes nothing of a part that isn't empty. An interrupted call is an error like any other.
/// `Watched` isn't a `Read` or `Write` itself, so no call goes past the count.
pub struct Watched<T> {
    stream: T,
    failures: u32,
}

impl<T> Watched<T> {
    /// Watches `stream`, a reader or writer, with the count 0.
    pub fn new(stream: T) -> Watched<T> {
        Watched {
            stream,
            failures: 0,
        }
    }

    /// Returns the number of failures so far. It saturates: it stays at its greatest value.
    pub fn failures(&self) -> u32 {
        self.failures
    }

    /// Returns the reader or writer that was watched.
    pub fn into_inner(self) -> T {
        self.stream
    }

    // Counts a failure, and returns it as an error.
    fn failed(&mut self) -> StreamFailed {
        self.failures = self.failures.saturating_add(1);
        StreamFailed
    }
}

impl<R: Read> Watched<R> {
    /// Reads once into `buf`, and returns how many bytes that gave. At an error no byte was taken,
    /// and the failure is counted.
    pub fn read(&mut self, buf: &mut [u8]) -> Result<usize, StreamFailed> {
        match self.stream.read(buf) {
            Ok(count) => Ok(count),
            Err(_) => Err(self.failed()),
        }
    }
}

impl<W: Write> Watched<W> {
    /// Writes `part`, a part of a text, once, and returns how many of its bytes were taken. At an
    /// error no byte went out, and the failure is counted.
    #[inline(always)]
    pub fn write(&mut self, part: &[u8]) -> Result<usize, StreamFailed> {
        match self.stream.write(part) {
            Ok(0) if !part.is_empty() => Err(self.failed()),
            Ok(count) => Ok(count),
            Err(_) => Err(self.failed()),
        }
    }

    /// Flushes once. At an error the failure is counted.
    pub fn flush(&mut self) -> Result<(), StreamFailed> {
        match self.stream.flush() {
            Ok(()) => Ok(()),
            Err(_) => Err(self.failed()),
        }
    }
}
}

pub use engine::{Engine, serve};
pub use fault::ToolFault;
pub use strokes::{write_strokes, write_strokes_in};
pub use text::Text;
pub use transfer::{collect_words, read_up_to, write_lines, write_whole};
pub use watched::{StreamFailed, Watched};
