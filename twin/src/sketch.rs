//! Sketches in plain Rust, for the plain twin: drafts with names, of several frames, and operations
//! of their ROM.

use crate::driver::encode;
use crate::frames::{MOST, Op, Rom};
use crate::memory::ROM_END;
use crate::rows::{Doing, Goes, RowLine, read_row, said, tokens_of};
use crate::texts::{MOST_TEXT_BYTES, RomText};
use std::collections::{HashMap, HashSet};
use std::fmt;

/// Why a text denotes nothing.
#[derive(Clone, Copy, Debug, PartialEq)]
pub enum SketchFault {
    TooLong,
    Syntax(usize),
    Twice(usize),
    Full(usize),
    OutOfRom(usize),
    Overlap(usize),
    Unknown(usize),
}

impl fmt::Display for SketchFault {
    fn fmt(&self, f: &mut fmt::Formatter) -> fmt::Result {
        match self {
            SketchFault::TooLong => write!(f, "too long"),
            SketchFault::Syntax(line) => write!(f, "syntax at line {line}"),
            SketchFault::Twice(line) => write!(f, "name given again at line {line}"),
            SketchFault::Full(line) => write!(f, "full at line {line}"),
            SketchFault::OutOfRom(line) => write!(f, "out of rom at line {line}"),
            SketchFault::Overlap(line) => write!(f, "overlap at line {line}"),
            SketchFault::Unknown(line) => write!(f, "unknown name at line {line}"),
        }
    }
}

/// A line of a sketch, and its number from 1.
#[derive(Clone, Copy)]
pub struct Source<'a> {
    pub number: usize,
    pub line: &'a [u8],
}

impl Source<'_> {
    /// The line's tokens without the name that it gives.
    pub fn said(&self) -> String {
        said(self.line)
    }
}

/// A frame of a sketch.
pub struct SketchFrame<'a> {
    pub name: Option<&'a str>,
    /// The line that begins it, or the text's first line.
    pub begin: Source<'a>,
    pub ops: Vec<Op>,
    /// The line of each operation.
    pub sources: Vec<Source<'a>>,
}

/// What the text of a sketch denotes.
pub struct Sketch<'a> {
    pub frames: Vec<SketchFrame<'a>>,
    pub rom: Rom,
    /// The names of the ROM, in the order of the text, with their word addresses.
    pub equates: Vec<(&'a str, u16)>,
}

/// A row that does something, and its line.
struct Row<'a> {
    doing: Doing<'a>,
    source: Source<'a>,
}

/// The rows of a frame, and the operation that each of its names names.
struct Rows<'a> {
    name: Option<&'a [u8]>,
    begin: Source<'a>,
    rows: Vec<Row<'a>>,
    names: HashMap<&'a [u8], u16>,
}

impl<'a> Rows<'a> {
    fn new(name: Option<&'a [u8]>, begin: Source<'a>) -> Rows<'a> {
        Rows {
            name,
            begin,
            rows: Vec::new(),
            names: HashMap::new(),
        }
    }
}

/// All sections of the ROM: the rows with their word addresses.
struct Laid<'a> {
    rows: Vec<(usize, Row<'a>)>,
    names: HashMap<&'a [u8], u16>,
    equates: Vec<(&'a [u8], u16)>,
    /// Whether a section lies on a word.
    is_taken: [bool; ROM_END],
    /// The word address after the last row.
    end: usize,
    /// The word address after all words that were given.
    free: usize,
}

/// Which section is open.
#[derive(Clone, Copy, PartialEq)]
enum Open {
    /// There are no rows yet.
    Nothing,
    Frame,
    Rom,
}

/// What the lines spell that were read.
struct Reader<'a> {
    first_line: Source<'a>,
    open: Open,
    rom: RomText,
    laid: Laid<'a>,
    frames: Vec<Rows<'a>>,
    frame_names: HashSet<&'a [u8]>,
}

/// A name, which has nothing but ASCII.
fn text_of(name: &[u8]) -> &str {
    str::from_utf8(name).unwrap_or_default()
}

impl<'a> Reader<'a> {
    fn new(first_line: Source<'a>) -> Reader<'a> {
        Reader {
            first_line,
            open: Open::Nothing,
            rom: RomText::new(),
            laid: Laid {
                rows: Vec::new(),
                names: HashMap::new(),
                equates: Vec::new(),
                is_taken: [false; ROM_END],
                end: 0,
                free: 0,
            },
            frames: Vec::new(),
            frame_names: HashSet::new(),
        }
    }

    /// Reads one line more.
    fn read(&mut self, source: Source<'a>) -> Result<(), SketchFault> {
        let tokens: Vec<_> = tokens_of(source.line).collect();
        if tokens.is_empty() {
            return Ok(());
        }
        if self.open == Open::Nothing && self.rom.read(&tokens.join(&b' ')).is_some() {
            return Ok(());
        }
        match read_row(&tokens).ok_or(SketchFault::Syntax(source.number))? {
            RowLine::Row(name, doing) => self.add_row(name, doing, source),
            RowLine::Frame(name) => self.begin_frame(name, source),
            RowLine::Rom(address) => self.begin_rom(address, source),
        }
    }

    fn begin_frame(
        &mut self,
        name: Option<&'a [u8]>,
        source: Source<'a>,
    ) -> Result<(), SketchFault> {
        if let Some(name) = name
            && !self.frame_names.insert(name)
        {
            return Err(SketchFault::Twice(source.number));
        }
        self.open = Open::Frame;
        self.frames.push(Rows::new(name, source));
        Ok(())
    }

    fn begin_rom(&mut self, address: Option<u16>, source: Source) -> Result<(), SketchFault> {
        self.open = Open::Rom;
        self.laid.free = self.laid.free.max(usize::from(self.rom.free()));
        let start = address.map_or(self.laid.free, usize::from);
        if start < usize::from(self.rom.first()) || start > ROM_END {
            return Err(SketchFault::OutOfRom(source.number));
        }
        self.laid.end = start;
        self.laid.free = self.laid.free.max(start);
        Ok(())
    }

    fn add_row(
        &mut self,
        name: Option<&'a [u8]>,
        doing: Option<Doing<'a>>,
        source: Source<'a>,
    ) -> Result<(), SketchFault> {
        if self.open == Open::Rom {
            return self.laid.add_row(name, doing, source);
        }
        if self.open == Open::Nothing {
            self.open = Open::Frame;
            self.frames.push(Rows::new(None, self.first_line));
        }
        match self.frames.last_mut() {
            Some(frame) => frame.add_row(name, doing, source),
            None => Ok(()),
        }
    }
}

impl<'a> Rows<'a> {
    fn add_row(
        &mut self,
        name: Option<&'a [u8]>,
        doing: Option<Doing<'a>>,
        source: Source<'a>,
    ) -> Result<(), SketchFault> {
        let number = self.rows.len();
        if let Some(name) = name
            && self.names.insert(name, number as u16).is_some()
        {
            return Err(SketchFault::Twice(source.number));
        }
        let Some(doing) = doing else {
            return Ok(());
        };
        if number == MOST {
            return Err(SketchFault::Full(source.number));
        }
        self.rows.push(Row { doing, source });
        Ok(())
    }

    /// The frame, where names of the ROM are these; or the first line that wants an unknown one.
    fn resolve(self, rom: &HashMap<&[u8], u16>) -> Result<SketchFrame<'a>, usize> {
        let resolve = |row: &Row| -> Option<Op> {
            Some(match row.doing {
                Doing::Plainly(op) => op,
                Doing::ByName(Goes::Call, name) => Op::Call(*self.names.get(name)?),
                Doing::ByName(Goes::Jump, name) => Op::Jump(*self.names.get(name)?),
                Doing::ByName(Goes::CallRom, name) => Op::CallRom(*rom.get(name)?),
                Doing::ByName(Goes::JumpRom, name) => Op::JumpRom(*rom.get(name)?),
            })
        };
        let ops: Result<Vec<Op>, usize> = self
            .rows
            .iter()
            .map(|row| resolve(row).ok_or(row.source.number))
            .collect();
        Ok(SketchFrame {
            name: self.name.map(text_of),
            begin: self.begin,
            ops: ops?,
            sources: self.rows.iter().map(|row| row.source).collect(),
        })
    }
}

impl<'a> Laid<'a> {
    fn add_row(
        &mut self,
        name: Option<&'a [u8]>,
        doing: Option<Doing<'a>>,
        source: Source<'a>,
    ) -> Result<(), SketchFault> {
        if let Some(Doing::Plainly(Op::Call(_) | Op::Jump(_))) = doing {
            return Err(SketchFault::Syntax(source.number));
        }
        if let Some(name) = name {
            if self.names.insert(name, self.end as u16).is_some() {
                return Err(SketchFault::Twice(source.number));
            }
            self.equates.push((name, self.end as u16));
        }
        let Some(doing) = doing else {
            return Ok(());
        };
        let (start, end) = (self.end, self.end + doing.words());
        let taken = self
            .is_taken
            .get_mut(start..end)
            .ok_or(SketchFault::OutOfRom(source.number))?;
        if taken.contains(&true) {
            return Err(SketchFault::Overlap(source.number));
        }
        taken.fill(true);
        self.rows.push((start, Row { doing, source }));
        self.end = end;
        self.free = self.free.max(end);
        Ok(())
    }

    /// Puts the words of all rows into the ROM, or answers the first line that wants a name which
    /// isn't given.
    fn put_into(&self, rom: &mut Rom) -> Result<(), usize> {
        for (start, row) in &self.rows {
            let named = |name| self.names.get(name).copied().ok_or(row.source.number);
            let op = match row.doing {
                Doing::Plainly(op) => op,
                Doing::ByName(Goes::Call | Goes::CallRom, name) => Op::CallRom(named(name)?),
                Doing::ByName(Goes::Jump | Goes::JumpRom, name) => Op::JumpRom(named(name)?),
            };
            let (words, count) = encode(op, |number| number);
            let place = start - usize::from(rom.first);
            rom.words[place..place + count].copy_from_slice(&words[..count]);
        }
        Ok(())
    }
}

impl<'a> Reader<'a> {
    /// What all lines spell, or the first line that wants an unknown name.
    fn finish(mut self) -> Result<Sketch<'a>, usize> {
        if self.open == Open::Nothing {
            self.frames.push(Rows::new(None, self.first_line));
        }
        let mut rom = self.rom.into_rom();
        let mut unknown = self.laid.put_into(&mut rom).err();
        let mut frames = Vec::with_capacity(self.frames.len());
        for rows in self.frames {
            match rows.resolve(&self.laid.names) {
                Ok(frame) => frames.push(frame),
                Err(line) => unknown = Some(unknown.map_or(line, |first| first.min(line))),
            }
        }
        if let Some(line) = unknown {
            return Err(line);
        }
        let equates = self.laid.equates.iter();
        Ok(Sketch {
            frames,
            rom,
            equates: equates
                .map(|(name, address)| (text_of(name), *address))
                .collect(),
        })
    }
}

/// What a text denotes. Its capitals become small letters.
pub fn read_sketch(text: &mut [u8]) -> Result<Sketch<'_>, SketchFault> {
    if text.len() > MOST_TEXT_BYTES {
        return Err(SketchFault::TooLong);
    }
    text.make_ascii_lowercase();
    // The part after the last LF is no line where it is empty, and such a line says nothing.
    let mut lines = (1..)
        .zip(text.split(|byte| *byte == b'\n'))
        .map(|(number, line)| Source { number, line })
        .peekable();
    let empty = Source {
        number: 1,
        line: b"",
    };
    let mut reader = Reader::new(*lines.peek().unwrap_or(&empty));
    for source in lines {
        reader.read(source)?;
    }
    reader.finish().map_err(SketchFault::Unknown)
}
