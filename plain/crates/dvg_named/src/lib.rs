//! Sketches as texts: drafts with names, of one or more frames, and the shapes of their ROM (the
//! format is this project's own choice). All lines of a text are read, each within the limits, or
//! up to the first line at fault. Of all lines come the frames, with the line of each operation,
//! the bytes of the ROM and its names, or the first line that needs a name which no line gives.
//! Each text has one meaning at most, and one fault, and never both.
#![no_std]

extern crate plain_std as std;

mod addresses {
//! The names of the ROM, and their word addresses.
use std::prelude::*;

use crate::laid::LaidRows;
use crate::meaning::RomName;
use dvg_code::OutOfMemory;
use dvg_rows::words_of_row;
use std::alloc::Allocator;

/// Returns all names that the laid `sections` give, in the order of the text, each with its word
/// address. Returns `OutOfMemory` where an allocation fails. The time grows with the number of
/// rows.
pub(crate) fn rom_names<'a, A: Allocator>(
    alloc: A,
    sections: &[LaidRows<'_, 'a>],
) -> Result<Vec<RomName<'a>, A>, OutOfMemory> {
    let mut found = Vec::new(alloc);
    for section in sections {
        push_names(&mut found, section)?;
    }
    Ok(found)
}

// Adds the names of `section` to `found`.
fn push_names<'a, A: Allocator>(
    found: &mut Vec<RomName<'a>, A>,
    section: &LaidRows<'_, 'a>,
) -> Result<(), OutOfMemory> {
    let mut next = section.start;
    for row in section.rows {
        push_name(found, row.name, next as u16)?;
        next += words_of_row(row);
    }
    Ok(())
}

// Adds `name` at the word address `address` to `found`, if there is a name.
fn push_name<'a, A: Allocator>(
    found: &mut Vec<RomName<'a>, A>,
    name: Option<&'a [u8]>,
    address: u16,
) -> Result<(), OutOfMemory> {
    if let Some(name) = name {
        found.push(RomName { name, address })?;
    }
    Ok(())
}
}
mod drafting {
//! The draft of a frame.
use crate::laid::{LaidNames, address_of};
use dvg_frame::{Draft, Op, OpKind};
use dvg_rows::{Doing, NamedRows, number_of};
use std::alloc::Allocator;

/// Returns the draft of a frame: what its `rows` do, in order. A name is that of an operation of
/// the frame, and after `callrom` and `jumprom` that of a word of `rom`. Returns `None` where a row
/// needs a name that isn't given. No memory is taken. The time grows with the number of rows of the
/// frame.
pub(crate) fn draft_of<A: Allocator + Copy>(
    rows: &NamedRows<'_, '_, A>,
    rom: &LaidNames<'_, '_, '_, A>,
) -> Option<Draft> {
    let mut draft = Draft::new();
    for row in rows.rows() {
        if let Some(doing) = &row.doing {
            let Some(op) = op_of(rows, rom, doing) else {
                return None;
            };
            draft.push(op).unwrap();
        }
    }
    Some(draft)
}

// Returns the operation of `doing`, which a row of the frame of `rows` does. Returns `None` where
// it needs a name that isn't given, in the frame or in `rom`.
fn op_of<A: Allocator + Copy>(
    rows: &NamedRows<'_, '_, A>,
    rom: &LaidNames<'_, '_, '_, A>,
    doing: &Doing,
) -> Option<Op> {
    match doing {
        Doing::Plainly(op) => Some(*op),
        Doing::Calls(name) => match number_of(rows, name) {
            Some(number) => Op::new(OpKind::Call(number as u16)),
            None => None,
        },
        Doing::Jumps(name) => match number_of(rows, name) {
            Some(number) => Op::new(OpKind::Jump(number as u16)),
            None => None,
        },
        Doing::CallsRom(name) => match address_of(rom, name) {
            Some(address) => Op::new(OpKind::CallRom(address)),
            None => None,
        },
        Doing::JumpsRom(name) => match address_of(rom, name) {
            Some(address) => Op::new(OpKind::JumpRom(address)),
            None => None,
        },
    }
}
}
pub mod examples {
//! Worked examples of the definitions. Each is the contract of a function that does nothing.
/// How a line becomes tokens.
pub fn lines() {}

/// What a line spells.
pub fn rows() {}

/// Which sections are frames.
pub fn frames() {}

/// Where operations stand.
pub fn places() {}

/// What whole texts denote, and which fault they have.
pub fn texts() {}
}
mod flat_draft {
//! The operations of frames in one list.
use std::prelude::*;

use crate::drafting::draft_of;
use crate::laid::LaidNames;
use dvg_frame::Op;
use dvg_rows::{GivenNames, NamedRows, Row};
use std::alloc::Allocator;

/// Why the operations of a frame aren't added.
#[derive(Clone, Copy)]
pub(crate) enum DraftFault {
    /// A row needs a name that isn't given.
    UnknownName,
    /// An allocation failed.
    Memory,
}

/// Adds the operations of the frame of `rows` to `ops`, in order. The names of the ROM are those of
/// `rom`. Where those of the frame are `given`, in order, no table is made of them. At an error
/// `ops` stays as it was.
pub(crate) fn push_draft<'a, A: Allocator + Copy>(
    alloc: A,
    ops: &mut Vec<Op, A>,
    rows: &[Row<'a>],
    rom: &LaidNames<'_, '_, '_, A>,
    given: &GivenNames<'a, A>,
) -> Result<(), DraftFault> {
    let Ok(named) = NamedRows::new(alloc, rows, given) else {
        return Err(DraftFault::Memory);
    };
    let Some(draft) = draft_of(&named, rom) else {
        return Err(DraftFault::UnknownName);
    };
    if ops.extend_from_slice(draft.ops()).is_err() {
        return Err(DraftFault::Memory);
    }
    Ok(())
}
}
mod frame_rows {
//! The frames among the sections of a sketch.
use std::prelude::*;

use dvg_code::OutOfMemory;
use dvg_rows::{Head, Part, Row, Source};
use std::alloc::Allocator;

/// The rows of a frame, and the lines that they stand in.
#[derive(Clone, Copy)]
pub(crate) struct FrameRows<'r, 'a> {
    /// Its name, if it has one.
    pub name: Option<&'a [u8]>,
    /// The line that begins it. A frame at the top begins with the text's first line.
    pub begin: Source<'a>,
    /// Its rows, in order.
    pub rows: &'r [Row<'a>],
    /// The line of each row.
    pub sources: &'r [Source<'a>],
}

/// Returns the frames, in order: those of the sections `closed`, and of the section `last` after
/// them. The first section of all is the one at the top. Returns `OutOfMemory` where an allocation
/// fails.
pub(crate) fn frame_rows<'r, 'a, A: Allocator + Copy>(
    alloc: A,
    closed: &'r [Part<'a, A>],
    last: &'r Part<'a, A>,
) -> Result<Vec<FrameRows<'r, 'a>, A>, OutOfMemory> {
    let [top, others @ ..] = closed else {
        let mut found = Vec::new(alloc);
        push_top(&mut found, last)?;
        return Ok(found);
    };
    let mut found = later_frames(alloc, top, others)?;
    push_frame(&mut found, last)?;
    Ok(found)
}

// Returns the frames among `top`, the section at the top, and `others`, the sections between it and
// the last one.
fn later_frames<'r, 'a, A: Allocator + Copy>(
    alloc: A,
    top: &'r Part<'a, A>,
    others: &'r [Part<'a, A>],
) -> Result<Vec<FrameRows<'r, 'a>, A>, OutOfMemory> {
    let mut found = Vec::new(alloc);
    if !top.rows.is_empty() {
        push_top(&mut found, top)?;
    }
    for part in others {
        push_frame(&mut found, part)?;
    }
    Ok(found)
}

// Adds `top`, the section at the top, to `found`.
fn push_top<'r, 'a, A: Allocator + Copy>(
    found: &mut Vec<FrameRows<'r, 'a>, A>,
    top: &'r Part<'a, A>,
) -> Result<(), OutOfMemory> {
    found.push(FrameRows {
        name: None,
        begin: top.begin,
        rows: top.rows.as_slice(),
        sources: top.sources.as_slice(),
    })?;
    Ok(())
}

// Adds the section `part` to `found`, if it is a frame.
fn push_frame<'r, 'a, A: Allocator + Copy>(
    found: &mut Vec<FrameRows<'r, 'a>, A>,
    part: &'r Part<'a, A>,
) -> Result<(), OutOfMemory> {
    if let Some(Head::Frame(name)) = part.head {
        found.push(FrameRows {
            name,
            begin: part.begin,
            rows: part.rows.as_slice(),
            sources: part.sources.as_slice(),
        })?;
    }
    Ok(())
}
}
mod joining {
//! The drafts of all frames, with their operations in one list.
use std::prelude::*;

use crate::flat_draft::{DraftFault, push_draft};
use crate::frame_rows::FrameRows;
use crate::laid::LaidNames;
use dvg_code::OutOfMemory;
use dvg_frame::Op;
use dvg_rows::{GivenNames, Row, Source};
use std::alloc::Allocator;

/// Where the operations of a frame stand in the list of those of all frames.
#[derive(Clone, Copy)]
pub struct FrameSpan<'a> {
    /// The name of the frame, if it has one.
    pub name: Option<&'a [u8]>,
    /// The line that begins it.
    pub begin: Source<'a>,
    /// The number of its first operation.
    pub start: usize,
    /// The number after that of its last one.
    pub end: usize,
}

/// The operations of all frames, in order, each with its line, and where those of each frame stand.
pub struct JoinedFrames<'a, A: Allocator> {
    /// All operations.
    pub ops: Vec<Op, A>,
    /// The line of each operation.
    pub sources: Vec<Source<'a>, A>,
    /// Where those of each frame stand.
    pub spans: Vec<FrameSpan<'a>, A>,
}

/// Returns the drafts of `frames`, with the names of the ROM from `rom`. Of a frame whose names are
/// `given`, in order, no table is made. Returns `UnknownName` where one needs a name that isn't
/// given, and `Memory` where an allocation fails.
pub(crate) fn join_frames<'a, A: Allocator + Copy>(
    alloc: A,
    frames: &[FrameRows<'_, 'a>],
    rom: &LaidNames<'_, '_, '_, A>,
    given: &GivenNames<'a, A>,
) -> Result<JoinedFrames<'a, A>, DraftFault> {
    let room = row_count(frames);
    let Ok(mut ops) = Vec::with_capacity(alloc, room) else {
        return Err(DraftFault::Memory);
    };
    let Ok(mut sources) = Vec::with_capacity(alloc, room) else {
        return Err(DraftFault::Memory);
    };
    let mut spans = Vec::new(alloc);
    for frame in frames {
        if push_sources(&mut sources, frame).is_err() {
            return Err(DraftFault::Memory);
        }
        let span = match push_frame(alloc, &mut ops, frame, rom, given) {
            Ok(span) => span,
            Err(fault) => return Err(fault),
        };
        if spans.push(span).is_err() {
            return Err(DraftFault::Memory);
        }
    }
    Ok(JoinedFrames {
        ops,
        sources,
        spans,
    })
}

// Returns how many rows `frames` have, or the greatest `usize` where that is less.
fn row_count(frames: &[FrameRows]) -> usize {
    let mut count: usize = 0;
    for frame in frames {
        count = count.saturating_add(frame.rows.len());
    }
    count
}

// Adds the lines of the operations of `frame` to `sources`.
fn push_sources<'a, A: Allocator + Copy>(
    sources: &mut Vec<Source<'a>, A>,
    frame: &FrameRows<'_, 'a>,
) -> Result<(), OutOfMemory> {
    for (place, row) in frame.rows.iter().enumerate() {
        push_line(sources, row, &frame.sources[place])?;
    }
    Ok(())
}

// Adds the line `source` of `row` to `sources`, if the row does something.
fn push_line<'a, A: Allocator + Copy>(
    sources: &mut Vec<Source<'a>, A>,
    row: &Row,
    source: &Source<'a>,
) -> Result<(), OutOfMemory> {
    if row.doing.is_some() {
        sources.push(*source)?;
    }
    Ok(())
}

// Adds the operations of `frame` to `ops`, with the names of the ROM from `rom`. Returns where they
// stand. Where its names are `given`, in order, no table is made of them.
fn push_frame<'a, A: Allocator + Copy>(
    alloc: A,
    ops: &mut Vec<Op, A>,
    frame: &FrameRows<'_, 'a>,
    rom: &LaidNames<'_, '_, '_, A>,
    given: &GivenNames<'a, A>,
) -> Result<FrameSpan<'a>, DraftFault> {
    let start = ops.len();
    match push_draft(alloc, ops, frame.rows, rom, given) {
        Ok(()) => Ok(FrameSpan {
            name: frame.name,
            begin: frame.begin,
            start,
            end: ops.len(),
        }),
        Err(fault) => Err(fault),
    }
}
}
mod laid {
//! Where sections of the ROM are laid. A section may overwrite words of `rom` lines, so one can
//! change a shape of an old ROM. The first free word is the one after the highest, so none lands in
//! a gap too small for it.
use std::prelude::*;

use crate::meaning::RomName;
use dvg_code::OutOfMemory;
use dvg_rows::{GivenNames, Row, size};
use std::alloc::Allocator;

/// The rows of a section of the ROM, and the word address that its line `.rom` gives, if it gives
/// one.
#[derive(Clone, Copy)]
pub(crate) struct RomRows<'r, 'a> {
    /// The word address that is given.
    pub address: Option<u16>,
    /// The rows, in order.
    pub rows: &'r [Row<'a>],
}

/// The rows of a section of the ROM, and the word address from which on they are laid.
#[derive(Clone, Copy)]
pub(crate) struct LaidRows<'r, 'a> {
    /// The word address of the first word.
    pub start: usize,
    /// The rows, in order.
    pub rows: &'r [Row<'a>],
}

/// Laid sections, and all names that they give.
pub(crate) struct LaidNames<'s, 'r, 'a, A: Allocator + Copy> {
    sections: &'s [LaidRows<'r, 'a>],
    // The names, in order, by which one is found; and the same with their addresses.
    given: &'s GivenNames<'a, A>,
    names: &'s [RomName<'a>],
}

impl<'s, 'r, 'a, A: Allocator + Copy> LaidNames<'s, 'r, 'a, A> {
    /// Returns `sections` with the names that they give, which are `names`. These are `given`, in
    /// order. No memory is taken.
    pub fn new(
        sections: &'s [LaidRows<'r, 'a>],
        given: &'s GivenNames<'a, A>,
        names: &'s [RomName<'a>],
    ) -> LaidNames<'s, 'r, 'a, A> {
        LaidNames {
            sections,
            given,
            names,
        }
    }

    /// Returns the sections, in order.
    pub fn sections(&self) -> &'s [LaidRows<'r, 'a>] {
        self.sections
    }
}

/// Returns `sections` as they are laid, in order. Each is laid from its address on, or else from
/// the first word after all that were laid before, which for the first section is `free` (this
/// project's own choice). Returns `OutOfMemory` where an allocation fails. The time grows with the
/// number of rows.
pub(crate) fn lay<'r, 'a, A: Allocator>(
    alloc: A,
    free: usize,
    sections: &[RomRows<'r, 'a>],
) -> Result<Vec<LaidRows<'r, 'a>, A>, OutOfMemory> {
    let mut laid = Vec::new(alloc);
    let mut next = free;
    for section in sections {
        let start = start_of(section.address, next);
        laid.push(LaidRows {
            start,
            rows: section.rows,
        })?;
        next = next.max(start + size(section.rows));
    }
    Ok(laid)
}

/// Returns the first word address that is free after one more line `rom`, where `free` was it
/// before and `end` is the address after the line's words. Before the first line it is that of the
/// ROM's first word.
pub(crate) fn free_with(free: u16, end: u16) -> u16 {
    free.max(end)
}

// Returns `address`, or `next` where none is given.
fn start_of(address: Option<u16>, next: usize) -> usize {
    match address {
        Some(given) => usize::from(given),
        None => next,
    }
}

/// Returns the word address that `name` names in the ROM of `sections`. Returns `None` exactly
/// where no row of them gives it. The time doesn't grow with the number of rows.
///
/// Where each name is given once, no other address is that of `name`. A name after the last
/// operation of its section is the address after the section (this project's own choice).
pub(crate) fn address_of<A: Allocator + Copy>(
    sections: &LaidNames<'_, '_, '_, A>,
    name: &[u8],
) -> Option<u16> {
    listed_address(sections.given, sections.names, name)
}

// Returns the address of `name`, if it is one of `given`. `names` are the same with their
// addresses.
fn listed_address<A: Allocator + Copy>(
    given: &GivenNames<'_, A>,
    names: &[RomName],
    name: &[u8],
) -> Option<u16> {
    let place = given.place_of(name)?;
    let named = names.get(place)?;
    Some(named.address)
}
}
mod meaning {
//! What the text of a sketch denotes, with the lines that it comes from.
use dvg_frame::Op;
use dvg_rows::Source;

/// A frame of a sketch.
#[derive(Clone, Copy)]
pub struct NamedFrame<'a> {
    /// Its name, if it has one.
    pub name: Option<&'a [u8]>,
    /// The line that begins it. A frame before the first section begins with the text's first line.
    pub begin: Source<'a>,
    /// Its operations, in order.
    pub ops: &'a [Op],
    /// The line of each operation.
    pub sources: &'a [Source<'a>],
}

/// A name of the ROM.
#[derive(Clone, Copy)]
pub struct RomName<'a> {
    /// The name.
    pub name: &'a [u8],
    /// The word address that it names.
    pub address: u16,
}
}
mod reading {
//! What the lines of a sketch spell that were read.
use std::prelude::*;

use crate::flat_draft::DraftFault;
use crate::frame_rows::{FrameRows, frame_rows};
use crate::joining::{JoinedFrames, join_frames};
use crate::laid::{LaidNames, LaidRows, lay};
use crate::rom_sections::rom_rows;
use crate::rom_words::put_sections;
use crate::stated_rom::StatedRom;
use crate::unknown::first_unknown;
use arrayvec::ArrayVec;
use dvg_code::OutOfMemory;
use dvg_frame::{MAX_OPS, OpKind};
use dvg_mem::LARGE_ROM_BYTES;
use dvg_read::LineFault;
use dvg_rows::{
    Doing, GivenNames, Head, Part, RomArea, Row, Source, read_head, read_row, words_of_row,
};
use std::alloc::Allocator;
use std::mem;

/// What the lines spell that were read. After a fault no more is read.
pub(crate) struct Reading<'a, A: Allocator + Copy> {
    alloc: A,
    rom: StatedRom,
    // The sections before the last one.
    closed: Vec<Part<'a, A>, A>,
    // The last section.
    last: Part<'a, A>,
    frame_names: GivenNames<'a, A>,
    rom_names: GivenNames<'a, A>,
    // The names and the number of operations of the last section, where it is a frame.
    names: GivenNames<'a, A>,
    count: usize,
    area: RomArea,
}

impl<'a, A: Allocator + Copy> Reading<'a, A> {
    /// Returns the reading before the line `first`, which is the text's first. Its memory comes
    /// from `alloc`.
    pub fn new(alloc: A, first: Source<'a>) -> Reading<'a, A> {
        Reading {
            alloc,
            rom: StatedRom::new(),
            closed: Vec::new(alloc),
            last: Part::new(alloc, None, first),
            frame_names: GivenNames::new(alloc),
            rom_names: GivenNames::new(alloc),
            names: GivenNames::new(alloc),
            count: 0,
            area: RomArea::new(),
        }
    }

    /// Reads the line `source`, whose tokens are `tokens`.
    pub fn add(&mut self, source: Source<'a>, tokens: &[&'a [u8]]) -> Result<(), LineFault> {
        if self.is_bare() && self.tell(tokens) {
            return Ok(());
        }
        if let Some(head) = read_head(tokens) {
            return self.begin_section(head, source);
        }
        let Some(row) = read_row(tokens) else {
            return Err(LineFault::Syntax);
        };
        self.add_row(&row, source)
    }

    // Whether no line has stated a row and no section has begun.
    fn is_bare(&self) -> bool {
        self.closed.is_empty() && self.last.rows.is_empty()
    }

    // Reads a line of `tokens` if it describes the ROM. Returns whether it does. Else nothing
    // changes.
    fn tell(&mut self, tokens: &[&[u8]]) -> bool {
        if !self.rom.take(tokens) {
            return false;
        }
        self.area.set_free(self.rom.free());
        true
    }

    // Begins a section with `head`, in the line `source`.
    fn begin_section(&mut self, head: Head<'a>, source: Source<'a>) -> Result<(), LineFault> {
        match head {
            Head::Frame(name) => self.begin_frame(name, source),
            Head::Rom(address) => self.begin_rom(address, source),
        }
    }

    // Begins a frame with `name`, if there is one, in the line `source`.
    fn begin_frame(&mut self, name: Option<&'a [u8]>, source: Source<'a>) -> Result<(), LineFault> {
        if let Err(fault) = self.frame_names.give(name) {
            return Err(fault);
        }
        self.open_part(Head::Frame(name), source)
    }

    // Begins a section of the ROM in the line `source`, at the word address `address`, or else at
    // the first free word.
    fn begin_rom(&mut self, address: Option<u16>, source: Source<'a>) -> Result<(), LineFault> {
        let first = self.rom.first();
        if let Err(fault) = self.area.begin(first, address) {
            return Err(fault);
        }
        self.open_part(Head::Rom(address), source)
    }

    // Closes the last section, and opens another one with `head`, in the line `source`. Returns
    // `Memory` where an allocation fails.
    fn open_part(&mut self, head: Head<'a>, source: Source<'a>) -> Result<(), LineFault> {
        self.last.fit();
        let part = Part::new(self.alloc, Some(head), source);
        let closed = mem::replace(&mut self.last, part);
        if self.closed.push(closed).is_err() {
            return Err(LineFault::Memory);
        }
        self.names.clear();
        self.count = 0;
        Ok(())
    }

    // Adds `row`, which stands in the line `source`, to the last section.
    fn add_row(&mut self, row: &Row<'a>, source: Source<'a>) -> Result<(), LineFault> {
        match self.last.head {
            Some(Head::Rom(_)) => self.add_rom_row(row, source),
            _ => self.add_frame_row(row, source),
        }
    }

    // Adds `row`, which stands in the line `source`, to the last section, which is a frame.
    fn add_frame_row(&mut self, row: &Row<'a>, source: Source<'a>) -> Result<(), LineFault> {
        if let Err(fault) = self.names.give(row.name) {
            return Err(fault);
        }
        let Some(count) = counted(self.count, row) else {
            return Err(LineFault::Full);
        };
        self.count = count;
        self.last.push(row, source)
    }

    // Adds `row`, which stands in the line `source`, to the last section, which is of the ROM.
    fn add_rom_row(&mut self, row: &Row<'a>, source: Source<'a>) -> Result<(), LineFault> {
        if !may_stand_in_rom(row) {
            return Err(LineFault::Syntax);
        }
        if let Err(fault) = self.rom_names.give(row.name) {
            return Err(fault);
        }
        if let Err(fault) = self.area.take(words_of_row(row)) {
            return Err(fault);
        }
        self.last.push(row, source)
    }

    /// Returns the sections of the ROM as they are laid, after all lines of a text. Returns
    /// `OutOfMemory` where an allocation fails.
    pub fn lay(&self) -> Result<Vec<LaidRows<'_, 'a>, A>, OutOfMemory> {
        let sections = rom_rows(self.alloc, self.closed.as_slice(), &self.last)?;
        lay(
            self.alloc,
            usize::from(self.rom.free()),
            sections.as_slice(),
        )
    }

    /// Returns the names that the sections of the ROM gave, in order.
    pub fn given_in_rom(&self) -> &GivenNames<'a, A> {
        &self.rom_names
    }

    /// Returns the bytes of the ROM, with the words of its sections as they are `laid`, after all
    /// lines of a text. Returns `None` where a row of the ROM needs a name that isn't given. No
    /// memory is taken.
    #[must_use]
    pub fn rom(&self, laid: &LaidNames<'_, '_, '_, A>) -> Option<ArrayVec<u8, LARGE_ROM_BYTES>> {
        let mut bytes = self.rom.bytes();
        match put_sections(bytes.as_mut_slice(), laid) {
            Some(()) => Some(bytes),
            None => None,
        }
    }

    /// Returns the number of the first line that needs a name which isn't given, after all lines of
    /// a text, where `laid` has the names of the ROM. Returns `OutOfMemory` where an allocation
    /// fails. The time grows with the number of rows.
    pub fn first_unknown(
        &self,
        laid: &LaidNames<'_, '_, '_, A>,
    ) -> Result<Option<usize>, OutOfMemory> {
        first_unknown(
            self.alloc,
            self.closed.as_slice(),
            &self.last,
            laid,
            &self.names,
        )
    }

    /// Returns the frames, in order, after the lines that were read. Returns `OutOfMemory` where an
    /// allocation fails.
    pub fn frames(&self) -> Result<Vec<FrameRows<'_, 'a>, A>, OutOfMemory> {
        frame_rows(self.alloc, self.closed.as_slice(), &self.last)
    }

    /// Returns the drafts of the frames, in order, after all lines of a text. The names of the ROM
    /// are those of `laid`. Returns `UnknownName` where a frame needs a name that isn't given, and
    /// `Memory` where an allocation fails.
    pub fn drafts(&self, laid: &LaidNames<'_, '_, '_, A>) -> Result<JoinedFrames<'a, A>, DraftFault> {
        let Ok(found) = self.frames() else {
            return Err(DraftFault::Memory);
        };
        join_frames(self.alloc, found.as_slice(), laid, &self.names)
    }
}

// Returns how many operations a frame has that had `count` of them, with `row` added. Returns
// `None` where a draft can't hold that many.
fn counted(count: usize, row: &Row) -> Option<usize> {
    if row.doing.is_none() {
        return Some(count);
    }
    if count >= MAX_OPS {
        return None;
    }
    Some(count + 1)
}

// Whether `row` may stand in the ROM: it neither calls nor jumps by the number of an operation.
fn may_stand_in_rom(row: &Row) -> bool {
    match &row.doing {
        Some(doing) => may_be_encoded(doing),
        None => true,
    }
}

// Whether `doing`, what a row does, may be done in the ROM.
fn may_be_encoded(doing: &Doing) -> bool {
    match doing {
        Doing::Plainly(op) => is_without_number(op.kind()),
        Doing::Calls(_) | Doing::Jumps(_) | Doing::CallsRom(_) | Doing::JumpsRom(_) => true,
    }
}

// Whether an operation of this `kind` neither calls nor jumps by a number.
fn is_without_number(kind: OpKind) -> bool {
    !matches!(kind, OpKind::Call(_) | OpKind::Jump(_))
}
}
mod rom_sections {
//! The sections of the ROM among those of a sketch.
use std::prelude::*;

use crate::laid::RomRows;
use dvg_code::OutOfMemory;
use dvg_rows::{Head, Part};
use std::alloc::Allocator;

/// Returns the sections of the ROM, in order: those among the sections `closed`, and the section
/// `last` if it is one. Returns `OutOfMemory` where an allocation fails.
pub(crate) fn rom_rows<'r, 'a, A: Allocator + Copy>(
    alloc: A,
    closed: &'r [Part<'a, A>],
    last: &'r Part<'a, A>,
) -> Result<Vec<RomRows<'r, 'a>, A>, OutOfMemory> {
    let mut found = match closed {
        [] => Vec::new(alloc),
        [_, others @ ..] => later_rows(alloc, others)?,
    };
    push_rom(&mut found, last)?;
    Ok(found)
}

// Returns the sections of the ROM among `others`.
fn later_rows<'r, 'a, A: Allocator + Copy>(
    alloc: A,
    others: &'r [Part<'a, A>],
) -> Result<Vec<RomRows<'r, 'a>, A>, OutOfMemory> {
    let mut found = Vec::new(alloc);
    for part in others {
        push_rom(&mut found, part)?;
    }
    Ok(found)
}

// Adds the section `part` to `found`, if it is of the ROM.
fn push_rom<'r, 'a, A: Allocator + Copy>(
    found: &mut Vec<RomRows<'r, 'a>, A>,
    part: &'r Part<'a, A>,
) -> Result<(), OutOfMemory> {
    if let Some(Head::Rom(address)) = part.head {
        found.push(RomRows {
            address,
            rows: part.rows.as_slice(),
        })?;
    }
    Ok(())
}
}
mod rom_words {
//! The words of the ROM's sections, in the bytes of a ROM.
use crate::laid::{LaidNames, LaidRows, address_of};
use dvg_code::{Code, Instr, encode};
use dvg_frame::OpKind;
use dvg_mem::ROM_END;
use dvg_read::put_word;
use dvg_rows::Doing;
use std::alloc::Allocator;

/// Puts the canonical words of the laid `sections` into `rom`, the 2,048 or 4,096 bytes of a ROM.
/// Each section goes to its address, the low byte of a word first. So bytes of which lines `rom`
/// gave the words become those that the same words would have made of them, given by further lines.
/// Returns `None` where a row needs a name that isn't given; what was put before it stays. No
/// memory is taken. The time grows with the number of rows.
pub(crate) fn put_sections<A: Allocator + Copy>(
    rom: &mut [u8],
    sections: &LaidNames<'_, '_, '_, A>,
) -> Option<()> {
    let first = ROM_END as usize - rom.len() / 2;
    for section in sections.sections() {
        let Some(()) = put_section(rom, first, sections, section) else {
            return None;
        };
    }
    Some(())
}

// Puts the words of `section`, one of `sections`, into `rom`, the bytes of a ROM. `first` is the
// word address of the ROM's first word. Returns `None` where a row needs a name that isn't given.
fn put_section<A: Allocator + Copy>(
    rom: &mut [u8],
    first: usize,
    sections: &LaidNames<'_, '_, '_, A>,
    section: &LaidRows,
) -> Option<()> {
    let mut next = section.start - first;
    for row in section.rows {
        if let Some(doing) = &row.doing {
            let Some(code) = code_of(sections, doing) else {
                return None;
            };
            next = put_code(rom, next, code);
        }
    }
    Some(())
}

// Puts the words of `code` into `rom` from `place` on. Returns the place after them. Places are
// counted in words.
fn put_code(rom: &mut [u8], place: usize, code: Code) -> usize {
    let spelled = encode(&code);
    let words = spelled.as_slice();
    let mut next = place;
    for word in words {
        put_word(rom, next, *word);
        next += 1;
    }
    next
}

// Returns the instruction of `doing`, which a row of the ROM does. Returns `None` where it needs a
// name that `sections` don't give.
fn code_of<A: Allocator + Copy>(sections: &LaidNames<'_, '_, '_, A>, doing: &Doing) -> Option<Code> {
    match doing {
        Doing::Plainly(op) => Some(plain_code(op.kind())),
        Doing::Calls(name) => call_of(sections, name),
        Doing::Jumps(name) => jump_of(sections, name),
        Doing::CallsRom(name) => call_of(sections, name),
        Doing::JumpsRom(name) => jump_of(sections, name),
    }
}

// Returns the instruction of an operation of this `kind`, which has no name.
fn plain_code(kind: OpKind) -> Code {
    match kind {
        OpKind::Draw(code) => code,
        OpKind::CallRom(address) => Code::within(Instr::Jsrl(address)),
        OpKind::JumpRom(address) => Code::within(Instr::Jmpl(address)),
        OpKind::Return => Code::within(Instr::Rtsl),
        OpKind::Halt => Code::within(Instr::Halt),
        OpKind::Call(_) | OpKind::Jump(_) => unreachable!(),
    }
}

// Returns the call of `name`, or `None` where `sections` don't give it.
fn call_of<A: Allocator + Copy>(sections: &LaidNames<'_, '_, '_, A>, name: &[u8]) -> Option<Code> {
    match address_of(sections, name) {
        Some(address) => Some(Code::within(Instr::Jsrl(address))),
        None => None,
    }
}

// Returns the jump to `name`, or `None` where `sections` don't give it.
fn jump_of<A: Allocator + Copy>(sections: &LaidNames<'_, '_, '_, A>, name: &[u8]) -> Option<Code> {
    match address_of(sections, name) {
        Some(address) => Some(Code::within(Instr::Jmpl(address))),
        None => None,
    }
}
}
mod sketch {
//! Sketches that were read.
use std::prelude::*;

use crate::addresses::rom_names;
use crate::flat_draft::DraftFault;
use crate::joining::{FrameSpan, JoinedFrames};
use crate::laid::LaidNames;
use crate::meaning::{NamedFrame, RomName};
use crate::reading::Reading;
use crate::text_reading::read_lines;
use arrayvec::ArrayVec;
use dvg_code::OutOfMemory;
use dvg_mem::LARGE_ROM_BYTES;
use dvg_read::{TextFault, Unread};
use std::alloc::Allocator;

/// A sketch that was read.
pub struct Sketch<'a, A: Allocator> {
    /// The bytes of the ROM, 2,048 or 4,096, the low byte of each word first.
    pub rom: ArrayVec<u8, LARGE_ROM_BYTES>,
    /// The names of the ROM, in the order of the text, each with its word address.
    pub names: Vec<RomName<'a>, A>,
    /// The frames, in order.
    pub frames: JoinedFrames<'a, A>,
}

impl<'a, A: Allocator + Copy> Sketch<'a, A> {
    /// Returns the frames, in order, each with its operations and their lines. The list is in
    /// memory from `alloc`. Returns `OutOfMemory` where an allocation fails.
    pub fn frames(&self, alloc: A) -> Result<Vec<NamedFrame<'_>, A>, OutOfMemory> {
        let mut frames = Vec::new(alloc);
        for span in &self.frames.spans {
            frames.push(self.frame_at(span))?;
        }
        Ok(frames)
    }

    // Returns the frame whose operations stand at `span`.
    fn frame_at(&self, span: &FrameSpan<'a>) -> NamedFrame<'_> {
        NamedFrame {
            name: span.name,
            begin: span.begin,
            ops: &self.frames.ops[span.start..span.end],
            sources: &self.frames.sources[span.start..span.end],
        }
    }
}

/// Reads a sketch from `small`, its text in small letters. In the text itself, lines and names mean
/// the same in either case.
///
/// - `Text`: the fault of the text, that of the first line at fault. `TooLong`, the text has more
///   than `MOST_TEXT_BYTES`, comes before all others, and `UnknownName` after them.
/// - `Memory`: an allocation failed.
///
/// The time grows with the length of the text.
pub fn read_sketch<'a, A: Allocator + Copy>(
    alloc: A,
    small: &'a [u8],
) -> Result<Sketch<'a, A>, Unread> {
    let reading = match read_lines(alloc, small) {
        Ok(reading) => reading,
        Err(fault) => return Err(fault),
    };
    sketch_of(alloc, &reading)
}

// Returns the sketch of a text of which all lines are in `reading`.
fn sketch_of<'a, A: Allocator + Copy>(
    alloc: A,
    reading: &Reading<'a, A>,
) -> Result<Sketch<'a, A>, Unread> {
    let Ok(rows) = reading.lay() else {
        return Err(Unread::Memory);
    };
    let sections = rows.as_slice();
    let Ok(names) = rom_names(alloc, sections) else {
        return Err(Unread::Memory);
    };
    let laid = LaidNames::new(sections, reading.given_in_rom(), names.as_slice());
    let Some(rom) = reading.rom(&laid) else {
        return Err(unknown(reading, &laid));
    };
    match reading.drafts(&laid) {
        Ok(frames) => Ok(Sketch { rom, names, frames }),
        Err(DraftFault::Memory) => Err(Unread::Memory),
        Err(DraftFault::UnknownName) => Err(unknown(reading, &laid)),
    }
}

// Returns the fault of the first line in `reading` that needs a name which isn't given, where there
// is one. `laid` has the names of the ROM. Returns `Memory` where an allocation fails.
fn unknown<A: Allocator + Copy>(reading: &Reading<'_, A>, laid: &LaidNames<'_, '_, '_, A>) -> Unread {
    match reading.first_unknown(laid) {
        Ok(Some(number)) => Unread::Text(TextFault::UnknownName(number)),
        Ok(None) => unreachable!(),
        Err(_) => Unread::Memory,
    }
}
}
mod stated_rom {
//! What the first lines of a sketch say of its ROM.
use crate::laid::free_with;
use arrayvec::ArrayVec;
use dvg_mem::{FIRST_LARGE_ROM_WORD, FIRST_ROM_WORD, LARGE_ROM_BYTES, ROM_END};
use dvg_read::{fill_with_returns, read_rom_parts};

/// The ROM that the lines describe which were read so far.
pub(crate) struct StatedRom {
    // Whether a line stated something.
    is_stated: bool,
    bytes: ArrayVec<u8, LARGE_ROM_BYTES>,
    // The first word address after those that lines gave.
    free: u16,
}

impl StatedRom {
    /// Returns the ROM before the first line.
    pub fn new() -> StatedRom {
        let mut bytes = ArrayVec::new();
        fill_with_returns(&mut bytes, FIRST_ROM_WORD);
        StatedRom {
            is_stated: false,
            bytes,
            free: FIRST_ROM_WORD,
        }
    }

    /// Reads a line of `tokens`. Returns whether it describes something of the ROM, and may stand
    /// here. Where it doesn't, nothing changes.
    #[must_use]
    pub fn take(&mut self, tokens: &[&[u8]]) -> bool {
        if let Some(first) = map_of(tokens) {
            if self.is_stated {
                return false;
            }
            self.is_stated = true;
            fill_with_returns(&mut self.bytes, first);
            self.free = first;
            return true;
        }
        let first = self.first();
        let Some(given) = read_rom_parts(first, tokens) else {
            return false;
        };
        given.put(first, self.bytes.as_mut_slice());
        self.free = free_with(self.free, given.end());
        self.is_stated = true;
        true
    }

    /// Returns the bytes of the ROM.
    pub fn bytes(&self) -> ArrayVec<u8, LARGE_ROM_BYTES> {
        let mut bytes = ArrayVec::new();
        bytes.try_extend_from_slice(self.bytes.as_slice()).unwrap();
        bytes
    }

    /// Returns the first word address after those that lines gave.
    pub fn free(&self) -> u16 {
        self.free
    }

    /// Returns the word address of the ROM's first word. The last one is at BFF.
    pub fn first(&self) -> u16 {
        ROM_END - (self.bytes.as_slice().len() / 2) as u16
    }
}

// Returns the word address of the ROM's first word in the memory map that a line of `tokens` gives,
// or `None` exactly where it gives none.
fn map_of(tokens: &[&[u8]]) -> Option<u16> {
    match tokens {
        [name, size] => map_named(name, size),
        _ => None,
    }
}

// Like `map_of`, for a line of the two tokens `name` and `size`.
fn map_named(name: &[u8], size: &[u8]) -> Option<u16> {
    if name != b"map".as_slice() {
        return None;
    }
    match size {
        b"2048" => Some(FIRST_ROM_WORD),
        b"4096" => Some(FIRST_LARGE_ROM_WORD),
        _ => None,
    }
}
}
mod text_reading {
//! What all lines of a sketch spell.
use crate::reading::Reading;
use arrayvec::ArrayVec;
use dvg_read::{MOST_TEXT_BYTES, TextFault, TextLines, Unread};
use dvg_rows::{Source, find_tokens};
use std::alloc::Allocator;

/// Reads all lines of `small`, a text in small letters, in one pass. Returns `Text` where `small`
/// is too long or a line is at fault, with the first such line, and `Memory` where an allocation
/// fails.
pub(crate) fn read_lines<'a, A: Allocator + Copy>(
    alloc: A,
    small: &'a [u8],
) -> Result<Reading<'a, A>, Unread> {
    if small.len() > MOST_TEXT_BYTES {
        return Err(Unread::Text(TextFault::TooLong));
    }
    let mut reading = Reading::new(alloc, first_line(small));
    let mut tokens = ArrayVec::new();
    let mut number = 0;
    for line in TextLines::new(small) {
        number += 1;
        if let Err(many) = find_tokens(line, &mut tokens) {
            return Err(many.at_line(number));
        }
        if tokens.is_empty() {
            continue;
        }
        if let Err(fault) = reading.add(Source { number, line }, tokens.as_slice()) {
            return Err(fault.at_line(number));
        }
    }
    Ok(reading)
}

// Returns the first line of `text`, which is empty where there is none.
fn first_line(text: &[u8]) -> Source<'_> {
    let mut lines = TextLines::new(text);
    match lines.next() {
        Some(line) => Source { number: 1, line },
        None => Source {
            number: 1,
            line: &[],
        },
    }
}
}
mod unknown {
//! The first row of a sketch that needs a name which isn't given.
use crate::laid::{LaidNames, address_of};
use dvg_code::OutOfMemory;
use dvg_rows::{Doing, GivenNames, Head, NamedRows, Part, Row, number_of};
use std::alloc::Allocator;

/// Returns the number of the line of the first row that needs a name which isn't given, in the
/// order of the text: of the sections `closed`, and of the section `last` after them. `laid` has
/// the names of the ROM. Of a section whose names are `given`, in order, no table is made. Returns
/// `OutOfMemory` where an allocation fails. The time grows with the number of rows.
pub(crate) fn first_unknown<'a, A: Allocator + Copy>(
    alloc: A,
    closed: &[Part<'a, A>],
    last: &Part<'a, A>,
    laid: &LaidNames<'_, '_, '_, A>,
    given: &GivenNames<'a, A>,
) -> Result<Option<usize>, OutOfMemory> {
    for part in closed {
        let found = unknown_in(alloc, part, laid, given)?;
        if found.is_some() {
            return Ok(found);
        }
    }
    unknown_in(alloc, last, laid, given)
}

// Returns the line number of the first row of `part` that needs a name which nothing gives. Where
// its names are `given`, in order, no table is made of them.
fn unknown_in<'a, A: Allocator + Copy>(
    alloc: A,
    part: &Part<'a, A>,
    laid: &LaidNames<'_, '_, '_, A>,
    given: &GivenNames<'a, A>,
) -> Result<Option<usize>, OutOfMemory> {
    let rows = NamedRows::new(alloc, part.rows.as_slice(), given)?;
    Ok(line_of_unknown(part, &rows, laid))
}

// Returns the line number of the first row of `part` that needs a name which nothing gives. `rows`
// are its rows with their names collected.
fn line_of_unknown<A: Allocator + Copy>(
    part: &Part<'_, A>,
    rows: &NamedRows<'_, '_, A>,
    laid: &LaidNames<'_, '_, '_, A>,
) -> Option<usize> {
    match first_in(part.head, rows, laid) {
        Some(place) => Some(part.sources[place].number),
        None => None,
    }
}

// Returns the place of the first such row among `rows`, counted from 0, in a section that `head`
// begins.
fn first_in<A: Allocator + Copy>(
    head: Option<Head>,
    rows: &NamedRows<'_, '_, A>,
    laid: &LaidNames<'_, '_, '_, A>,
) -> Option<usize> {
    for (place, row) in rows.rows().iter().enumerate() {
        if wants(head, rows, laid, row) {
            return Some(place);
        }
    }
    None
}

// Whether `row`, in a section of `rows` that `head` begins, needs a name that isn't given. `laid`
// has the names of the ROM.
fn wants<A: Allocator + Copy>(
    head: Option<Head>,
    rows: &NamedRows<'_, '_, A>,
    laid: &LaidNames<'_, '_, '_, A>,
    row: &Row,
) -> bool {
    match &row.doing {
        Some(doing) => is_ungiven(head, rows, laid, doing),
        None => false,
    }
}

// Like `wants`, for `doing`, what the row does.
fn is_ungiven<A: Allocator + Copy>(
    head: Option<Head>,
    rows: &NamedRows<'_, '_, A>,
    laid: &LaidNames<'_, '_, '_, A>,
    doing: &Doing,
) -> bool {
    match doing {
        Doing::Plainly(_) => false,
        Doing::Calls(name) => is_lost(head, rows, laid, name),
        Doing::Jumps(name) => is_lost(head, rows, laid, name),
        Doing::CallsRom(name) => has_no_address(laid, name),
        Doing::JumpsRom(name) => has_no_address(laid, name),
    }
}

// Whether `name` isn't given where a section that `head` begins looks for it: among its `rows`, or
// in the ROM, which is `laid`.
fn is_lost<A: Allocator + Copy>(
    head: Option<Head>,
    rows: &NamedRows<'_, '_, A>,
    laid: &LaidNames<'_, '_, '_, A>,
    name: &[u8],
) -> bool {
    match head {
        Some(begun) => is_lost_after(begun, rows, laid, name),
        None => is_unknown_in(rows, name),
    }
}

// Like `is_lost`, for a section that a line begins, with `head`.
fn is_lost_after<A: Allocator + Copy>(
    head: Head,
    rows: &NamedRows<'_, '_, A>,
    laid: &LaidNames<'_, '_, '_, A>,
    name: &[u8],
) -> bool {
    match head {
        Head::Rom(_) => has_no_address(laid, name),
        Head::Frame(_) => is_unknown_in(rows, name),
    }
}

// Whether no section of the ROM, as it is `laid`, gives `name`.
fn has_no_address<A: Allocator + Copy>(laid: &LaidNames<'_, '_, '_, A>, name: &[u8]) -> bool {
    address_of(laid, name).is_none()
}

// Whether `name` is unknown in a frame: none of its `rows` gives it.
fn is_unknown_in<A: Allocator + Copy>(rows: &NamedRows<'_, '_, A>, name: &[u8]) -> bool {
    number_of(rows, name).is_none()
}
}

pub use dvg_rows::{Doing, Head, MAX_TOKENS, Row, Source, read_head, read_row, tokens_of};
pub use joining::{FrameSpan, JoinedFrames};
pub use meaning::{NamedFrame, RomName};
pub use sketch::{Sketch, read_sketch};
