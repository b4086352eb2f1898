//! What is made of a sketch. Its frames are laid out: as their bytes in a half of the vector RAM,
//! or as tables for an assembler; so are the bytes of its ROM, and the names of that. Or its frames
//! are written as drafts without names, or drawn, as SVG. Or the check tells of each, and its
//! picture's time (all formats are this project's own choice).
//!
//! But for drafts, each frame is checked first. A refused one is named by its line of the sketch,
//! or by a word of the ROM. What is laid out is made in memory, so that it can be written whole. A
//! frame is drawn by a run of the generator over a memory that has it.
#![no_std]

extern crate plain_std as std;

mod drafts {
//! Frames as drafts without names, and the lines of their ROM.
use std::prelude::*;

use crate::laying::rom_bytes;
use crate::text::{put, put_hex_3};
use dvg_code::{Instr, OutOfMemory};
use dvg_frame::{Op, OpKind};
use dvg_io::collect_words;
use dvg_mem::{MEMORY_BYTES, Rom};
use dvg_named::NamedFrame;
use dvg_print::{LINE_WORDS, Line};
use itoa::{Buffer, Integer};
use std::alloc::{AllocError, Allocator};

/// The word that is there where no line gives one, an RTSL.
const UNGIVEN: u16 = 0xD000;

// Appends a space and `n` in decimal to `text`. Returns `AllocError` where an allocation fails.
fn put_number<A: Allocator, I: Integer>(text: &mut Vec<u8, A>, n: I) -> Result<(), AllocError> {
    put(text, b" ")?;
    put(text, Buffer::new().format(n).as_bytes())
}

// Appends `name`, the name of a vector, and its numbers `scale`, `dx`, `dy` and `z` to `text`.
// Returns `AllocError` where an allocation fails.
fn put_vector<A: Allocator>(
    text: &mut Vec<u8, A>,
    name: &[u8],
    scale: u8,
    dx: i16,
    dy: i16,
    z: u8,
) -> Result<(), AllocError> {
    put(text, name)?;
    put_number(text, scale)?;
    put_number(text, dx)?;
    put_number(text, dy)?;
    put_number(text, z)
}

// Appends `labs` and its numbers `x`, `y` and `scale` to `text`. Returns `AllocError` where an
// allocation fails.
fn put_labs<A: Allocator>(
    text: &mut Vec<u8, A>,
    x: u16,
    y: u16,
    scale: u8,
) -> Result<(), AllocError> {
    put(text, b"labs")?;
    put_number(text, x)?;
    put_number(text, y)?;
    put_number(text, scale)
}

// Appends `instr`, which an operation of a draft draws by, to `text`. Returns `AllocError` where an
// allocation fails.
fn put_drawing<A: Allocator>(text: &mut Vec<u8, A>, instr: Instr) -> Result<(), AllocError> {
    match instr {
        Instr::Vctr { scale, dx, dy, z } => put_vector(text, b"vctr", scale, dx, dy, z),
        Instr::Svec { scale, dx, dy, z } => {
            put_vector(text, b"svec", scale, i16::from(dx), i16::from(dy), z)
        }
        Instr::Labs { x, y, scale } => put_labs(text, x, y, scale),
        Instr::Halt | Instr::Jsrl(_) | Instr::Rtsl | Instr::Jmpl(_) => Ok(()),
    }
}

// Appends `name` and the number `n` of an operation to `text`. Returns `AllocError` where an
// allocation fails.
fn put_target<A: Allocator>(text: &mut Vec<u8, A>, name: &[u8], n: u16) -> Result<(), AllocError> {
    put(text, name)?;
    put_number(text, n)
}

// Appends `name` and the word address `address` to `text`. Returns `AllocError` where an allocation
// fails.
fn put_address<A: Allocator>(
    text: &mut Vec<u8, A>,
    name: &[u8],
    address: u16,
) -> Result<(), AllocError> {
    put(text, name)?;
    put(text, b" ")?;
    put_hex_3(text, address)
}

// Appends `op` to `text`. Returns `AllocError` where an allocation fails.
fn put_op<A: Allocator>(text: &mut Vec<u8, A>, op: &Op) -> Result<(), AllocError> {
    match op.kind() {
        OpKind::Draw(code) => put_drawing(text, code.instr()),
        OpKind::Call(n) => put_target(text, b"call", n),
        OpKind::Jump(n) => put_target(text, b"jump", n),
        OpKind::CallRom(address) => put_address(text, b"callrom", address),
        OpKind::JumpRom(address) => put_address(text, b"jumprom", address),
        OpKind::Return => put(text, b"return"),
        OpKind::Halt => put(text, b"halt"),
    }
}

// Appends the line of `op` to `text`. Returns `AllocError` where an allocation fails.
fn put_op_line<A: Allocator>(text: &mut Vec<u8, A>, op: &Op) -> Result<(), AllocError> {
    put_op(text, op)?;
    put(text, b"\n")
}

// Appends a line for each of `ops` to `text`. Returns `AllocError` where an allocation fails.
fn put_draft<A: Allocator>(text: &mut Vec<u8, A>, ops: &[Op]) -> Result<(), AllocError> {
    for op in ops {
        put_op_line(text, op)?;
    }
    Ok(())
}

// Appends the draft of `frame` to `text`, as a trace offers it. Returns `AllocError` where an
// allocation fails.
fn put_offer<A: Allocator>(text: &mut Vec<u8, A>, frame: &NamedFrame) -> Result<(), AllocError> {
    put(text, b"offer\n")?;
    put_draft(text, frame.ops)?;
    put(text, b"end\n")
}

// Appends the drafts of `frames` to `text`, as a trace offers them. Returns `AllocError` where an
// allocation fails.
fn put_offers<A: Allocator>(text: &mut Vec<u8, A>, frames: &[NamedFrame]) -> Result<(), AllocError> {
    for frame in frames {
        put_offer(text, frame)?;
    }
    Ok(())
}

// Appends the drafts of `frames` to `text`: one alone, and several as a trace offers them. Returns
// `AllocError` where an allocation fails.
fn put_frames<A: Allocator>(text: &mut Vec<u8, A>, frames: &[NamedFrame]) -> Result<(), AllocError> {
    match frames {
        [frame] => put_draft(text, frame.ops),
        _ => put_offers(text, frames),
    }
}

// Appends the line of `words` to `text`, eight words of a ROM from the word address `address` on,
// if a line has to give them. It is made in `line`. Returns `AllocError` where an allocation fails.
fn put_row<A: Allocator>(
    text: &mut Vec<u8, A>,
    line: &mut Line,
    address: usize,
    words: &[u16],
) -> Result<(), AllocError> {
    if words == [UNGIVEN; LINE_WORDS].as_slice() {
        return Ok(());
    }
    line.become_rom(address, words);
    put(text, line.as_bytes())
}

// Appends the lines of `words` to `text`, the words of a ROM. `first` is the word address of the
// first. Returns `AllocError` where an allocation fails.
fn put_rows<A: Allocator>(
    text: &mut Vec<u8, A>,
    first: usize,
    words: &[u16],
) -> Result<(), AllocError> {
    let mut line = Line::new();
    for row in 0..words.len() / LINE_WORDS {
        let begin = row * LINE_WORDS;
        put_row(
            text,
            &mut line,
            first + begin,
            &words[begin..begin + LINE_WORDS],
        )?;
    }
    Ok(())
}

// Appends the line of the map of a ROM of `bytes` to `text`, if it has one. Returns `AllocError`
// where an allocation fails.
fn put_map<A: Allocator>(text: &mut Vec<u8, A>, bytes: &[u8]) -> Result<(), AllocError> {
    if bytes.len() == MEMORY_BYTES {
        return Ok(());
    }
    put(text, b"map 4096\n")
}

/// Returns `frames` as drafts without names, after the lines of `rom`: its map, and eight words a
/// line of those that aren't all D000. One frame stands alone, as a text of a draft has it, and
/// several stand as a trace offers them, each between `offer` and `end`. They aren't checked.
/// Returns `OutOfMemory` where an allocation fails.
pub(crate) fn lay_drafts<A: Allocator + Copy>(
    alloc: A,
    rom: &Rom<A>,
    frames: &[NamedFrame],
) -> Result<Vec<u8, A>, OutOfMemory> {
    // A ROM has an even number of bytes, as its type says.
    let _ = rom.len_words();
    let bytes = rom_bytes(alloc, rom)?;
    let words = collect_words(alloc, bytes.as_slice())?;
    let mut text = Vec::new(alloc);
    put_map(&mut text, bytes.as_slice())?;
    put_rows(&mut text, usize::from(rom.first()), words.as_slice())?;
    put_frames(&mut text, frames)?;
    Ok(text)
}
}
mod drawing {
//! The engine `render`.
use std::prelude::*;

use crate::frames::draw_frames;
use crate::making::{Making, SketchEngine};
use dvg_blame::{Refusal, Unlaid};
use dvg_code::OutOfMemory;
use dvg_gen::Stroke;
use dvg_io::{StreamFailed, ToolFault, Watched, serve};
use dvg_job::Show;
use dvg_named::{NamedFrame, RomName};
use dvg_svg::write_svgs;
use std::alloc::Allocator;
use std::io::{Read, Write};

/// What came of drawing a sketch: the pictures of its frames, in order, as the strokes of each, in
/// the order drawn. Or why a frame is refused.
pub type SketchPictures<A> = Result<Vec<Vec<Stroke, A>, A>, Refusal<A>>;

// Draws `frames` over the ROM of `bytes`, whose names are `names`, or returns why a frame is
// refused. Returns `OutOfMemory` where an allocation fails.
fn draw<A: Allocator + Copy>(
    alloc: A,
    bytes: &[u8],
    names: &[RomName],
    frames: &[NamedFrame],
) -> Result<SketchPictures<A>, OutOfMemory> {
    match draw_frames(alloc, bytes, names, frames) {
        Ok(pictures) => Ok(Ok(pictures)),
        Err(Unlaid::Refused(refusal)) => Ok(Err(refusal)),
        Err(Unlaid::Memory) => Err(OutOfMemory),
    }
}

// What comes of drawing frames, and how that is shown.
struct SvgMaking {
    show: Show,
}

impl<A: Allocator + Copy> Making<A> for SvgMaking {
    type Made = SketchPictures<A>;

    fn make(
        &self,
        alloc: A,
        bytes: &[u8],
        names: &[RomName],
        frames: &[NamedFrame],
    ) -> Result<SketchPictures<A>, OutOfMemory> {
        draw(alloc, bytes, names, frames)
    }

    fn write<W: Write>(
        &self,
        drawn: &SketchPictures<A>,
        writer: &mut Watched<W>,
    ) -> Result<(), StreamFailed> {
        match drawn {
            Ok(pictures) => write_svgs(self.show, pictures.as_slice(), writer),
            Err(_) => Ok(()),
        }
    }
}

/// Reads a sketch as text from `reader`: a draft with names, of one or more frames and with
/// operations of the ROM. Writes the pictures of its frames to `writer` as one SVG, in which they
/// are shown in turn, in the size and at the rate of `show`. Returns the pictures, or why a frame
/// is refused; of a refused one nothing is written (the formats are this project's own choice).
///
/// - A fault of the text: that of the first line at fault. `TooLong`, the text has more than
///   `MOST_TEXT_BYTES`, of which one more at most is taken, comes before all others, and
///   `UnknownName` after them.
/// - `Reader`, `Writer`: that stream failed. After `Writer` a beginning of the text went out.
/// - `Memory`: an allocation failed.
///
/// Where it stops before it writes, which is at any fault but `Writer`, the writer is as it was.
#[inline(never)]
pub fn draw_sketch<A: Allocator + Copy, R: Read, W: Write>(
    alloc: A,
    reader: &mut Watched<R>,
    writer: &mut Watched<W>,
    show: Show,
) -> Result<SketchPictures<A>, ToolFault> {
    let engine = SketchEngine {
        making: SvgMaking { show },
    };
    serve(&engine, alloc, reader, writer)
}
}
mod engine {
//! The engine `lay`.
use crate::form::{Laid, lay};
use crate::making::{Making, SketchEngine};
use dvg_code::OutOfMemory;
use dvg_io::{StreamFailed, ToolFault, Watched, serve, write_lines, write_whole};
use dvg_job::LayForm;
use dvg_named::{NamedFrame, RomName};
use std::alloc::Allocator;
use std::io::{Read, Write};

// What comes of laying frames out in a form.
struct Laying {
    form: LayForm,
}

impl<A: Allocator + Copy> Making<A> for Laying {
    type Made = Laid<A>;

    fn make(
        &self,
        alloc: A,
        bytes: &[u8],
        names: &[RomName],
        frames: &[NamedFrame],
    ) -> Result<Laid<A>, OutOfMemory> {
        lay(alloc, bytes, names, frames, self.form)
    }

    fn write<W: Write>(&self, laid: &Laid<A>, writer: &mut Watched<W>) -> Result<(), StreamFailed> {
        let Ok(text) = laid else { return Ok(()) };
        match self.form {
            LayForm::Bytes(_) | LayForm::Rom => write_whole(writer, text.as_slice()),
            LayForm::Table | LayForm::Equates | LayForm::Draft => write_lines(
                writer,
                text.as_slice(),
            ),
        }
    }
}

/// Reads a sketch as text from `reader`: a draft with names, of one or more frames and with
/// operations of the ROM. Lays it out in this `form`, and writes that to `writer`. Returns what was
/// laid out, or why a frame is refused: then nothing is written (the format is this project's own
/// choice).
///
/// - A fault of the text: that of the first line with a mistake. `TooLong` (more than
///   `MOST_TEXT_BYTES`, of which at most one more is taken) comes before all others, and
///   `UnknownName` after them.
/// - `Reader`, `Writer`: that stream failed. After `Writer` a beginning of the text went out.
/// - `Memory`: an allocation failed.
///
/// Where it stops before it writes, which is at any fault but `Writer`, the writer is as it was.
#[inline(never)]
pub fn lay_sketch<A: Allocator + Copy, R: Read, W: Write>(
    alloc: A,
    reader: &mut Watched<R>,
    writer: &mut Watched<W>,
    form: LayForm,
) -> Result<Laid<A>, ToolFault> {
    let engine = SketchEngine {
        making: Laying { form },
    };
    serve(&engine, alloc, reader, writer)
}
}
mod form {
//! The forms in which a sketch is laid out.
use std::prelude::*;

use crate::drafts::lay_drafts;
use crate::laying::{lay_bytes, lay_names, lay_rom, lay_tables};
use dvg_blame::{Refusal, Unlaid};
use dvg_code::OutOfMemory;
use dvg_job::LayForm;
use dvg_mem::Rom;
use dvg_named::{NamedFrame, RomName};
use std::alloc::Allocator;

/// What came of laying a sketch out: the text, or why a frame is refused.
pub type Laid<A> = Result<Vec<u8, A>, Refusal<A>>;

// Lays `frames` out in this `form`, over `rom`, whose names are `names`.
fn lay_text<A: Allocator + Copy>(
    alloc: A,
    rom: &Rom<A>,
    names: &[RomName],
    frames: &[NamedFrame],
    form: LayForm,
) -> Result<Vec<u8, A>, Unlaid<A>> {
    match form {
        LayForm::Bytes(half) => lay_bytes(alloc, rom, names, frames, half),
        LayForm::Table => lay_tables(alloc, rom, names, frames),
        LayForm::Rom => lay_rom(alloc, rom, names, frames),
        LayForm::Equates => lay_names(alloc, rom, names, frames),
        LayForm::Draft => match lay_drafts(alloc, rom, frames) {
            Ok(text) => Ok(text),
            Err(_) => Err(Unlaid::Memory),
        },
    }
}

/// Lays `frames` out in this `form`, over the ROM of `bytes`, whose names are `names`, or returns
/// why a frame is refused. Returns `OutOfMemory` where an allocation fails.
pub(crate) fn lay<A: Allocator + Copy>(
    alloc: A,
    bytes: &[u8],
    names: &[RomName],
    frames: &[NamedFrame],
    form: LayForm,
) -> Result<Laid<A>, OutOfMemory> {
    let Ok(rom) = Rom::new(alloc, bytes) else {
        return Err(OutOfMemory);
    };
    match lay_text(alloc, &rom, names, frames, form) {
        Ok(text) => Ok(Ok(text)),
        Err(Unlaid::Refused(refusal)) => Ok(Err(refusal)),
        Err(Unlaid::Memory) => Err(OutOfMemory),
    }
}
}
mod frames {
//! Frames that are drawn.
use std::prelude::*;

use crate::picture::picture_of;
use dvg_blame::{Unlaid, good_frame, tell_long};
use dvg_dump::MOST_WORDS;
use dvg_frame::Checker;
use dvg_gen::Stroke;
use dvg_mem::Rom;
use dvg_named::{NamedFrame, RomName};
use std::alloc::Allocator;

// Returns the strokes of the picture of `frame`, where `checker` accepts it over the ROM of `bytes`
// and its picture has at most 65,536 words. `names` are the names of the ROM. That is made for each
// frame, as the dump that is run owns it.
fn draw_frame<A: Allocator + Copy>(
    alloc: A,
    checker: &mut Checker,
    bytes: &[u8],
    names: &[RomName],
    frame: &NamedFrame,
) -> Result<Vec<Stroke, A>, Unlaid<A>> {
    let Ok(rom) = Rom::new(alloc, bytes) else {
        return Err(Unlaid::Memory);
    };
    let checked = match good_frame(alloc, checker, &rom, names, frame) {
        Ok(checked) => checked,
        Err(unlaid) => return Err(unlaid),
    };
    if checked.bound() > u64::from(MOST_WORDS) {
        return Err(tell_long(alloc, names, frame, checked.bound()));
    }
    match picture_of(alloc, rom, &checked) {
        Ok(strokes) => Ok(strokes),
        Err(_) => Err(Unlaid::Memory),
    }
}

/// Returns the pictures of `frames` over the ROM of `bytes`, in order. `names` are the names of the
/// ROM.
///
/// - `Refused`: the check refuses a frame, or its picture has more than 65,536 words (this
///   project's own choice). The first such frame is described.
/// - `Memory`: an allocation failed.
pub(crate) fn draw_frames<A: Allocator + Copy>(
    alloc: A,
    bytes: &[u8],
    names: &[RomName],
    frames: &[NamedFrame],
) -> Result<Vec<Vec<Stroke, A>, A>, Unlaid<A>> {
    let mut checker = Box::new(alloc, Checker::new())?;
    let mut pictures = Vec::new(alloc);
    for frame in frames {
        let picture = match draw_frame(alloc, &mut checker, bytes, names, frame) {
            Ok(picture) => picture,
            Err(unlaid) => return Err(unlaid),
        };
        pictures.push(picture)?;
    }
    Ok(pictures)
}
}
mod laid {
//! Frames as they lie in a half.
use std::prelude::*;

use dvg_frame::{Checked, Cursor};
use dvg_mem::Half;
use std::alloc::{AllocError, Allocator};

/// Appends the bytes of `frame` as it lies in `half` to `text`, the low byte of each word first.
/// Returns `AllocError` where an allocation fails.
pub(crate) fn put_laid<A: Allocator>(
    text: &mut Vec<u8, A>,
    frame: &Checked,
    half: Half,
) -> Result<(), AllocError> {
    for item in Cursor::of(frame, half) {
        text.push(item.1)?;
    }
    Ok(())
}
}
mod laying {
//! What is laid out of a sketch.
use std::prelude::*;

use crate::laid::put_laid;
use crate::names::put_names;
use crate::table::put_table;
use dvg_blame::{Unlaid, check_all, check_low_words, good_frame};
use dvg_frame::Checker;
use dvg_mem::{Half, ROM_END, Rom};
use dvg_named::{NamedFrame, RomName};
use std::alloc::{AllocError, Allocator};

/// Returns the bytes of `frames` in order, each as it lies in `half`, the low byte of each word
/// first. `names` are the names of `rom`.
///
/// - `Refused`: the check refuses a frame over `rom`. The first such frame is described by its
///   fault, and by the line at fault, or the word of the ROM with the nearest name at it or before
///   it. For a fault of the whole draft that is the line of operation 0, or where there is none the
///   line that begins the frame.
/// - `Memory`: an allocation failed.
pub(crate) fn lay_bytes<A: Allocator + Copy>(
    alloc: A,
    rom: &Rom<A>,
    names: &[RomName],
    frames: &[NamedFrame],
    half: Half,
) -> Result<Vec<u8, A>, Unlaid<A>> {
    let mut checker = Box::new(alloc, Checker::new())?;
    let mut text = Vec::new(alloc);
    for frame in frames {
        let checked = match good_frame(alloc, &mut checker, rom, names, frame) {
            Ok(checked) => checked,
            Err(unlaid) => return Err(unlaid),
        };
        if put_laid(&mut text, &checked, half).is_err() {
            return Err(Unlaid::Memory);
        }
    }
    Ok(text)
}

// Returns the tables of `frames` in order, each checked over `rom`. `names` are the names of `rom`.
fn put_tables<A: Allocator + Copy>(
    alloc: A,
    rom: &Rom<A>,
    names: &[RomName],
    frames: &[NamedFrame],
) -> Result<Vec<u8, A>, Unlaid<A>> {
    let mut checker = Box::new(alloc, Checker::new())?;
    let mut text = Vec::new(alloc);
    for (number, frame) in frames.iter().enumerate() {
        let checked = match good_frame(alloc, &mut checker, rom, names, frame) {
            Ok(checked) => checked,
            Err(unlaid) => return Err(unlaid),
        };
        if put_table(alloc, &mut text, number, frame, &checked).is_err() {
            return Err(Unlaid::Memory);
        }
    }
    Ok(text)
}

/// Returns the tables of `frames` in order, as text for the assembler ca65: of each frame its name
/// as a label, or else `frame_` and its number from 0; how many words it has; and a line for each
/// operation, with its words as it lies in half 0, and what its line of the sketch says. `names`
/// are the names of `rom`.
///
/// - `Refused`: the check refuses a frame over `rom`, as with `lay_bytes`. Or it accepts all, and
///   an operation calls or jumps to a word of the ROM below 400, which in a table is one of the
///   frame. The first such operation of the first such frame is described.
/// - `Memory`: an allocation failed.
pub fn lay_tables<A: Allocator + Copy>(
    alloc: A,
    rom: &Rom<A>,
    names: &[RomName],
    frames: &[NamedFrame],
) -> Result<Vec<u8, A>, Unlaid<A>> {
    let text = match put_tables(alloc, rom, names, frames) {
        Ok(text) => text,
        Err(unlaid) => return Err(unlaid),
    };
    match check_low_words(alloc, names, frames) {
        Ok(()) => Ok(text),
        Err(unlaid) => Err(unlaid),
    }
}

/// Returns a line `NAME = $HHH` for each of `names`, the names of `rom` with their word addresses.
///
/// - `Refused`: the check refuses one of `frames` over `rom`, as with `lay_bytes`.
/// - `Memory`: an allocation failed.
pub(crate) fn lay_names<A: Allocator + Copy>(
    alloc: A,
    rom: &Rom<A>,
    names: &[RomName],
    frames: &[NamedFrame],
) -> Result<Vec<u8, A>, Unlaid<A>> {
    if let Err(unlaid) = check_all(alloc, rom, names, frames) {
        return Err(unlaid);
    }
    let mut text = Vec::new(alloc);
    match put_names(&mut text, names) {
        Ok(()) => Ok(text),
        Err(_) => Err(Unlaid::Memory),
    }
}

/// Returns the bytes of `rom`, the low byte of each word first. Returns `AllocError` where an
/// allocation fails.
pub(crate) fn rom_bytes<A: Allocator + Copy>(
    alloc: A,
    rom: &Rom<A>,
) -> Result<Vec<u8, A>, AllocError> {
    // A ROM has 2,048 or 4,096 bytes, as its type says.
    let _ = rom.len_words();
    let mut text = Vec::new(alloc);
    for address in rom.first()..ROM_END {
        text.extend_from_slice(&rom.word(address).to_le_bytes())?;
    }
    Ok(text)
}

/// Returns the bytes of `rom`, 2,048 or 4,096, the low byte of each word first. `names` are its
/// names.
///
/// - `Refused`: the check refuses one of `frames` over `rom`, as with `lay_bytes`.
/// - `Memory`: an allocation failed.
pub(crate) fn lay_rom<A: Allocator + Copy>(
    alloc: A,
    rom: &Rom<A>,
    names: &[RomName],
    frames: &[NamedFrame],
) -> Result<Vec<u8, A>, Unlaid<A>> {
    if let Err(unlaid) = check_all(alloc, rom, names, frames) {
        return Err(unlaid);
    }
    match rom_bytes(alloc, rom) {
        Ok(text) => Ok(text),
        Err(_) => Err(Unlaid::Memory),
    }
}
}
mod making {
//! The engine of what is made of a sketch.
use std::prelude::*;

use dvg_code::OutOfMemory;
use dvg_io::{Engine, StreamFailed, Watched};
use dvg_named::{NamedFrame, RomName, Sketch, read_sketch};
use dvg_read::{MOST_TEXT_BYTES, Unread};
use std::alloc::Allocator;
use std::io::Write;

/// What is made of a sketch, and written of that.
pub(crate) trait Making<A: Allocator> {
    /// What is made.
    type Made: Drop;

    /// Returns what comes of `frames` over the ROM of `bytes`, whose names are `names`. Returns
    /// `OutOfMemory` where an allocation fails.
    fn make(
        &self,
        alloc: A,
        bytes: &[u8],
        names: &[RomName],
        frames: &[NamedFrame],
    ) -> Result<Self::Made, OutOfMemory>;

    /// Writes the text of `made` to `writer`.
    fn write<W: Write>(
        &self,
        made: &Self::Made,
        writer: &mut Watched<W>,
    ) -> Result<(), StreamFailed>;
}

// Returns what `making` makes of `sketch`, which was read. Returns `Memory` where an allocation
// fails.
fn make_read<A: Allocator + Copy, M: Making<A>>(
    making: &M,
    alloc: A,
    sketch: &Sketch<'_, A>,
) -> Result<M::Made, Unread> {
    let Ok(frames) = sketch.frames(alloc) else {
        return Err(Unread::Memory);
    };
    match making.make(
        alloc,
        sketch.rom.as_slice(),
        sketch.names.as_slice(),
        frames.as_slice(),
    ) {
        Ok(made) => Ok(made),
        Err(_) => Err(Unread::Memory),
    }
}

/// The engine that finds what is made of the sketch of a text.
pub(crate) struct SketchEngine<M> {
    pub(crate) making: M,
}

impl<A: Allocator + Copy, M: Making<A>> Engine<A> for SketchEngine<M> {
    type Found = M::Made;

    const MOST: u32 = MOST_TEXT_BYTES as u32;

    fn find(&self, alloc: A, read: &[u8]) -> Result<M::Made, Unread> {
        let Ok(small) = read.to_ascii_lowercase_in(alloc) else {
            return Err(Unread::Memory);
        };
        match read_sketch(alloc, small.as_slice()) {
            Ok(sketch) => make_read(&self.making, alloc, &sketch),
            Err(stop) => Err(stop),
        }
    }

    fn write<W: Write>(&self, made: &M::Made, writer: &mut Watched<W>) -> Result<(), StreamFailed> {
        self.making.write(made, writer)
    }
}
}
mod memory {
//! A memory that has a frame.
use std::prelude::*;

use crate::laid::put_laid;
use dvg_code::OutOfMemory;
use dvg_frame::Checked;
use dvg_mem::{Flat, Half, Image, MEMORY_BYTES, Store};
use std::alloc::Allocator;

/// Returns a RAM of zeros with `frame` in `half`, and the jump to it in word zero. Returns
/// `OutOfMemory` where an allocation fails.
pub(crate) fn laid_ram<A: Allocator + Copy>(
    alloc: A,
    frame: &Checked,
    half: Half,
) -> Result<Flat<A>, OutOfMemory> {
    let count = 2 * frame.len_words();
    let mut bytes = Vec::new(alloc);
    put_laid(&mut bytes, frame, half)?;
    let laid = bytes.as_slice();
    let Ok(image) = Image::new(alloc, &[0; MEMORY_BYTES]) else {
        return Err(OutOfMemory);
    };
    let mut store = Flat::make(alloc, &image)?;
    store.write(0, 0x01);
    store.write(1, half.high());
    let first = 2 * half.base();
    for k in 0..count {
        store.write(first + k, laid[usize::from(k)]);
    }
    Ok(store)
}
}
mod names {
//! The names of the ROM.
use std::prelude::*;

use crate::text::{put, put_hex_3};
use dvg_named::RomName;
use std::alloc::{AllocError, Allocator};

// Appends the line of `name` to `text`. Returns `AllocError` where an allocation fails.
fn put_name<A: Allocator>(text: &mut Vec<u8, A>, name: &RomName) -> Result<(), AllocError> {
    put(text, name.name)?;
    put(text, b" = $")?;
    put_hex_3(text, name.address)?;
    put(text, b"\n")
}

/// Appends a line to `text` for each of `names`. Returns `AllocError` where an allocation fails.
pub(crate) fn put_names<A: Allocator>(
    text: &mut Vec<u8, A>,
    names: &[RomName],
) -> Result<(), AllocError> {
    for name in names {
        put_name(text, name)?;
    }
    Ok(())
}
}
mod picture {
//! The picture of a frame, and how long the generator takes for it.
use std::prelude::*;

use crate::memory::laid_ram;
use crate::time::PictureTime;
use crate::walk::time_over;
use dvg_code::OutOfMemory;
use dvg_dump::{Dump, Ending};
use dvg_frame::Checked;
use dvg_gen::Stroke;
use dvg_mem::{Half, Rom};
use std::alloc::Allocator;

/// Returns the strokes of the picture of `frame`, by a run of the generator over a memory of the
/// frame and `rom`. Returns `OutOfMemory` where an allocation fails.
pub(crate) fn picture_of<A: Allocator + Copy>(
    alloc: A,
    rom: Rom<A>,
    frame: &Checked,
) -> Result<Vec<Stroke, A>, OutOfMemory> {
    // A frame has a draft, and a ROM 2,048 or 4,096 bytes, as their types say.
    let _ = frame.len_words();
    let _ = rom.len_words();
    let ram = laid_ram(alloc, frame, Half::H0)?;
    match Dump::of(alloc, ram, rom).run()? {
        Ending::Finished { strokes, .. } => Ok(strokes),
        Ending::Broke { .. } | Ending::Endless => unreachable!(),
    }
}

/// Returns how long the generator of the arcade emulator takes for the picture of `frame`, by the
/// same run, of which nothing else is kept. Returns `OutOfMemory` where an allocation fails.
pub(crate) fn time_of<A: Allocator + Copy>(
    alloc: A,
    rom: Rom<A>,
    frame: &Checked,
) -> Result<PictureTime, OutOfMemory> {
    // A frame has a draft, and a ROM 2,048 or 4,096 bytes, as their types say.
    let _ = frame.len_words();
    let _ = rom.len_words();
    let ram = laid_ram(alloc, frame, Half::H0)?;
    Ok(time_over(&ram, &rom))
}
}
mod table {
//! The tables of frames.
use std::prelude::*;

use crate::laid::put_laid;
use crate::text::{put, put_decimal, put_words};
use dvg_blame::put_said;
use dvg_code::OutOfMemory;
use dvg_frame::{Checked, Op, OpKind};
use dvg_io::collect_words;
use dvg_mem::Half;
use dvg_named::{NamedFrame, Source};
use std::alloc::{AllocError, Allocator};

// Returns the words of `frame` as it lies in half 0. Returns `OutOfMemory` where an allocation
// fails.
fn laid_words<A: Allocator + Copy>(alloc: A, frame: &Checked) -> Result<Vec<u16, A>, OutOfMemory> {
    let mut bytes = Vec::new(alloc);
    put_laid(&mut bytes, frame, Half::H0)?;
    collect_words(alloc, bytes.as_slice())
}

// Returns how many words `op` has.
fn op_words(op: &Op) -> usize {
    match op.kind() {
        OpKind::Draw(code) => usize::from(code.word_count()),
        _ => 1,
    }
}

// Appends the line of an operation to `text`. `words` are its words, and `source` is its line of
// the sketch. Returns `AllocError` where an allocation fails.
fn put_op_line<A: Allocator>(
    text: &mut Vec<u8, A>,
    words: &[u16],
    source: &Source,
) -> Result<(), AllocError> {
    put(text, b"        .word ")?;
    put_words(text, words)?;
    put(text, b" ; ")?;
    put_said(text, source.line)?;
    put(text, b"\n")
}

// Appends the lines of the operations of `frame` to `text`. `words` are their words in half 0.
// Returns `AllocError` where an allocation fails.
fn put_op_lines<A: Allocator>(
    text: &mut Vec<u8, A>,
    words: &[u16],
    frame: &NamedFrame,
) -> Result<(), AllocError> {
    let mut rest = words;
    for (i, op) in frame.ops.iter().enumerate() {
        let (these, others) = rest.split_at(op_words(op));
        put_op_line(text, these, &frame.sources[i])?;
        rest = others;
    }
    Ok(())
}

// Appends what a frame is called to `text`: its `name`, or else `frame_` and its `number`. Returns
// `AllocError` where an allocation fails.
fn put_label<A: Allocator>(
    text: &mut Vec<u8, A>,
    number: usize,
    name: Option<&[u8]>,
) -> Result<(), AllocError> {
    match name {
        Some(name) => put(text, name),
        None => {
            put(text, b"frame_")?;
            put_decimal(text, number)
        }
    }
}

// Appends the assembler's line for `count`, the number of words, to `text`. Returns `AllocError`
// where an allocation fails.
fn put_count<A: Allocator>(text: &mut Vec<u8, A>, count: usize) -> Result<(), AllocError> {
    put(text, b"        .word ")?;
    put_decimal(text, count)?;
    put(text, b"\n")
}

/// Appends the table of frame `number` to `text`: `named` is the frame, and `frame` the same frame
/// as it was checked. Returns `OutOfMemory` where an allocation fails.
pub(crate) fn put_table<A: Allocator + Copy>(
    alloc: A,
    text: &mut Vec<u8, A>,
    number: usize,
    named: &NamedFrame,
    frame: &Checked,
) -> Result<(), OutOfMemory> {
    put_label(text, number, named.name)?;
    put(text, b":\n")?;
    put_count(text, usize::from(frame.len_words()))?;
    let words = laid_words(alloc, frame)?;
    put_op_lines(text, words.as_slice(), named)?;
    Ok(())
}
}
mod text {
//! Texts that grow in memory.
use std::prelude::*;

use itoa::Buffer;
use std::alloc::{AllocError, Allocator};

/// Appends `bytes` to `text`. Returns `AllocError` where an allocation fails.
pub(crate) fn put<A: Allocator>(text: &mut Vec<u8, A>, bytes: &[u8]) -> Result<(), AllocError> {
    text.extend_from_slice(bytes)
}

/// Appends `n` in decimal to `text`. Returns `AllocError` where an allocation fails.
pub(crate) fn put_decimal<A: Allocator>(text: &mut Vec<u8, A>, n: usize) -> Result<(), AllocError> {
    put(text, Buffer::new().format(n).as_bytes())
}

// Returns `n`, 0 to 15, as a hexadecimal digit in upper case.
fn digit(n: u16) -> u8 {
    b"0123456789ABCDEF"[usize::from(n)]
}

/// Appends the last three hexadecimal digits of `n` to `text`. Returns `AllocError` where an
/// allocation fails.
pub(crate) fn put_hex_3<A: Allocator>(text: &mut Vec<u8, A>, n: u16) -> Result<(), AllocError> {
    let digits = [digit(n / 256 % 16), digit(n / 16 % 16), digit(n % 16)];
    put(text, &digits)
}

// Appends `word` to `text`: a dollar sign and four hexadecimal digits. Returns `AllocError` where
// an allocation fails.
fn put_word<A: Allocator>(text: &mut Vec<u8, A>, word: u16) -> Result<(), AllocError> {
    put(text, &[b'$', digit(word / 4096 % 16)])?;
    put_hex_3(text, word)
}

/// Appends `words` to `text`, with a comma and a space between each two. Returns `AllocError` where
/// an allocation fails.
pub(crate) fn put_words<A: Allocator>(
    text: &mut Vec<u8, A>,
    words: &[u16],
) -> Result<(), AllocError> {
    let [first, rest @ ..] = words else {
        return Ok(());
    };
    put_word(text, *first)?;
    for word in rest {
        put(text, b", ")?;
        put_word(text, *word)?;
    }
    Ok(())
}
}
mod time {
//! How long the generator of the arcade emulator takes for a picture.
use std::prelude::*;

use crate::text::{put, put_decimal};
use dvg_code::{Code, Instr};
use std::alloc::{AllocError, Allocator};

/// How long the generator of the arcade emulator takes for a picture, by its rule: a vector takes
/// 2^(s+1) * 8 / 12.096 + 4 microseconds, where s is its effective scale, and 4 at a scale of 10 to
/// 15, which moves nothing; each other instruction takes 4. Nothing is said of real hardware.
#[derive(Clone, Copy, Debug, PartialEq, Eq, Hash)]
pub struct PictureTime {
    /// The number of vectors, short ones and blank ones included.
    pub vectors: u32,
    /// The number of other instructions, HALT and the jump in word zero included.
    pub others: u32,
    /// The microseconds of all of them together, rounded to the nearest.
    pub microseconds: u32,
}

/// What instructions take. `parts` is in 189ths of a microsecond: in these each time of the rule is
/// a whole number.
#[derive(Clone, Copy)]
pub(crate) struct Spent {
    vectors: u32,
    others: u32,
    parts: u64,
}

// How long an instruction takes that is no vector, in 189ths of a microsecond: 4 microseconds.
const OTHER_PARTS: u64 = 756;

// Returns the local scale of `code`, or `None` where it is no vector.
fn local_scale(code: &Code) -> Option<u8> {
    match code.instr() {
        Instr::Vctr { scale, .. } | Instr::Svec { scale, .. } => Some(scale),
        Instr::Labs { .. } | Instr::Halt | Instr::Jsrl(_) | Instr::Rtsl | Instr::Jmpl(_) => None,
    }
}

// Returns how long a vector takes whose global and local scale are `scales` together, in 189ths of
// a microsecond.
fn vector_parts(scales: u8) -> u64 {
    let effective = scales % 16;
    if effective <= 9 {
        250 * (1 << effective) + OTHER_PARTS
    } else {
        OTHER_PARTS
    }
}

impl Spent {
    /// Returns what no instruction takes.
    pub(crate) fn nothing() -> Spent {
        Spent {
            vectors: 0,
            others: 0,
            parts: 0,
        }
    }

    /// Adds the instruction `code`, which is run at the global scale `global`, at most 15. So many
    /// may be added as a run is followed for words.
    #[inline(always)]
    pub(crate) fn add(&mut self, code: &Code, global: u8) {
        match local_scale(code) {
            Some(scale) => {
                self.vectors += 1;
                self.parts += vector_parts(global + scale);
            }
            None => {
                self.others += 1;
                self.parts += OTHER_PARTS;
            }
        }
    }

    /// Returns what is told of it. The half of a microsecond is no whole number of parts.
    pub(crate) fn told(self) -> PictureTime {
        PictureTime {
            vectors: self.vectors,
            others: self.others,
            microseconds: ((self.parts + 94) / 189) as u32,
        }
    }
}

/// Appends `time` to `text`, after a comma and a space. Returns `AllocError` where an allocation
/// fails.
pub(crate) fn put_time<A: Allocator>(
    text: &mut Vec<u8, A>,
    time: PictureTime,
) -> Result<(), AllocError> {
    put(text, b", ")?;
    put_decimal(text, time.vectors as usize)?;
    put(text, b" vectors, ")?;
    put_decimal(text, time.others as usize)?;
    put(text, b" other instructions, ")?;
    put_decimal(text, time.microseconds as usize)?;
    put(text, b" microseconds in the emulator")
}
}
mod verdicts {
//! What the check says of the frames of a sketch: the engine `check_sketch`.
use std::prelude::*;

use crate::making::{Making, SketchEngine};
use crate::picture::time_of;
use crate::text::put;
use crate::time::{PictureTime, put_time};
use dvg_code::OutOfMemory;
use dvg_dump::MOST_WORDS;
use dvg_frame::Checker;
use dvg_io::{StreamFailed, ToolFault, Watched, serve, write_lines};
use dvg_mem::Rom;
use dvg_named::{NamedFrame, RomName};
use dvg_print::{BoundedVerdict, Line};
use std::alloc::{AllocError, Allocator, Global};
use std::io::{Read, Write};

/// What is said of a frame.
#[derive(Clone, Copy, Debug, PartialEq, Eq, Hash)]
pub struct FrameVerdict {
    /// What the check says of it.
    pub verdict: BoundedVerdict,
    /// How long its picture takes, if it may be drawn and its run fetches at most 65,536 words.
    pub time: Option<PictureTime>,
}

/// What is said of the frames of a sketch.
#[derive(Debug)]
pub struct Said<A: Allocator = Global> {
    /// The verdict on each frame, in order.
    pub verdicts: Vec<FrameVerdict, A>,
    /// A line for each frame.
    pub text: Vec<u8, A>,
}

impl<A: Allocator> Said<A> {
    /// Whether the check accepts each frame.
    pub fn is_good(&self) -> bool {
        self.verdicts.iter().all(
            |said| { matches!(said.verdict, BoundedVerdict::Good { .. }) },
        )
    }
}

// Returns the verdict of `checker` on `frame` over the ROM of `bytes`, and the picture's time. The
// ROM is made for each frame, as the dump that is run owns it.
// Returns `OutOfMemory` where an allocation fails.
fn judge<A: Allocator + Copy>(
    alloc: A,
    checker: &mut Checker,
    bytes: &[u8],
    frame: &NamedFrame,
) -> Result<FrameVerdict, OutOfMemory> {
    let Ok(rom) = Rom::new(alloc, bytes) else {
        return Err(OutOfMemory);
    };
    let checked = match checker.check(frame.ops, &rom) {
        Ok(checked) => checked,
        Err(fault) => {
            return Ok(FrameVerdict {
                verdict: BoundedVerdict::Refused(fault),
                time: None,
            });
        }
    };
    let (words, bound) = (checked.len_words(), checked.bound());
    let time = if bound <= u64::from(MOST_WORDS) {
        Some(time_of(alloc, rom, &checked)?)
    } else {
        None
    };
    Ok(FrameVerdict {
        verdict: BoundedVerdict::Good { words, bound },
        time,
    })
}

// Appends the line of `frame` to `text`: its name, if it has one, and what is `said` of it. Returns
// `AllocError` where an allocation fails.
fn put_line<A: Allocator>(
    text: &mut Vec<u8, A>,
    frame: &NamedFrame,
    said: FrameVerdict,
) -> Result<(), AllocError> {
    if let Some(name) = frame.name {
        put(text, name)?;
        put(text, b": ")?;
    }
    let mut line = Line::new();
    line.become_bounded(said.verdict);
    let Some(time) = said.time else {
        return put(text, line.as_bytes());
    };
    let line = line.as_bytes();
    put(text, &line[..line.len().saturating_sub(1)])?;
    put_time(text, time)?;
    put(text, b"\n")
}

// Returns what is said of `frames` over the ROM of `bytes`. Returns `OutOfMemory` where an
// allocation fails.
fn check_frames<A: Allocator + Copy>(
    alloc: A,
    bytes: &[u8],
    frames: &[NamedFrame],
) -> Result<Said<A>, OutOfMemory> {
    let mut checker = Box::new(alloc, Checker::new())?;
    let mut verdicts = Vec::new(alloc);
    let mut text = Vec::new(alloc);
    for frame in frames {
        let said = judge(alloc, &mut checker, bytes, frame)?;
        put_line(&mut text, frame, said)?;
        verdicts.push(said)?;
    }
    Ok(Said { verdicts, text })
}

// What the check says of frames.
struct Checking;

impl<A: Allocator + Copy> Making<A> for Checking {
    type Made = Said<A>;

    fn make(
        &self,
        alloc: A,
        bytes: &[u8],
        _names: &[RomName],
        frames: &[NamedFrame],
    ) -> Result<Said<A>, OutOfMemory> {
        check_frames(alloc, bytes, frames)
    }

    fn write<W: Write>(&self, said: &Said<A>, writer: &mut Watched<W>) -> Result<(), StreamFailed> {
        write_lines(writer, said.text.as_slice())
    }
}

/// Reads a sketch as text from `reader`, as `draw_sketch` does, and writes a line to `writer` for
/// each of its frames: its name and a colon, if it has a name, and what the check says of it over
/// the ROM, as `check --bound` writes that. Of a frame that may be drawn, and whose run fetches at
/// most 65,536 words, the line goes on with how many vectors and other instructions the run has,
/// and how many microseconds the generator of the arcade emulator takes for them (the format is
/// this project's own choice). Returns what was said.
///
/// - A fault of the text: that of the first line at fault. `TooLong`, the text has more than
///   `MOST_TEXT_BYTES`, of which one more at most is taken, comes before all others, and
///   `UnknownName` after them.
/// - `Reader`, `Writer`: that stream failed. After `Writer` a beginning of the text went out.
/// - `Memory`: an allocation failed.
///
/// Where it stops before it writes, which is at any fault but `Writer`, the writer is as it was.
#[inline(never)]
pub fn check_sketch<A: Allocator + Copy, R: Read, W: Write>(
    alloc: A,
    reader: &mut Watched<R>,
    writer: &mut Watched<W>,
) -> Result<Said<A>, ToolFault> {
    serve(&SketchEngine { making: Checking }, alloc, reader, writer)
}
}
mod walk {
//! The run of a generator of which the time alone is kept: neither the beam nor a stroke.
use crate::time::{PictureTime, Spent};
use arrayvec::ArrayVec;
use dvg_code::{Code, Instr, decode};
use dvg_dump::MOST_WORDS;
use dvg_gen::STACK_DEPTH;
use dvg_mem::{Flat, Rom, fetch};
use std::alloc::Allocator;

/// Where a run is.
pub(crate) struct Walk {
    // The address of the next word.
    at: u16,
    // The first word of an instruction that needs a second one.
    held: Option<u16>,
    // The addresses of calls that are open.
    stack: ArrayVec<u16, STACK_DEPTH>,
    // The global scale.
    scale: u8,
}

impl Walk {
    // Returns where a new generator is once it is started.
    fn new() -> Walk {
        Walk {
            at: 0,
            held: None,
            stack: ArrayVec::new(),
            scale: 0,
        }
    }

    // Returns the instruction that `word`, the next one, completes. Returns `None` where it needs a
    // second word, which is the next one then.
    #[inline(always)]
    fn read(&mut self, word: u16) -> Option<Code> {
        if let Some(first) = self.held {
            return Some(of_two(first, word));
        }
        if word < 0xB000 {
            self.at = after(self.at);
            self.held = Some(word);
            return None;
        }
        Some(of_one(word))
    }

    // Does `code`, which the next word completes. Returns whether the run goes on: it doesn't after
    // HALT, a fifth call, or a return without a call.
    #[inline(always)]
    fn obey(&mut self, code: Code) -> bool {
        match code.instr() {
            Instr::Vctr { .. } | Instr::Svec { .. } => self.go(after(self.at)),
            Instr::Labs { scale, .. } => {
                self.scale = scale;
                self.go(after(self.at))
            }
            Instr::Halt => false,
            Instr::Jsrl(address) => self.call(address),
            Instr::Rtsl => self.come_back(),
            Instr::Jmpl(address) => self.go(address),
        }
    }

    // Goes to `address`, where the next instruction begins.
    fn go(&mut self, address: u16) -> bool {
        self.at = address;
        self.held = None;
        true
    }

    // Saves the address of the next word, and goes to `address`, if fewer than four are saved.
    fn call(&mut self, address: u16) -> bool {
        if self.stack.is_full() {
            return false;
        }
        self.stack.push(after(self.at));
        self.go(address)
    }

    // Goes to the address that was saved last, if one is saved.
    fn come_back(&mut self) -> bool {
        match self.stack.pop() {
            Some(address) => self.go(address),
            None => false,
        }
    }
}

/// Returns how long the instructions of the run over `ram` and `rom` take together, up to
/// `MOST_WORDS` words.
pub(crate) fn time_over<A: Allocator + Copy>(ram: &Flat<A>, rom: &Rom<A>) -> PictureTime {
    let mut walk = Walk::new();
    let mut spent = Spent::nothing();
    for _step in 0..MOST_WORDS {
        let Some(word) = fetch(ram, rom, walk.at) else {
            return spent.told();
        };
        if let Some(code) = walk.read(word) {
            spent.add(&code, walk.scale);
            if !walk.obey(code) {
                return spent.told();
            }
        }
    }
    spent.told()
}

// Returns the address one word after `address`, where 000 comes after FFF.
fn after(address: u16) -> u16 {
    (address + 1) % 4096
}

// Returns the instruction of `word`, which has an opcode of B to F.
#[inline(always)]
fn of_one(word: u16) -> Code {
    match decode(&[word]) {
        Ok(read) => read.0,
        Err(_) => unreachable!(),
    }
}

// Returns the instruction of `first`, which has an opcode of 0 to A, and `word`.
#[inline(always)]
fn of_two(first: u16, word: u16) -> Code {
    match decode(&[first, word]) {
        Ok(read) => read.0,
        Err(_) => unreachable!(),
    }
}
}

pub use drawing::{SketchPictures, draw_sketch};
pub use engine::lay_sketch;
pub use form::Laid;
pub use laying::lay_tables;
pub use time::PictureTime;
pub use verdicts::{FrameVerdict, Said, check_sketch};
