//! The engines `picture` and `picture_svg` of the program `dvg`: the run over a dump of vector
//! memory as text, and what it draws as SVG.
#![no_std]

extern crate plain_std as std;

mod engine {
//! The engine `picture`.
use crate::writes::write_run;
use dvg_dump::{Dump, DumpFault, LARGE_DUMP_BYTES, Outcome, Traced};
use dvg_io::{Engine, StreamFailed, ToolFault, Watched, serve};
use dvg_job::PictureForm;
use dvg_read::{TextFault, Unread};
use std::alloc::Allocator;
use std::io::{Read, Write};

// Returns the fault of `bytes`, which aren't a dump.
fn size_fault(bytes: &[u8]) -> TextFault {
    if bytes.len() > LARGE_DUMP_BYTES {
        TextFault::LongDump
    } else {
        TextFault::DumpSize(bytes.len())
    }
}

/// Returns the run over the dump `bytes`, with its instructions where `traces` is set. `DumpSize`
/// or `LongDump` where `bytes` aren't a dump, `Memory` where an allocation fails.
pub(crate) fn run_dump<A: Allocator + Copy>(
    alloc: A,
    bytes: &[u8],
    traces: bool,
) -> Result<Traced<A>, Unread> {
    let dump = match Dump::new(alloc, bytes) {
        Ok(dump) => dump,
        Err(DumpFault::Size) => return Err(Unread::Text(size_fault(bytes))),
        Err(DumpFault::OutOfMemory) => return Err(Unread::Memory),
    };
    let Ok(run) = dump.run_telling(traces) else {
        return Err(Unread::Memory);
    };
    Ok(run)
}

// Whether `form` wants the instructions that are run.
fn traces(form: PictureForm) -> bool {
    form.all || form.moves || form.units
}

// The engine that finds how the run over a dump ends.
struct PictureEngine {
    form: PictureForm,
}

impl<A: Allocator + Copy> Engine<A> for PictureEngine {
    type Found = Traced<A>;

    const MOST: u32 = LARGE_DUMP_BYTES as u32;

    fn find(&self, alloc: A, read: &[u8]) -> Result<Traced<A>, Unread> {
        run_dump(alloc, read, traces(self.form))
    }

    fn write<W: Write>(
        &self,
        run: &Traced<A>,
        writer: &mut Watched<W>,
    ) -> Result<(), StreamFailed> {
        write_run(run, self.form, writer)
    }
}

/// Reads a dump of vector memory from `reader`: 2,048 bytes of RAM and then 2,048 or 4,096 of ROM.
/// It starts a new generator once over the dump, which doesn't change, and writes to `writer` how
/// that ends (the texts are this project's own choice):
///
/// - `picture`: with the numbers of words that were fetched and of strokes, and then a line for
///   each stroke.
/// - `broke`: with the address of the fetch and the fault's number.
/// - `endless`: there is neither within 65,536 words.
///
/// Before that it writes what `form` asks for. With `all` these are a line for each instruction
/// that was run, with the beam after it, and then the line of its stroke. With `moves` it is a line
/// for each move: the address of its instruction, from where to where it led, and its intensity. Of
/// a run that is no picture these go up to its last whole instruction. With `units` moves, and the
/// strokes of a picture, are in whole screen units, and else in 1/512. Returns which of the three
/// it was. The faults:
///
/// - `DumpSize`: the input has so many bytes, up to 6,144, and neither 4,096 nor 6,144.
/// - `LongDump`: it has more than 6,144, of which no more than 6,145 are taken.
/// - `Reader`, `Writer`: that stream failed. After `Writer` a beginning of the text went out.
/// - `Memory`: an allocation failed.
///
/// Where it stops before it writes, which is at any fault but `Writer`, the writer is as it was.
#[inline(never)]
pub fn picture<A: Allocator + Copy, R: Read, W: Write>(
    alloc: A,
    reader: &mut Watched<R>,
    writer: &mut Watched<W>,
    form: PictureForm,
) -> Result<Outcome, ToolFault> {
    let run = serve(&PictureEngine { form }, alloc, reader, writer)?;
    Ok(run.ending.outcome())
}
}
mod moves {
//! What is written of the moves of a run. Moves and whole units are printed of a dump alone: they
//! are read off the recorded instructions, so no fetch asks for them.
use dvg_dump::{Follower, Ran};
use dvg_gen::{Move, Stroke};
use dvg_io::{StreamFailed, Watched, write_strokes, write_whole};
use dvg_print::Line;
use std::io::Write;

// Returns the stroke as which `made` is seen, if it is.
fn stroke_of(made: &Move) -> Option<Stroke> {
    if made.z == 0 {
        return None;
    }
    Some(Stroke {
        x0: made.x0,
        y0: made.y0,
        x1: made.x1,
        y1: made.y1,
        z: made.z,
    })
}

// Writes the line of `made`, if there is such a move, to `writer`, or with `as_strokes` that of its
// stroke, if it is seen. It may be made in `line`.
fn write_move<W: Write>(
    line: &mut Line,
    made: Option<Move>,
    as_strokes: bool,
    writer: &mut Watched<W>,
) -> Result<(), StreamFailed> {
    let Some(made) = made else {
        return Ok(());
    };
    if as_strokes {
        return write_strokes(stroke_of(&made).as_slice(), writer);
    }
    line.become_move(&made);
    write_whole(writer, line.as_bytes())
}

/// Writes a line to `writer` for each move of `trace`, the instructions of a run, with `units` in
/// whole units, or with `as_strokes` for each that is seen. They may be made in `line`.
pub(crate) fn write_moves<W: Write>(
    line: &mut Line,
    trace: &[Ran],
    units: bool,
    as_strokes: bool,
    writer: &mut Watched<W>,
) -> Result<(), StreamFailed> {
    let mut follower = Follower::new(units);
    for ran in trace {
        write_move(line, follower.follow(ran), as_strokes, writer)?;
    }
    Ok(())
}
}
mod svg {
//! The engine `picture_svg`.
use std::prelude::*;

use crate::engine::run_dump;
use crate::undrawn::{Undrawn, reason_line, undrawn_by};
use dvg_code::OutOfMemory;
use dvg_dump::{LARGE_DUMP_BYTES, Ran};
use dvg_gen::Stroke;
use dvg_io::{Engine, StreamFailed, ToolFault, Watched, serve};
use dvg_read::Unread;
use dvg_svg::write_svg;
use std::alloc::Allocator;
use std::io::{Read, Write};

// What a run drew, and why that is no picture, if it isn't.
struct DumpPicture<A: Allocator> {
    strokes: Vec<Stroke, A>,
    undrawn: Option<Undrawn>,
}

// Returns the strokes of `trace`, the instructions that were run. Returns `OutOfMemory` where an
// allocation fails.
fn collect_strokes<A: Allocator>(alloc: A, trace: &[Ran]) -> Result<Vec<Stroke, A>, OutOfMemory> {
    let mut strokes = Vec::new(alloc);
    for ran in trace {
        if let Some(stroke) = ran.stroke {
            strokes.push(stroke)?;
        }
    }
    Ok(strokes)
}

// Returns what the run over the dump `bytes` draws.
fn draw_dump<A: Allocator + Copy>(alloc: A, bytes: &[u8]) -> Result<DumpPicture<A>, Unread> {
    let run = run_dump(alloc, bytes, true)?;
    let Ok(strokes) = collect_strokes(alloc, run.ran.as_slice()) else {
        return Err(Unread::Memory);
    };
    Ok(DumpPicture {
        strokes,
        undrawn: undrawn_by(&run.ending),
    })
}

// Writes `strokes`, which a run drew, to `writer`, in the size `percent`. `undrawn` says why they
// are no picture, if they aren't.
fn write_drawn<W: Write>(
    percent: u16,
    strokes: &[Stroke],
    undrawn: Option<Undrawn>,
    writer: &mut Watched<W>,
) -> Result<(), StreamFailed> {
    match undrawn {
        Some(undrawn) => {
            let line = reason_line(undrawn);
            let text = line.as_bytes();
            write_svg(percent, Some(&text[..text.len() - 1]), strokes, writer)
        }
        None => write_svg(percent, None, strokes, writer),
    }
}

// The engine that finds what the run over a dump draws.
struct DumpSvgEngine {
    percent: u16,
}

impl<A: Allocator + Copy> Engine<A> for DumpSvgEngine {
    type Found = DumpPicture<A>;

    const MOST: u32 = LARGE_DUMP_BYTES as u32;

    fn find(&self, alloc: A, read: &[u8]) -> Result<DumpPicture<A>, Unread> {
        draw_dump(alloc, read)
    }

    fn write<W: Write>(
        &self,
        drawn: &DumpPicture<A>,
        writer: &mut Watched<W>,
    ) -> Result<(), StreamFailed> {
        write_drawn(
            self.percent,
            drawn.strokes.as_slice(),
            drawn.undrawn,
            writer,
        )
    }
}

/// Reads a dump of vector memory from `reader` as `picture` does, and writes what its run draws to
/// `writer` as SVG, in the size `percent`. These are all strokes of a picture. Of a run that breaks
/// or isn't known to end within 65,536 words they are the strokes up to there. Returns why it drew
/// no picture, if it didn't; that is the title, too (the text is this project's own choice).
///
/// - `DumpSize`: the input has so many bytes, up to 6,144, and neither 4,096 nor 6,144.
/// - `LongDump`: it has more than 6,144, of which no more than 6,145 are taken.
/// - `Reader`, `Writer`: that stream failed. After `Writer` a beginning of the text went out.
/// - `Memory`: an allocation failed.
///
/// Where it stops before it writes, which is at any fault but `Writer`, the writer is as it was.
#[inline(never)]
pub fn picture_svg<A: Allocator + Copy, R: Read, W: Write>(
    alloc: A,
    reader: &mut Watched<R>,
    writer: &mut Watched<W>,
    percent: u16,
) -> Result<Option<Undrawn>, ToolFault> {
    let drawn = serve(&DumpSvgEngine { percent }, alloc, reader, writer)?;
    Ok(drawn.undrawn)
}
}
mod undrawn {
//! Why a run drew no picture.
use dvg_dump::Ending;
use dvg_gen::GenFault;
use dvg_print::Line;
use std::alloc::Allocator;
use std::fmt;

/// Why a run over a dump drew no picture. Its text is what `dvg` prints of it (this project's own
/// choice).
#[derive(Clone, Copy, Debug, PartialEq, Eq, Hash)]
pub enum Undrawn {
    /// It broke.
    Broke {
        /// The word address of the fetch at which it did.
        address: u16,
        /// Why.
        fault: GenFault,
    },
    /// It isn't known to end.
    Endless,
}

impl fmt::Display for Undrawn {
    fn fmt(&self, f: &mut fmt::Formatter<'_>) -> fmt::Result {
        match self {
            Undrawn::Broke { address, fault } => {
                let number = fault.number();
                write!(f, "broke {address:03X} {number}")
            }
            Undrawn::Endless => write!(f, "endless"),
        }
    }
}

/// Returns why a run with the end `ending` drew no picture, if it didn't.
pub(crate) fn undrawn_by<A: Allocator>(ending: &Ending<A>) -> Option<Undrawn> {
    match ending {
        Ending::Finished { .. } => None,
        Ending::Broke { address, fault } => Some(Undrawn::Broke {
            address: *address,
            fault: *fault,
        }),
        Ending::Endless => Some(Undrawn::Endless),
    }
}

/// Returns the line that describes `undrawn`.
pub(crate) fn reason_line(undrawn: Undrawn) -> Line {
    let mut line = Line::new();
    match undrawn {
        Undrawn::Broke { address, fault } => line.become_broke(address, fault),
        Undrawn::Endless => line.become_endless(),
    }
    line
}
}
mod writes {
//! What is written of a run.
use crate::moves::write_moves;
use dvg_dump::{Ending, Ran, Traced};
use dvg_gen::Stroke;
use dvg_io::{StreamFailed, Watched, write_strokes, write_strokes_in, write_whole};
use dvg_job::PictureForm;
use dvg_print::{InstrLine, Line, StrokeLines};
use std::alloc::Allocator;
use std::io::Write;

// Writes `line` to `writer`, and after it a line for each of `strokes`. These are made in `lines`.
fn write_with_strokes<W: Write>(
    line: &[u8],
    lines: &mut StrokeLines,
    strokes: &[Stroke],
    writer: &mut Watched<W>,
) -> Result<(), StreamFailed> {
    write_whole(writer, line)?;
    write_strokes_in(lines, strokes, writer)
}

// Writes the lines of `ran`, an instruction that was run, to `writer`. They are made in `line` and
// `lines`.
fn write_ran<W: Write>(
    line: &mut InstrLine,
    lines: &mut StrokeLines,
    ran: &Ran,
    writer: &mut Watched<W>,
) -> Result<(), StreamFailed> {
    line.become_instruction(ran.address, &ran.code, ran.canonical, &ran.beam);
    write_with_strokes(line.as_bytes(), lines, ran.stroke.as_slice(), writer)
}

// Writes the lines of `trace`, the instructions that were run, to `writer`.
fn write_trace<W: Write>(trace: &[Ran], writer: &mut Watched<W>) -> Result<(), StreamFailed> {
    let mut line = InstrLine::new();
    let mut lines = StrokeLines::new();
    for ran in trace {
        write_ran(&mut line, &mut lines, ran, writer)?;
    }
    Ok(())
}

// Writes the lines of `strokes`, which a run drew, to `writer`, or with `units` those of the
// strokes of `trace`, its instructions, in whole units. These may be made in `line`.
fn write_drawn<W: Write>(
    line: &mut Line,
    trace: &[Ran],
    strokes: &[Stroke],
    units: bool,
    writer: &mut Watched<W>,
) -> Result<(), StreamFailed> {
    if units {
        write_moves(line, trace, true, true, writer)
    } else {
        write_strokes(strokes, writer)
    }
}

// Writes the line of a picture of so many `words` to `writer`, and the lines of `strokes`, as
// `write_drawn` does. They may be made in `line`.
fn write_picture<W: Write>(
    line: &mut Line,
    words: u32,
    trace: &[Ran],
    strokes: &[Stroke],
    units: bool,
    writer: &mut Watched<W>,
) -> Result<(), StreamFailed> {
    line.become_picture(words as usize, strokes.len());
    write_whole(writer, line.as_bytes())?;
    write_drawn(line, trace, strokes, units, writer)
}

// Writes how `run` ends to `writer`, with `units` in whole units. The lines are made in `line`.
fn write_end<A: Allocator, W: Write>(
    line: &mut Line,
    run: &Traced<A>,
    units: bool,
    writer: &mut Watched<W>,
) -> Result<(), StreamFailed> {
    match &run.ending {
        Ending::Finished { words, strokes } => {
            let trace = run.ran.as_slice();
            write_picture(line, *words, trace, strokes.as_slice(), units, writer)
        }
        Ending::Broke { address, fault } => {
            line.become_broke(*address, *fault);
            write_whole(writer, line.as_bytes())
        }
        Ending::Endless => {
            line.become_endless();
            write_whole(writer, line.as_bytes())
        }
    }
}

// Returns `ran` where it is `asked` for, else nothing.
fn if_asked(asked: bool, ran: &[Ran]) -> &[Ran] {
    if asked { ran } else { &[] }
}

/// Writes what `form` asks for of `run`, and how it ends, to `writer`.
pub(crate) fn write_run<A: Allocator, W: Write>(
    run: &Traced<A>,
    form: PictureForm,
    writer: &mut Watched<W>,
) -> Result<(), StreamFailed> {
    let mut line = Line::new();
    let ran = run.ran.as_slice();
    write_trace(if_asked(form.all, ran), writer)?;
    write_moves(
        &mut line,
        if_asked(form.moves, ran),
        form.units,
        false,
        writer,
    )?;
    write_end(&mut line, run, form.units, writer)
}
}

pub use dvg_dump::Outcome;
pub use engine::picture;
pub use svg::picture_svg;
pub use undrawn::Undrawn;
