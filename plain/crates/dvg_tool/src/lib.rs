//! The engines of the program `dvg` but `picture`, `torn`, `render` and `lay`, over any watched
//! reader and writer; and each job of `dvg_job` by its engine. What it reads are the texts of
//! `dvg_read`, and what it writes the lines of `dvg_print`. Those four are in crates below, so a
//! change here proves none of them anew.
//!
//! An engine reads its whole input before it writes, and takes no memory after its first write: its
//! lines are made in an array of fixed size. That no allocator reaches what writes is seen by
//! reading. It stops at the first failure of its reader or writer.
#![no_std]

extern crate plain_std as std;

mod checks {
//! The engines `check_text` and `check_bound`.
use dvg_frame::Checker;
use dvg_io::{Engine, StreamFailed, ToolFault, Watched, serve, write_whole};
use dvg_mem::Rom;
use dvg_print::{BoundedVerdict, Line, Verdict};
use dvg_read::{MOST_TEXT_BYTES, Unread, read_draft};
use std::alloc::Allocator;
use std::io::{Read, Write};

// Returns what the check says of the draft that `text` denotes, over the ROM that it denotes.
#[inline(never)]
fn judge<A: Allocator>(alloc: A, text: &[u8]) -> Result<BoundedVerdict, Unread> {
    let drafted = match read_draft(text) {
        Ok(drafted) => drafted,
        Err(fault) => return Err(Unread::Text(fault)),
    };
    let Ok(rom) = Rom::new(alloc, drafted.rom.as_slice()) else {
        return Err(Unread::Memory);
    };
    match Checker::new().check(drafted.draft.ops(), &rom) {
        Ok(checked) => Ok(BoundedVerdict::Good {
            words: checked.len_words(),
            bound: checked.bound(),
        }),
        Err(fault) => Ok(BoundedVerdict::Refused(fault)),
    }
}

// The engine `check_text`: it finds what the check says of a draft.
struct CheckEngine;

impl<A: Allocator + Copy> Engine<A> for CheckEngine {
    type Found = Verdict;

    const MOST: u32 = MOST_TEXT_BYTES as u32;

    fn find(&self, alloc: A, read: &[u8]) -> Result<Verdict, Unread> {
        let bounded = judge(alloc, read)?;
        Ok(bounded.verdict())
    }

    fn write<W: Write>(
        &self,
        verdict: &Verdict,
        writer: &mut Watched<W>,
    ) -> Result<(), StreamFailed> {
        let mut line = Line::new();
        line.become_verdict(*verdict);
        write_whole(writer, line.as_bytes())
    }
}

// The engine `check_bound`: it finds the bound of a good draft, too.
struct BoundEngine;

impl<A: Allocator + Copy> Engine<A> for BoundEngine {
    type Found = BoundedVerdict;

    const MOST: u32 = MOST_TEXT_BYTES as u32;

    fn find(&self, alloc: A, read: &[u8]) -> Result<BoundedVerdict, Unread> {
        judge(alloc, read)
    }

    fn write<W: Write>(
        &self,
        verdict: &BoundedVerdict,
        writer: &mut Watched<W>,
    ) -> Result<(), StreamFailed> {
        let mut line = Line::new();
        line.become_bounded(*verdict);
        write_whole(writer, line.as_bytes())
    }
}

/// Reads a draft as text from `reader`, with the lines of a memory map and of a ROM before it.
/// Writes what the check says of the draft over that ROM to `writer`, in one line: `ok` and its
/// number of words, or `fault` and the fault's number, name and place (the texts are this project's
/// own choice). Its memory comes from `alloc`. Returns what it wrote.
///
/// - `TooLong`: the text has more than 1,048,576 bytes, of which no more than 1,048,577 are taken.
///   This is decided before all others.
/// - `Syntax`, `Full`: this line is the first at fault. It spells nothing that may stand at its
///   place, or it spells operation number 511.
/// - `Reader`, `Writer`: that stream failed. After `Writer` a beginning of the line went out.
/// - `Memory`: an allocation failed.
///
/// Where it stops before it writes, which is at any fault but `Writer`, the writer is as it was.
#[inline(never)]
pub fn check_text<A: Allocator, R: Read, W: Write>(
    alloc: A,
    reader: &mut Watched<R>,
    writer: &mut Watched<W>,
) -> Result<Verdict, ToolFault> {
    serve(&CheckEngine, &alloc, reader, writer)
}

/// Reads a draft from `reader` and writes what the check says of it to `writer`, like `check_text`,
/// but the line of a good draft gives its bound, too: `ok`, its number of words, and how many words
/// the generator fetches in its whole run, word zero included. Its memory comes from `alloc`.
#[inline(never)]
pub fn check_bound<A: Allocator, R: Read, W: Write>(
    alloc: A,
    reader: &mut Watched<R>,
    writer: &mut Watched<W>,
) -> Result<BoundedVerdict, ToolFault> {
    serve(&BoundEngine, &alloc, reader, writer)
}
}
mod jobs {
//! Which engine does which job.
use crate::checks::{check_bound, check_text};
use crate::lists::{list, list_at};
use crate::outcome::Done;
use crate::plays::{play, play_in};
use crate::plays_svg::play_svg_in;
use crate::reports::reported;
use crate::roms::rom_text;
use dvg_explain::explain;
use dvg_game::game;
use dvg_io::{ToolFault, Watched};
use dvg_job::{Job, LogRule};
use dvg_lay::{check_sketch, draw_sketch, lay_sketch};
use dvg_logs::{torn, torn_all, torn_moments};
use dvg_mem::{Banked, Flat};
use dvg_picture::{picture, picture_svg};
use std::alloc::Allocator;
use std::io::{Read, Write};

/// Does `job` by the engine of its name, from `reader` to `writer`, and returns what is reported of
/// what that returns. Memory is taken from `alloc`.
pub fn perform<A: Allocator + Copy, R: Read, W: Write>(
    alloc: A,
    job: Job,
    reader: &mut Watched<R>,
    writer: &mut Watched<W>,
) -> Result<Done<A>, ToolFault> {
    match job {
        Job::List => reported(list(alloc, reader, writer)),
        Job::ListAt { address } => reported(list_at(alloc, reader, writer, address)),
        Job::Rom => reported(rom_text(alloc, reader, writer)),
        Job::Picture { form } => reported(picture(alloc, reader, writer, form)),
        Job::PictureSvg { percent } => reported(picture_svg(alloc, reader, writer, percent)),
        Job::Check { bound: false } => reported(check_text(alloc, reader, writer)),
        Job::Check { bound: true } => reported(check_bound(alloc, reader, writer)),
        Job::Play { all, banked: false } => reported(play(alloc, reader, writer, all)),
        Job::Play { all, banked: true } => {
            reported(play_in::<Banked<A>, R, W>(alloc, reader, writer, all))
        }
        Job::PlaySvg {
            banked: false,
            show,
        } => reported(play_svg_in::<Flat<A>, R, W>(alloc, reader, writer, show)),
        Job::PlaySvg { banked: true, show } => {
            reported(play_svg_in::<Banked<A>, R, W>(alloc, reader, writer, show))
        }
        Job::Torn {
            rule: LogRule::Halves,
            base,
        } => reported(torn(reader, writer, base)),
        Job::Torn {
            rule: LogRule::Moments,
            base,
        } => reported(torn_moments(reader, writer, base)),
        Job::Torn {
            rule: LogRule::AllMoments,
            base,
        } => reported(torn_all(reader, writer, base)),
        Job::Render { show } => reported(draw_sketch(alloc, reader, writer, show)),
        Job::RenderCheck => reported(check_sketch(alloc, reader, writer)),
        Job::Lay { form } => reported(lay_sketch(alloc, reader, writer, form)),
        Job::Explain => reported(explain(alloc, reader, writer)),
        Job::Game { notes } => reported(game(alloc, reader, writer, notes)),
    }
}
}
mod lists {
//! The engines `list` and `list_at`. Their fault `Cut` comes in the middle of their writing, so
//! neither is an `Engine` that is served.
use dvg_code::{Code, Listed, Listing, encode};
use dvg_io::{StreamFailed, ToolFault, Watched, collect_words, read_up_to, write_whole};
use dvg_print::InstrLine;
use dvg_read::TextFault;
use std::alloc::Allocator;
use std::io::{Read, Write};

/// The most bytes that `list` takes as its input: 4,096 words, all that an address of 12 bits names
/// (this project's own choice).
pub const MOST_LIST_BYTES: usize = 8192;

/// How many word addresses there are.
const ADDRESSES: usize = 4096;

// Whether `words` begin with `spelled`. An instruction has one word or two: these are compared as
// words, which takes less time than a comparison of their bytes.
#[inline(always)]
fn begin_with(words: &[u16], spelled: &[u16]) -> bool {
    if words.len() < spelled.len() {
        return false;
    }
    match spelled.len() {
        1 => spelled[0] == words[0],
        2 => spelled[0] == words[0] && spelled[1] == words[1],
        _ => words.starts_with(spelled),
    }
}

// Writes the line of `code`, the instruction that stands at `place` in `words`, to `writer`, listed
// at `address`. The line is made in `line`.
#[inline(always)]
fn write_item<W: Write>(
    line: &mut InstrLine,
    words: &[u16],
    place: usize,
    address: usize,
    code: &Code,
    writer: &mut Watched<W>,
) -> Result<(), StreamFailed> {
    let canonical = begin_with(&words[place..], encode(code).as_slice());
    line.become_listed(address, code, canonical);
    write_whole(writer, line.as_bytes())
}

// Returns the address of `place` among words of which the first has the address `at`, modulo 4,096.
fn address_from(at: u16, place: usize) -> usize {
    (usize::from(at) + place % ADDRESSES) % ADDRESSES
}

// Writes a line to `writer` for each instruction of `words`, of which the first has the address
// `at`.
fn list_words<W: Write>(at: u16, words: &[u16], writer: &mut Watched<W>) -> Result<(), ToolFault> {
    let mut line = InstrLine::new();
    for item in Listing::new(words) {
        match item {
            Listed::At(place, code) => {
                let address = address_from(at, place);
                if write_item(&mut line, words, place, address, &code, writer).is_err() {
                    return Err(ToolFault::Writer);
                }
            }
            Listed::Cut(place) => {
                return Err(ToolFault::Text(TextFault::Cut(address_from(at, place))));
            }
        }
    }
    Ok(())
}

/// Lists words from `reader` to `writer` as `list` does, where the first one has the address `at`
/// and the others count on from it, modulo 4,096. Lines and the fault `Cut` give these addresses.
pub(crate) fn list_at<A: Allocator, R: Read, W: Write>(
    alloc: A,
    reader: &mut Watched<R>,
    writer: &mut Watched<W>,
    at: u16,
) -> Result<(), ToolFault> {
    let bytes = read_up_to(&alloc, reader, MOST_LIST_BYTES)?;
    if bytes.len() > MOST_LIST_BYTES {
        return Err(ToolFault::Text(TextFault::TooLong));
    }
    if bytes.len() % 2 == 1 {
        return Err(ToolFault::Text(TextFault::Odd));
    }
    let words = collect_words(&alloc, bytes.as_slice())?;
    list_words(at, words.as_slice(), writer)
}

/// Reads words from `reader`, two bytes each, the low one first, and writes a line to `writer` for
/// each instruction: its place in words, its name and operands, and a star where its words aren't
/// canonical (the text is this project's own choice).
///
/// - `TooLong`: the input has more than 8,192 bytes, of which no more than 8,193 are taken.
/// - `Odd`: it has an odd number of bytes.
/// - `Cut`: the last word is the first of two, and the second is missing; the lines before it are
///   written.
/// - `Reader`, `Writer`: that stream failed. After `Writer` a beginning of the text went out.
/// - `Memory`: an allocation failed.
///
/// Where it stops before it writes, which is at any fault but `Cut` and `Writer`, the writer is as
/// it was.
pub fn list<A: Allocator, R: Read, W: Write>(
    alloc: A,
    reader: &mut Watched<R>,
    writer: &mut Watched<W>,
) -> Result<(), ToolFault> {
    list_at(alloc, reader, writer, 0)
}
}
mod outcome {
//! How the program ends.
use dvg_blame::Refusal;
use dvg_io::{ToolFault, Watched};
use dvg_picture::Undrawn;
use std::alloc::{Allocator, Global};
use std::io::Write;

/// What a job that is done reports.
#[derive(Debug, PartialEq, Eq, Hash)]
pub enum Done<A: Allocator = Global> {
    /// What was asked for was written, and what was asked about is good: the draft, each frame of
    /// the sketch, the log, the game, or the run over the dump, which drew a picture.
    Good,
    /// What was asked about isn't good, and what was written says why.
    Bad,
    /// A game keeps to the rules, but what was written says what of it isn't seen.
    Unseen,
    /// The run over a dump drew no picture, for this reason. What it drew was written as SVG.
    Undrawn(Undrawn),
    /// A frame of a sketch is refused, and nothing was written.
    Refused(Refusal<A>),
}

/// Flushes `writer` after an engine is done, which returned `answer`. A flush that fails is
/// `Writer`, whatever `answer` is. Else `answer` is returned.
pub fn finish<A: Allocator, W: Write>(
    answer: Result<Done<A>, ToolFault>,
    writer: &mut Watched<W>,
) -> Result<Done<A>, ToolFault> {
    match writer.flush() {
        Ok(()) => answer,
        Err(_) => Err(ToolFault::Writer),
    }
}

/// Returns the program's exit status for `answer` (this project's own choice):
///
/// - 0: the job is done.
/// - 1: a fault of the text, or the answer is no: a draft that `check` refuses, also in a sketch, a
///   dump that draws no picture, a log with a torn picture, one that contradicts itself, or one
///   that has nothing to judge, a game that is refused.
/// - 2: a stream or an allocation failed.
/// - 3: a game keeps to the rules, but not all that it offers and puts is seen.
///
/// Arguments that ask for no job are 64, which no engine returns.
pub fn status<A: Allocator>(answer: &Result<Done<A>, ToolFault>) -> u8 {
    match answer {
        Ok(Done::Good) => 0,
        Ok(Done::Unseen) => 3,
        Ok(Done::Bad | Done::Undrawn(_) | Done::Refused(_)) | Err(ToolFault::Text(_)) => 1,
        Err(ToolFault::Reader | ToolFault::Writer | ToolFault::Memory) => 2,
    }
}
}
mod plays {
//! The engine `play`.
use crate::plays_pictures::play_pictures;
use crate::shows::write_entries;
use dvg_io::{Engine, StreamFailed, ToolFault, Watched, serve};
use dvg_mem::{Flat, Image, MEMORY_BYTES, Rom, Store};
use dvg_read::{MOST_TEXT_BYTES, TraceText, Unread, read_trace};
use dvg_world::{Logged, log_trace};
use std::alloc::Allocator;
use std::io::{Read, Write};
use std::marker::PhantomData;

/// Returns the ROM of `trace`, the text of a trace, and an image of zeros. Returns `None` where an
/// allocation fails.
pub(crate) fn memory_of<A: Allocator + Copy>(
    alloc: A,
    trace: &TraceText<A>,
) -> Option<(Rom<A>, Image<A>)> {
    let Ok(rom) = Rom::new(alloc, trace.rom.as_slice()) else {
        return None;
    };
    let Ok(image) = Image::new(alloc, &[0; MEMORY_BYTES]) else {
        return None;
    };
    Some((rom, image))
}

// Runs the events of `trace` over its ROM, from a RAM of zeros, and keeps their entries.
fn log_text<S: Store>(alloc: S::Alloc, trace: &TraceText<S::Alloc>) -> Logged<S::Alloc> {
    let Some((rom, image)) = memory_of(alloc, trace) else {
        return Logged::unstarted(alloc);
    };
    log_trace::<S>(alloc, rom, &image, &trace.events)
}

// The engine that finds the entries of a trace's events, over a RAM that is kept in a store.
struct EntriesEngine<S> {
    store: PhantomData<S>,
}

impl<S: Store> Engine<S::Alloc> for EntriesEngine<S> {
    type Found = Logged<S::Alloc>;

    const MOST: u32 = MOST_TEXT_BYTES as u32;

    fn find(&self, alloc: S::Alloc, read: &[u8]) -> Result<Self::Found, Unread> {
        let trace = read_trace(alloc, read)?;
        Ok(log_text::<S>(alloc, &trace))
    }

    fn write<W: Write>(
        &self,
        logged: &Self::Found,
        writer: &mut Watched<W>,
    ) -> Result<(), StreamFailed> {
        write_entries(&logged.entries, writer)
    }
}

// Plays a trace from `reader`, and writes each entry to `writer`.
fn play_entries<S: Store, R: Read, W: Write>(
    alloc: S::Alloc,
    reader: &mut Watched<R>,
    writer: &mut Watched<W>,
) -> Result<(), ToolFault> {
    let engine = EntriesEngine::<S> { store: PhantomData };
    if serve(&engine, alloc, reader, writer)?.is_whole {
        Ok(())
    } else {
        Err(ToolFault::Memory)
    }
}

/// Reads a trace as text from `reader`, with the lines of a memory map and of a ROM before it. Runs
/// its events from a RAM of zeros, and writes what the log shows to `writer`: with `all` a line for
/// each entry, and else one for each finished run. After the line of a finished run comes one for
/// each of its strokes, in the order drawn (the texts are this project's own choice).
///
/// The events are run by `dvg_world::log_trace`, or, where only finished runs are shown, by
/// `draw_trace`, which keeps nothing else: the log is the one legal log of them, and each of its
/// lines keeps the headline, which `Plays` says, too. The whole text is read before the first event
/// happens, and what writes is handed no allocator.
///
/// - `TooLong`: the text has more than 1,048,576 bytes, of which no more than 1,048,577 are taken.
///   This is decided before all others.
/// - `Syntax`, `Full`, `Many`, `Unended`: this is the first fault of the text, as `read_trace`
///   says.
/// - `Reader`, `Writer`: that stream failed. After `Writer` a beginning of the text went out.
/// - `Memory`: an allocation failed. At an event, which is a fetch that completes a vector with an
///   intensity of at least 1, the text of the events before it went out first. The contract can't
///   say where memory was refused, so by it nothing at all may have gone out; tests show that text.
///
/// Where it stops before it writes, which is at any fault but `Writer` and `Memory`, the writer is
/// as it was.
///
/// The RAM is kept in any store. All of this holds whichever it is, so what is written doesn't
/// depend on it.
#[inline(never)]
pub fn play_in<S: Store, R: Read, W: Write>(
    alloc: S::Alloc,
    reader: &mut Watched<R>,
    writer: &mut Watched<W>,
    all: bool,
) -> Result<(), ToolFault> {
    if all {
        play_entries::<S, R, W>(alloc, reader, writer)
    } else {
        play_pictures::<S, R, W>(alloc, reader, writer)
    }
}

/// Plays a trace from `reader` to `writer` over a RAM that is kept in one array: `play_in` with the
/// store `Flat`, and with its clauses. With `all` each entry is written, else finished runs alone.
pub fn play<A: Allocator + Copy, R: Read, W: Write>(
    alloc: A,
    reader: &mut Watched<R>,
    writer: &mut Watched<W>,
    all: bool,
) -> Result<(), ToolFault> {
    play_in::<Flat<A>, R, W>(alloc, reader, writer, all)
}
}
mod plays_pictures {
//! The engine `play` without each entry: the pictures alone.
use crate::plays::memory_of;
use dvg_io::{Engine, StreamFailed, ToolFault, Watched, serve, write_strokes, write_whole};
use dvg_mem::Store;
use dvg_print::Line;
use dvg_read::{MOST_TEXT_BYTES, TraceText, Unread, read_trace};
use dvg_world::{Drawn, Picture, draw_trace};
use std::alloc::Allocator;
use std::io::{Read, Write};
use std::marker::PhantomData;

/// Runs the events of `trace` over its ROM, from a RAM of zeros, and keeps the pictures.
pub(crate) fn draw_text<S: Store>(alloc: S::Alloc, trace: &TraceText<S::Alloc>) -> Drawn<S::Alloc> {
    let Some((rom, image)) = memory_of(alloc, trace) else {
        return Drawn::unstarted(alloc);
    };
    draw_trace::<S>(alloc, rom, &image, &trace.events)
}

// Writes `picture` to `writer`: its line, and one for each of its strokes. The lines are made in
// `line`.
fn write_picture<A: Allocator, W: Write>(
    line: &mut Line,
    picture: &Picture<A>,
    writer: &mut Watched<W>,
) -> Result<(), StreamFailed> {
    line.become_picture(picture.event, picture.strokes.len());
    write_whole(writer, line.as_bytes())?;
    write_strokes(picture.strokes.as_slice(), writer)
}

// Writes `pictures` to `writer`, one after the other.
fn write_pictures<A: Allocator, W: Write>(
    pictures: &[Picture<A>],
    writer: &mut Watched<W>,
) -> Result<(), StreamFailed> {
    let mut line = Line::new();
    for picture in pictures {
        write_picture(&mut line, picture, writer)?;
    }
    Ok(())
}

// The engine that finds the pictures of a trace, over a RAM that is kept in a store.
struct PicturesEngine<S> {
    store: PhantomData<S>,
}

impl<S: Store> Engine<S::Alloc> for PicturesEngine<S> {
    type Found = Drawn<S::Alloc>;

    const MOST: u32 = MOST_TEXT_BYTES as u32;

    fn find(&self, alloc: S::Alloc, read: &[u8]) -> Result<Self::Found, Unread> {
        let trace = read_trace(alloc, read)?;
        Ok(draw_text::<S>(alloc, &trace))
    }

    fn write<W: Write>(
        &self,
        drawn: &Self::Found,
        writer: &mut Watched<W>,
    ) -> Result<(), StreamFailed> {
        write_pictures(drawn.pictures.as_slice(), writer)
    }
}

/// Plays a trace from `reader`, and writes the pictures to `writer`.
pub(crate) fn play_pictures<S: Store, R: Read, W: Write>(
    alloc: S::Alloc,
    reader: &mut Watched<R>,
    writer: &mut Watched<W>,
) -> Result<(), ToolFault> {
    let engine = PicturesEngine::<S> { store: PhantomData };
    if serve(&engine, alloc, reader, writer)?.is_whole {
        Ok(())
    } else {
        Err(ToolFault::Memory)
    }
}
}
mod plays_svg {
//! The engine of `play --svg`.
use std::prelude::*;

use crate::plays_pictures::draw_text;
use dvg_gen::Stroke;
use dvg_io::{Engine, StreamFailed, ToolFault, Watched, serve};
use dvg_job::Show;
use dvg_mem::Store;
use dvg_read::{MOST_TEXT_BYTES, TraceText, Unread, read_trace};
use dvg_svg::write_svgs;
use dvg_world::Picture;
use std::alloc::Allocator;
use std::io::{Read, Write};
use std::marker::PhantomData;

// Returns the strokes of each of `pictures`. Returns `Memory` where an allocation fails.
fn collect_strokes<A: Allocator + Copy>(
    alloc: A,
    pictures: Vec<Picture<A>, A>,
) -> Result<Vec<Vec<Stroke, A>, A>, Unread> {
    let mut strokes = Vec::new(alloc);
    for picture in pictures {
        if strokes.push(picture.strokes).is_err() {
            return Err(Unread::Memory);
        }
    }
    Ok(strokes)
}

// Runs the events of `trace`, and returns the strokes of the runs that finished. Returns `Memory`
// where an allocation fails.
fn draw_whole<S: Store>(
    alloc: S::Alloc,
    trace: &TraceText<S::Alloc>,
) -> Result<Vec<Vec<Stroke, S::Alloc>, S::Alloc>, Unread> {
    let drawn = draw_text::<S>(alloc, trace);
    if !drawn.is_whole {
        return Err(Unread::Memory);
    }
    collect_strokes(alloc, drawn.pictures)
}

// The engine that finds the pictures of a trace, over a RAM that is kept in a store.
struct SvgEngine<S> {
    show: Show,
    store: PhantomData<S>,
}

impl<S: Store> Engine<S::Alloc> for SvgEngine<S> {
    type Found = Vec<Vec<Stroke, S::Alloc>, S::Alloc>;

    const MOST: u32 = MOST_TEXT_BYTES as u32;

    fn find(&self, alloc: S::Alloc, read: &[u8]) -> Result<Self::Found, Unread> {
        let trace = read_trace(alloc, read)?;
        draw_whole::<S>(alloc, &trace)
    }

    fn write<W: Write>(
        &self,
        pictures: &Self::Found,
        writer: &mut Watched<W>,
    ) -> Result<(), StreamFailed> {
        write_svgs(self.show, pictures.as_slice(), writer)
    }
}

/// Reads a trace as text from `reader` and runs its events as `play` does. Writes the pictures of
/// all runs that finished to `writer` as one SVG, in which they are shown in turn, in the size and
/// at the rate of `show` (the text is this project's own choice).
///
/// - `TooLong`, `Syntax`, `Full`, `Many`, `Unended`: as `play_in` says.
/// - `Reader`, `Writer`: that stream failed. After `Writer` a beginning of the text went out.
/// - `Memory`: an allocation failed.
///
/// Where it stops before it writes, which is at any fault but `Writer`, the writer is as it was.
///
/// The RAM is kept in any store. All of this holds whichever it is, so what is written doesn't
/// depend on it.
#[inline(never)]
pub(crate) fn play_svg_in<S: Store, R: Read, W: Write>(
    alloc: S::Alloc,
    reader: &mut Watched<R>,
    writer: &mut Watched<W>,
    show: Show,
) -> Result<(), ToolFault> {
    let engine = SvgEngine::<S> {
        show,
        store: PhantomData,
    };
    serve(&engine, alloc, reader, writer)?;
    Ok(())
}
}
mod reports {
//! What a job reports of what its engine returns.
use std::prelude::*;

use crate::outcome::Done;
use dvg_blame::Refusal;
use dvg_explain::Finding;
use dvg_game::Told;
use dvg_game_check::Verdict as GameVerdict;
use dvg_io::ToolFault;
use dvg_lay::Said;
use dvg_logs::{LogFinding, LogVerdict, MomentVerdict};
use dvg_picture::{Outcome, Undrawn};
use dvg_print::{BoundedVerdict, Verdict};
use std::alloc::Allocator;

/// What an engine returns, of which something is reported.
pub(crate) trait Answer<A: Allocator> {
    /// Returns what is reported of it.
    fn done(self) -> Done<A>;
}

impl<A: Allocator> Answer<A> for () {
    fn done(self) -> Done<A> {
        Done::Good
    }
}

impl<A: Allocator> Answer<A> for Verdict {
    fn done(self) -> Done<A> {
        match self {
            Verdict::Good(_) => Done::Good,
            Verdict::Refused(_) => Done::Bad,
        }
    }
}

impl<A: Allocator> Answer<A> for BoundedVerdict {
    fn done(self) -> Done<A> {
        match self {
            BoundedVerdict::Good { .. } => Done::Good,
            BoundedVerdict::Refused(_) => Done::Bad,
        }
    }
}

impl<A: Allocator> Answer<A> for Outcome {
    fn done(self) -> Done<A> {
        match self {
            Outcome::Picture => Done::Good,
            Outcome::Broke | Outcome::Endless => Done::Bad,
        }
    }
}

impl<A: Allocator> Answer<A> for Option<Undrawn> {
    fn done(self) -> Done<A> {
        match self {
            None => Done::Good,
            Some(undrawn) => Done::Undrawn(undrawn),
        }
    }
}

impl<A: Allocator> Answer<A> for LogVerdict {
    fn done(self) -> Done<A> {
        match self.finding {
            LogFinding::NotTorn => Done::Good,
            LogFinding::NoRunDrew | LogFinding::Torn { .. } => Done::Bad,
        }
    }
}

impl<A: Allocator> Answer<A> for MomentVerdict {
    fn done(self) -> Done<A> {
        match self {
            MomentVerdict::Whole { .. } => Done::Good,
            MomentVerdict::NoRun { .. }
            | MomentVerdict::Torn { .. }
            | MomentVerdict::Contradicts { .. }
            | MomentVerdict::SomeTorn { .. } => Done::Bad,
        }
    }
}

impl<T: Drop, A: Allocator> Answer<A> for Result<T, Refusal<A>> {
    fn done(self) -> Done<A> {
        match self {
            Ok(_) => Done::Good,
            Err(refusal) => Done::Refused(refusal),
        }
    }
}

impl<A: Allocator> Answer<A> for Said<A> {
    fn done(self) -> Done<A> {
        if self.is_good() {
            Done::Good
        } else {
            Done::Bad
        }
    }
}

impl<A: Allocator> Answer<A> for Finding<A> {
    fn done(self) -> Done<A> {
        if self.is_good { Done::Good } else { Done::Bad }
    }
}

impl<A: Allocator> Answer<A> for Told<A> {
    fn done(self) -> Done<A> {
        match self.verdict {
            GameVerdict::Keeps(_) => Done::Good,
            GameVerdict::Unseen(_, _) => Done::Unseen,
            GameVerdict::Refused(_) | GameVerdict::Unsettled(_) => Done::Bad,
        }
    }
}

/// Returns what is reported of an engine's `answer`: a fault stays as it is.
pub(crate) fn reported<A: Allocator, V: Answer<A>>(
    answer: Result<V, ToolFault>,
) -> Result<Done<A>, ToolFault> {
    match answer {
        Ok(found) => Ok(found.done()),
        Err(fault) => Err(fault),
    }
}
}
mod roms {
//! The engine `rom_text`.
use std::prelude::*;

use dvg_io::{Engine, StreamFailed, ToolFault, Watched, collect_words, serve, write_whole};
use dvg_mem::{FIRST_LARGE_ROM_WORD, FIRST_ROM_WORD, LARGE_ROM_BYTES, MEMORY_BYTES};
use dvg_print::{LINE_WORDS, Line};
use dvg_read::{TextFault, Unread};
use std::alloc::Allocator;
use std::io::{Read, Write};

/// The line that gives the map of the larger ROM.
const LARGE_MAP: &[u8] = b"map 4096\n";

// Writes a line to `writer` for every eight of `words`, the words of a ROM. `first` is the word
// address of the first.
fn write_rows<W: Write>(
    first: u16,
    words: &[u16],
    writer: &mut Watched<W>,
) -> Result<(), StreamFailed> {
    let mut line = Line::new();
    for row in 0..words.len() / LINE_WORDS {
        let begin = row * LINE_WORDS;
        line.become_rom(
            usize::from(first) + begin,
            &words[begin..begin + LINE_WORDS],
        );
        write_whole(writer, line.as_bytes())?;
    }
    Ok(())
}

// Writes the text of a ROM to `writer`: `map`, the line of its map or nothing, and the lines of
// `words`. `first` is the word address of the first.
fn write_rom<W: Write>(
    map: &[u8],
    first: u16,
    words: &[u16],
    writer: &mut Watched<W>,
) -> Result<(), StreamFailed> {
    write_whole(writer, map)?;
    write_rows(first, words, writer)
}

// Returns the words of `bytes`, the bytes of a ROM. Returns `RomSize` where they are neither 2,048
// nor 4,096, and `Memory` where an allocation fails.
fn words_of_rom<A: Allocator>(alloc: A, bytes: &[u8]) -> Result<Vec<u16, A>, Unread> {
    if bytes.len() != MEMORY_BYTES && bytes.len() != LARGE_ROM_BYTES {
        return Err(Unread::Text(TextFault::RomSize));
    }
    match collect_words(alloc, bytes) {
        Ok(words) => Ok(words),
        Err(_) => Err(Unread::Memory),
    }
}

// The engine that finds the words of a ROM.
struct RomEngine;

impl<A: Allocator + Copy> Engine<A> for RomEngine {
    type Found = Vec<u16, A>;

    const MOST: u32 = LARGE_ROM_BYTES as u32;

    fn find(&self, alloc: A, read: &[u8]) -> Result<Vec<u16, A>, Unread> {
        words_of_rom(alloc, read)
    }

    fn write<W: Write>(
        &self,
        words: &Vec<u16, A>,
        writer: &mut Watched<W>,
    ) -> Result<(), StreamFailed> {
        if words.len() == MEMORY_BYTES / 2 {
            write_rom(b"", FIRST_ROM_WORD, words.as_slice(), writer)
        } else {
            write_rom(LARGE_MAP, FIRST_LARGE_ROM_WORD, words.as_slice(), writer)
        }
    }
}

/// Reads the bytes of a ROM from `reader`, 2,048 or 4,096, and writes them to `writer` as ROM lines
/// of eight words each: of 2,048 bytes 128 lines, from word address 800 on, and of 4,096 bytes the
/// line `map 4096` and 256 lines, from word address 400 on (the text is this project's own choice).
/// Its memory comes from `alloc`.
///
/// - `RomSize`: the input has another number of bytes; no more than 4,097 are taken.
/// - `Reader`, `Writer`: that stream failed. After `Writer` a beginning of the text went out.
/// - `Memory`: an allocation failed.
///
/// Where it stops before it writes, which is at any fault but `Writer`, the writer is as it was.
pub fn rom_text<A: Allocator, R: Read, W: Write>(
    alloc: A,
    reader: &mut Watched<R>,
    writer: &mut Watched<W>,
) -> Result<(), ToolFault> {
    serve(&RomEngine, &alloc, reader, writer)?;
    Ok(())
}
}
mod shows {
//! What is written of entries.
use dvg_gen::Stroke;
use dvg_io::{StreamFailed, Watched, write_strokes, write_whole};
use dvg_log::Entry;
use dvg_print::EntryLines;
use dvg_world::{Entries, EntryRun};
use std::alloc::Allocator;
use std::io::Write;

// Makes the line of the next entry, `entry`, in `lines`. `drew` is how many strokes the run drew,
// if `entry` finished one. With `again` the line there is that of an equal entry before it.
#[inline(always)]
fn make_line(lines: &mut EntryLines, entry: &Entry<()>, drew: usize, again: bool) {
    if again {
        lines.become_again(entry, drew);
    } else {
        lines.become_next(entry, drew);
    }
}

// Writes what is shown of the next entry, `entry`, to `writer`. `strokes` are what its run drew, if
// it finished. The line is made in `lines`, where with `again` that of an equal entry before it is.
#[inline(always)]
fn write_next<W: Write>(
    lines: &mut EntryLines,
    entry: &Entry<()>,
    strokes: &[Stroke],
    again: bool,
    writer: &mut Watched<W>,
) -> Result<(), StreamFailed> {
    make_line(lines, entry, strokes.len(), again);
    write_whole(writer, lines.as_bytes())?;
    if strokes.is_empty() {
        return Ok(());
    }
    write_strokes(strokes, writer)
}

// Writes what is shown of the entries of `run` but the first one, whose line is in `lines`, to
// `writer`. It isn't inlined, as what writes other entries is faster without it.
#[inline(never)]
fn write_others<W: Write>(
    lines: &mut EntryLines,
    run: EntryRun<'_>,
    writer: &mut Watched<W>,
) -> Result<(), StreamFailed> {
    for _again in 1..run.times {
        write_next(lines, run.entry, run.strokes, true, writer)?;
    }
    Ok(())
}

// Writes what is shown of the next entries, which are `run`, equal ones in a row, to `writer`.
// Their lines are made in `lines`.
fn write_run<W: Write>(
    lines: &mut EntryLines,
    run: EntryRun<'_>,
    writer: &mut Watched<W>,
) -> Result<(), StreamFailed> {
    write_next(lines, run.entry, run.strokes, false, writer)?;
    if run.times == 1 {
        return Ok(());
    }
    write_others(lines, run, writer)
}

/// Writes what is shown of each of `entries` to `writer`. The first of them is that of event 0.
/// Each line is handed to `writer` by itself, which is tested.
pub fn write_entries<A: Allocator, W: Write>(
    entries: &Entries<A>,
    writer: &mut Watched<W>,
) -> Result<(), StreamFailed> {
    let mut lines = EntryLines::new(0);
    for run in entries.runs() {
        write_run(&mut lines, run, writer)?;
    }
    Ok(())
}
}

pub use checks::{check_bound, check_text};
pub use dvg_args::{MISUSE, arguments_status, job};
pub use dvg_io::{ToolFault, Watched};
pub use dvg_job::{Job, LayForm, LogRule, PictureForm, Show};
pub use dvg_logs::{
    LogCounts, LogFinding, LogVerdict, MomentVerdict, Reading, torn, torn_all, torn_moments,
};
pub use dvg_picture::{Outcome, Undrawn, picture};
pub use dvg_print::{BoundedVerdict, Verdict};
pub use dvg_read::{MOST_TEXT_BYTES, TextFault};
pub use jobs::perform;
pub use lists::{MOST_LIST_BYTES, list};
pub use outcome::{Done, finish, status};
pub use plays::{play, play_in};
pub use roms::rom_text;
