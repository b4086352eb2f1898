//! The check of the frames of a sketch, and what is to blame where one is refused: a line of the
//! sketch, or a word of its ROM with the name before it. Also which frame names a word of the ROM
//! that a table can't name.
#![no_std]

extern crate plain_std as std;

mod checking {
//! The check of frames, and what is said of a refused one.
use std::prelude::*;

use crate::refusal::{Blamed, Reason, Refusal, Unlaid};
use crate::said::said;
use dvg_frame::{Checked, Checker, FrameFault, Op, OpKind, Place};
use dvg_mem::Rom;
use dvg_named::{NamedFrame, RomName, Source};
use std::alloc::{AllocError, Allocator};

/// How many words the RAM has, which begins at word address 0.
const RAM_WORDS: u16 = 0x400;

// Returns the place that `fault` names. For a fault of the whole draft it is operation 0.
fn place_of(fault: FrameFault) -> Place {
    match fault {
        FrameFault::Target(i) | FrameFault::RunsOff(i) => Place::InFrame(i),
        FrameFault::OutOfRom(place) | FrameFault::TooDeep(place) | FrameFault::NoCaller(place) =>
            place,
        FrameFault::Empty | FrameFault::NoLabs | FrameFault::TooLong | FrameFault::Loops =>
            Place::InFrame(0),
    }
}

// Returns the line of operation `i` of `frame`, or the line that begins the frame where there is
// none.
fn line_of<'a>(frame: &NamedFrame<'a>, i: usize) -> Source<'a> {
    match frame.sources.get(i) {
        Some(source) => *source,
        None => frame.begin,
    }
}

// Whether `name` is at or before `address` and at least as near to it as `found`, if there is one.
fn is_nearer(found: Option<RomName>, name: &RomName, address: u16) -> bool {
    match found {
        Some(found) => found.address <= name.address && name.address <= address,
        None => name.address <= address,
    }
}

// Returns the one of `names` that is nearest to `address`, at or before it, and of several the
// last.
fn name_before<'a>(names: &[RomName<'a>], address: u16) -> Option<RomName<'a>> {
    let mut found = None;
    for name in names {
        if is_nearer(found, name, address) {
            found = Some(*name);
        }
    }
    found
}

// Returns the text of the name that `name_before` finds in `names` for `address`, if there is one.
// Returns `AllocError` where an allocation fails.
fn name_text<A: Allocator + Copy>(
    alloc: A,
    names: &[RomName],
    address: u16,
) -> Result<Option<Vec<u8, A>>, AllocError> {
    match name_before(names, address) {
        Some(found) => Ok(Some(Vec::from_slice(alloc, found.name)?)),
        None => Ok(None),
    }
}

// Returns what is blamed for a fault at `place` of `frame`: a line, or a word of the ROM with one
// of `names`. Returns `AllocError` where an allocation fails.
fn blame<A: Allocator + Copy>(
    alloc: A,
    names: &[RomName],
    frame: &NamedFrame,
    place: Place,
) -> Result<Blamed<A>, AllocError> {
    match place {
        Place::InFrame(i) => {
            let source = line_of(frame, usize::from(i));
            Ok(Blamed::Line {
                number: source.number,
                said: said(alloc, source.line)?,
            })
        }
        Place::InRom(address) => Ok(Blamed::Word {
            name: name_text(alloc, names, address)?,
            address,
        }),
    }
}

// Returns the refusal of `frame` for `reason`, at `place`. Returns `Memory` where an allocation
// fails.
fn tell<A: Allocator + Copy>(
    alloc: A,
    names: &[RomName],
    frame: &NamedFrame,
    place: Place,
    reason: Reason,
) -> Unlaid<A> {
    match blame(alloc, names, frame, place) {
        Ok(blamed) => Unlaid::Refused(Refusal { blamed, reason }),
        Err(_) => Unlaid::Memory,
    }
}

/// Returns the refusal of `frame` with the reason `ManyWords(words)`, and blames the line of
/// operation 0. Returns `Memory` where an allocation fails.
pub fn tell_long<A: Allocator + Copy>(
    alloc: A,
    names: &[RomName],
    frame: &NamedFrame,
    words: u64,
) -> Unlaid<A> {
    tell(
        alloc,
        names,
        frame,
        Place::InFrame(0),
        Reason::ManyWords(words),
    )
}

/// Returns `frame` checked, where `checker` accepts it over `rom`. Else returns its fault and the
/// line or the word at fault, with one of `names`, as `lay_bytes` does.
pub fn good_frame<'a, A: Allocator + Copy>(
    alloc: A,
    checker: &mut Checker,
    rom: &Rom<A>,
    names: &[RomName],
    frame: &NamedFrame<'a>,
) -> Result<Checked<'a>, Unlaid<A>> {
    match checker.check(frame.ops, rom) {
        Ok(checked) => Ok(checked),
        Err(fault) => Err(tell(alloc, names, frame, place_of(fault), Reason::Fault(fault))),
    }
}

/// Checks all `frames` over `rom`. Returns the refusal of the first that the check doesn't accept.
/// `names` are the names of the ROM. Returns `Memory` where an allocation fails.
pub fn check_all<A: Allocator + Copy>(
    alloc: A,
    rom: &Rom<A>,
    names: &[RomName],
    frames: &[NamedFrame],
) -> Result<(), Unlaid<A>> {
    let mut checker = Box::new(alloc, Checker::new())?;
    for frame in frames {
        if let Err(unlaid) = good_frame(alloc, &mut checker, rom, names, frame) {
            return Err(unlaid);
        }
    }
    Ok(())
}

// Whether what `op` names of the ROM stands from word 400 on.
fn names_high_word(op: &Op) -> bool {
    match op.kind() {
        OpKind::CallRom(address) | OpKind::JumpRom(address) => RAM_WORDS <= address,
        OpKind::Draw(_) | OpKind::Call(_) | OpKind::Jump(_) | OpKind::Return | OpKind::Halt => true,
    }
}

// Returns the number of the first of `ops` that names a word of the ROM below 400.
fn first_low(ops: &[Op]) -> Option<usize> {
    for (i, op) in ops.iter().enumerate() {
        if !names_high_word(op) {
            return Some(i);
        }
    }
    None
}

/// Returns the refusal of the first of `frames` with an operation that names a word of the ROM
/// below 400. `names` are the names of the ROM. Returns `Memory` where an allocation fails.
pub fn check_low_words<A: Allocator + Copy>(
    alloc: A,
    names: &[RomName],
    frames: &[NamedFrame],
) -> Result<(), Unlaid<A>> {
    for frame in frames {
        if let Some(i) = first_low(frame.ops) {
            let place = Place::InFrame(i as u16);
            return Err(tell(alloc, names, frame, place, Reason::NamesNoWord));
        }
    }
    Ok(())
}
}
mod refusal {
//! Why a sketch isn't laid out.
use std::prelude::*;

use dvg_frame::FrameFault;
use dvg_print::{Line, Verdict};
use std::alloc::{AllocFailed, Allocator, Global};
use std::fmt;

/// What is blamed for a refusal.
#[derive(Debug, PartialEq, Eq, Hash)]
pub enum Blamed<A: Allocator = Global> {
    /// A line of the sketch.
    Line {
        /// Its number, counted from 1.
        number: usize,
        /// Its tokens after the name that it gives, with a space between each two.
        said: Vec<u8, A>,
    },
    /// A word of the ROM.
    Word {
        /// The name that stands there or before it, if there is one.
        name: Option<Vec<u8, A>>,
        /// Its word address.
        address: u16,
    },
}

/// Why a frame is refused.
#[derive(Clone, Copy, Debug, PartialEq, Eq, Hash)]
pub enum Reason {
    /// The check picks this fault.
    Fault(FrameFault),
    /// A call or a jump to the ROM names a word below 400, which in a table is one of the frame.
    NamesNoWord,
    /// The picture has so many words, more than are drawn.
    ManyWords(u64),
}

/// A frame that is refused. Its text is what `dvg` prints of it (this project's own choice).
#[derive(Debug, PartialEq, Eq, Hash)]
pub struct Refusal<A: Allocator = Global> {
    /// What is blamed.
    pub blamed: Blamed<A>,
    /// Why.
    pub reason: Reason,
}

/// Why nothing is laid out.
#[derive(Debug)]
pub enum Unlaid<A: Allocator = Global> {
    /// A frame is refused.
    Refused(Refusal<A>),
    /// An allocation failed.
    Memory,
}

impl<T: Drop, A: Allocator> From<AllocFailed<T>> for Unlaid<A> {
    fn from(_refused: AllocFailed<T>) -> Unlaid<A> {
        Unlaid::Memory
    }
}

// Writes `text`, which is ASCII.
fn write_text(f: &mut fmt::Formatter<'_>, text: &[u8]) -> fmt::Result {
    for byte in text {
        write!(f, "{}", char::from(*byte))?;
    }
    Ok(())
}

impl<A: Allocator> fmt::Display for Blamed<A> {
    fn fmt(&self, f: &mut fmt::Formatter<'_>) -> fmt::Result {
        match self {
            Blamed::Line { number, said } => {
                write!(f, "line {number}")?;
                if said.is_empty() {
                    return Ok(());
                }
                write!(f, ": ")?;
                write_text(f, said.as_slice())
            }
            Blamed::Word { name, address } => {
                if let Some(name) = name {
                    write!(f, "rom ")?;
                    write_text(f, name.as_slice())?;
                    write!(f, " ")?;
                }
                write!(f, "word {address:03X}")
            }
        }
    }
}

impl fmt::Display for Reason {
    fn fmt(&self, f: &mut fmt::Formatter<'_>) -> fmt::Result {
        match self {
            Reason::Fault(fault) => {
                let mut line = Line::new();
                line.become_verdict(Verdict::Refused(*fault));
                write_text(f, line.as_bytes().trim_ascii_end())
            }
            Reason::NamesNoWord => write!(f, "names no word from 400 on"),
            Reason::ManyWords(words) => {
                write!(f, "fetches {words} words, and at most 65536 are drawn")
            }
        }
    }
}

impl<A: Allocator> fmt::Display for Refusal<A> {
    fn fmt(&self, f: &mut fmt::Formatter<'_>) -> fmt::Result {
        write!(f, "{}: {}", self.blamed, self.reason)
    }
}
}
mod said {
//! What a line of a sketch says.
use std::prelude::*;

use dvg_named::tokens_of;
use std::alloc::{AllocError, Allocator};

// Whether `token` gives a name: it ends with a colon.
fn gives_name(token: &[u8]) -> bool {
    token.ends_with(b":")
}

// Returns `tokens` without the first one, if that gives a name.
fn after_name<'a, 'b>(tokens: &'b [&'a [u8]]) -> &'b [&'a [u8]] {
    match tokens {
        [first, rest @ ..] if gives_name(first) => rest,
        _ => tokens,
    }
}

// Appends `tokens` to `text`, with a space between each two. Returns `AllocError` where an
// allocation fails.
fn put_joined<A: Allocator>(text: &mut Vec<u8, A>, tokens: &[&[u8]]) -> Result<(), AllocError> {
    let [first, rest @ ..] = tokens else {
        return Ok(());
    };
    text.extend_from_slice(first)?;
    for token in rest {
        text.extend_from_slice(b" ")?;
        text.extend_from_slice(token)?;
    }
    Ok(())
}

/// Appends what `line` says to `text`: its tokens after the name that it gives, with a space
/// between each two. Returns `AllocError` where an allocation fails.
pub fn put_said<A: Allocator>(text: &mut Vec<u8, A>, line: &[u8]) -> Result<(), AllocError> {
    match tokens_of(line) {
        Some(found) => put_joined(text, after_name(found.as_slice())),
        None => Ok(()),
    }
}

/// Returns what `line` says, as `put_said` appends it. Returns `AllocError` where an allocation
/// fails.
pub fn said<A: Allocator>(alloc: A, line: &[u8]) -> Result<Vec<u8, A>, AllocError> {
    let mut text = Vec::new(alloc);
    put_said(&mut text, line)?;
    Ok(text)
}
}

pub use checking::{check_all, check_low_words, good_frame, tell_long};
pub use refusal::{Blamed, Reason, Refusal, Unlaid};
pub use said::put_said;
