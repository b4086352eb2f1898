//! What an input of `dvg` is, and what is wrong with it, told for people. The readers of each kind
//! are asked, so nothing is found that a command doesn't find. Of the texts nothing is proved but
//! that they are written whole: they are tested.
//!
//! This is a command, as faults have fixed texts. No definition has its sentences, nor which of the
//! nearest kinds a text is that no reader takes whole: both can be made better without a proof.
#![no_std]

extern crate plain_std as std;

mod alike {
//! The words that may begin a line, and which of them another word is like.
use crate::forms::Form;
use dvg_code::OutOfMemory;
use std::alloc::Allocator;
use std::str::from_utf8;
use strsim::jaro;

/// How alike two words are at least of which one is meant by the other, by Jaro's measure, from 0
/// to 1. This is this project's own choice: `hlt`, `vect` and `ret` are enough like `halt`, `vctr`
/// and `return`.
const ENOUGH: f64 = 0.8;

// Whether no token of `forms` is more like `word` than `alike`. Returns `OutOfMemory` where an
// allocation fails.
fn is_most<A: Allocator + Copy>(
    alloc: A,
    forms: &[Form],
    word: &str,
    alike: f64,
) -> Result<bool, OutOfMemory> {
    for form in forms {
        if jaro(alloc, word, form.token)? > alike {
            return Ok(false);
        }
    }
    Ok(true)
}

/// Returns the token of `forms` that `word`, in small letters, is most like. It is empty where
/// `word` is like none. Returns `OutOfMemory` where an allocation fails.
pub(crate) fn token_like<A: Allocator + Copy>(
    alloc: A,
    forms: &[Form],
    word: &[u8],
) -> Result<&'static str, OutOfMemory> {
    let Ok(word) = from_utf8(word) else {
        return Ok("");
    };
    for form in forms {
        let alike = jaro(alloc, word, form.token)?;
        if alike > ENOUGH && is_most(alloc, forms, word, alike)? {
            return Ok(form.token);
        }
    }
    Ok("")
}
}
mod asking {
//! What the readers of texts answer to an input.
use std::prelude::*;

use crate::frames::{RefusedFrame, SketchAnswer, ask_sketch};
use crate::kind::Kind;
use crate::lines::second_said;
use crate::remarks::Remark;
use dvg_code::OutOfMemory;
use dvg_logs::{LogVerdict, judge_log, read_log_line};
use dvg_read::{TextFault, TextLines, Unread, read_draft, read_trace};
use std::alloc::Allocator;

/// What each reader of texts answers to an input: its fault, if it has one.
pub struct Answers<A: Allocator> {
    /// The fault that the reader of drafts has, if any.
    pub draft: Option<TextFault>,
    /// The fault that the reader of traces has, if any.
    pub trace: Option<TextFault>,
    /// The fault that the reader of sketches has, if any.
    pub sketch: Option<TextFault>,
    /// The first frame that the check refuses, of a sketch that is read whole.
    pub refused: Option<RefusedFrame<A>>,
    /// What is odd about a sketch of which it refuses no frame.
    pub remark: Option<Remark>,
    /// The fault that the reader of logs has, if any, with addresses of the generator in `wrote`.
    pub log: Option<TextFault>,
    /// What `torn` says of such a log, or its fault.
    pub judged: Result<LogVerdict, TextFault>,
    /// The kind of text as which the second line that says something is read alone.
    pub second: Kind,
}

// Returns the fault that the reader of drafts has at `text`, if it has one.
#[inline(never)]
fn draft_fault(text: &[u8]) -> Option<TextFault> {
    match read_draft(text) {
        Ok(_) => None,
        Err(fault) => Some(fault),
    }
}

// Returns the fault that the reader of traces has at `text`, if it has one. Returns `OutOfMemory`
// where an allocation fails.
fn trace_fault<A: Allocator + Copy>(alloc: A, text: &[u8]) -> Result<Option<TextFault>, OutOfMemory> {
    match read_trace(alloc, text) {
        Ok(_) => Ok(None),
        Err(Unread::Text(fault)) => Ok(Some(fault)),
        Err(Unread::Memory) => Err(OutOfMemory),
    }
}

// Returns the fault of the log `text`, if it has one.
fn log_fault(text: &[u8]) -> Option<TextFault> {
    let mut number = 0;
    for line in TextLines::new(text) {
        number += 1;
        match read_log_line(line, None) {
            Some(_) => {}
            None => return Some(TextFault::Syntax(number)),
        }
    }
    None
}

// Whether the reader of sketches takes `line` alone. Returns `OutOfMemory` where an allocation
// fails.
fn is_sketch<A: Allocator + Copy>(alloc: A, line: &[u8]) -> Result<bool, OutOfMemory> {
    let Ok(small) = line.to_ascii_lowercase_in(alloc) else {
        return Err(OutOfMemory);
    };
    let answer = ask_sketch(alloc, small.as_slice())?;
    Ok(answer.fault.is_none())
}

// Returns the kind of text as which `line` is read alone, in small letters. An empty one is none.
fn kind_of_line<A: Allocator + Copy>(alloc: A, line: &[u8]) -> Result<Kind, OutOfMemory> {
    if line.is_empty() {
        return Ok(Kind::Other);
    }
    if draft_fault(line).is_none() {
        return Ok(Kind::Draft);
    }
    if trace_fault(alloc, line)?.is_none() {
        return Ok(Kind::Trace);
    }
    if is_sketch(alloc, line)? {
        return Ok(Kind::Sketch);
    }
    if read_log_line(line, None).is_some() {
        return Ok(Kind::Log);
    }
    Ok(Kind::Other)
}

/// Asks each reader of texts about `text`. `small` is `text` in small letters. Returns
/// `OutOfMemory` where an allocation fails.
pub(crate) fn ask<A: Allocator + Copy>(
    alloc: A,
    text: &[u8],
    small: &[u8],
) -> Result<Answers<A>, OutOfMemory> {
    let SketchAnswer {
        fault,
        refused,
        remark,
    } = ask_sketch(alloc, small)?;
    Ok(Answers {
        draft: draft_fault(text),
        trace: trace_fault(alloc, text)?,
        sketch: fault,
        refused,
        remark,
        log: log_fault(text),
        judged: judge_log(text, None),
        second: kind_of_line(alloc, second_said(small))?,
    })
}
}
mod choosing {
//! For which kind an input is taken.
use crate::asking::Answers;
use crate::forms::kind_begun;
use crate::kind::Kind;
use crate::lines::{first_said, line_at, says_something, word_at};
use crate::raw::{is_text, kind_of_bytes};
use dvg_read::TextFault;
use std::alloc::Allocator;

/// Returns the number of the line at which `fault` stops a reader, if it is one of a line. A name
/// that no line gives is found when all lines are read.
pub(crate) fn line_of(fault: TextFault) -> Option<usize> {
    match fault {
        TextFault::Syntax(number)
        | TextFault::Full(number)
        | TextFault::Many(number)
        | TextFault::NameGivenAgain(number)
        | TextFault::OutOfRom(number)
        | TextFault::Overlap(number) => Some(number),
        _ => None,
    }
}

// Returns the number of the line up to which a reader reads that answers `fault`. It is the
// greatest number where it reads all lines.
fn reach(fault: Option<TextFault>) -> usize {
    match fault {
        Some(fault) => line_of(fault).unwrap_or(usize::MAX),
        None => usize::MAX,
    }
}

// Returns the number of the line up to which a reader reads that reads the farthest.
fn farthest<A: Allocator>(answers: &Answers<A>) -> usize {
    reach(answers.draft)
        .max(reach(answers.trace))
        .max(reach(answers.sketch))
        .max(reach(answers.log))
}

// Returns the first kind whose reader takes the whole input, if one does.
fn whole_kind<A: Allocator>(answers: &Answers<A>) -> Option<Kind> {
    match (answers.draft, answers.trace, answers.sketch, answers.log) {
        (None, _, _, _) => Some(Kind::Draft),
        (_, None, _, _) => Some(Kind::Trace),
        (_, _, None, _) => Some(Kind::Sketch),
        (_, _, _, None) => Some(Kind::Log),
        _ => None,
    }
}

// Whether `kind` is one of texts whose reader reads as far as any.
fn is_nearest<A: Allocator>(answers: &Answers<A>, kind: Kind) -> bool {
    let most = farthest(answers);
    match kind {
        Kind::Draft => reach(answers.draft) == most,
        Kind::Trace => reach(answers.trace) == most,
        Kind::Sketch => reach(answers.sketch) == most,
        Kind::Log => reach(answers.log) == most,
        Kind::Words | Kind::Dump | Kind::Other => false,
    }
}

// Returns `kind` if it is one of texts whose reader reads as far as any, and else none.
fn if_nearest<A: Allocator>(answers: &Answers<A>, kind: Kind) -> Kind {
    if is_nearest(answers, kind) {
        kind
    } else {
        Kind::Other
    }
}

// Returns the first kind of texts whose reader reads as far as any.
fn first_nearest<A: Allocator>(answers: &Answers<A>) -> Kind {
    if is_nearest(answers, Kind::Draft) {
        Kind::Draft
    } else if is_nearest(answers, Kind::Trace) {
        Kind::Trace
    } else if is_nearest(answers, Kind::Sketch) {
        Kind::Sketch
    } else {
        if_nearest(answers, Kind::Log)
    }
}

// Returns the kind for which `small` is taken, a text in small letters that no reader takes whole.
fn nearest<A: Allocator>(small: &[u8], answers: &Answers<A>) -> Kind {
    let most = farthest(answers);
    let begun = kind_begun(word_at(line_at(small, most), 0));
    if is_nearest(answers, begun) {
        return begun;
    }
    if first_said(small) == most {
        return if_nearest(answers, answers.second);
    }
    first_nearest(answers)
}

/// Returns the kind for which `text` is taken, to which the readers of texts answered `answers`.
/// `small` is `text` in small letters.
pub(crate) fn kind_of<A: Allocator>(text: &[u8], small: &[u8], answers: &Answers<A>) -> Kind {
    if !says_something(text) {
        return Kind::Other;
    }
    match whole_kind(answers) {
        Some(kind) => kind,
        None if is_text(text) => nearest(small, answers),
        None => kind_of_bytes(text),
    }
}
}
mod engine {
//! The engine `explain`.
use std::prelude::*;

use crate::asking::{Answers, ask};
use crate::choosing::kind_of;
use crate::kind::{Finding, Kind};
use crate::raw::cut_in;
use crate::telling::{Examined, tell_long};
use dvg_code::OutOfMemory;
use dvg_io::{Engine, StreamFailed, Text, ToolFault, Watched, serve, write_lines, write_whole};
use dvg_logs::{LogFinding, LogVerdict};
use dvg_read::{MOST_TEXT_BYTES, TextFault, Unread};
use std::alloc::Allocator;
use std::io::{Read, Write};

// Returns the place at which the words of `text` are cut, if it is taken for words, which is its
// `kind`, and they are. Returns `OutOfMemory` where an allocation fails.
fn cut_of<A: Allocator>(alloc: A, text: &[u8], kind: Kind) -> Result<Option<usize>, OutOfMemory> {
    match kind {
        Kind::Words => cut_in(alloc, text),
        _ => Ok(None),
    }
}

// Whether nothing is torn in a log, by what `torn` says of it, `judged`.
fn is_untorn(judged: Result<LogVerdict, TextFault>) -> bool {
    match judged {
        Ok(verdict) => verdict.finding == LogFinding::NotTorn,
        Err(_) => false,
    }
}

// Whether the commands take an input of this `kind`, and say yes, where the readers of texts
// answered `answers`. Words may be `cut`.
fn is_good<A: Allocator>(answers: &Answers<A>, kind: Kind, cut: Option<usize>) -> bool {
    match kind {
        Kind::Words => cut.is_none(),
        Kind::Draft => answers.draft.is_none()
            && answers.sketch.is_none()
            && answers.refused.is_none(),
        Kind::Sketch => answers.sketch.is_none() && answers.refused.is_none(),
        Kind::Trace => answers.trace.is_none(),
        Kind::Log => is_untorn(answers.judged),
        Kind::Dump => true,
        Kind::Other => false,
    }
}

// Returns what is told of `examined`. Returns `OutOfMemory` where an allocation fails.
fn told<A: Allocator + Copy>(
    alloc: A,
    examined: &Examined<'_, A>,
) -> Result<Vec<u8, A>, OutOfMemory> {
    let mut out = Text::new(alloc);
    match examined.tell(alloc, &mut out) {
        Ok(()) => Ok(out.into_bytes()),
        Err(_) => Err(OutOfMemory),
    }
}

// Returns what is found of an input that is too long. Returns `OutOfMemory` where an allocation
// fails.
fn find_long<A: Allocator + Copy>(alloc: A) -> Result<Finding<A>, OutOfMemory> {
    let mut out = Text::new(alloc);
    match tell_long(&mut out) {
        Ok(()) => Ok(Finding {
            kind: Kind::Other,
            is_good: false,
            text: out.into_bytes(),
        }),
        Err(_) => Err(OutOfMemory),
    }
}

// Returns what is found of `text`, which isn't too long. Returns `OutOfMemory` where an allocation
// fails.
fn find_short<A: Allocator + Copy>(alloc: A, text: &[u8]) -> Result<Finding<A>, OutOfMemory> {
    let Ok(small) = text.to_ascii_lowercase_in(alloc) else {
        return Err(OutOfMemory);
    };
    let small = small.as_slice();
    let answers = ask(alloc, text, small)?;
    let kind = kind_of(text, small, &answers);
    let cut = cut_of(alloc, text, kind)?;
    let is_good = is_good(&answers, kind, cut);
    let examined = Examined {
        text,
        small,
        answers,
        kind,
        cut,
    };
    Ok(Finding {
        kind,
        is_good,
        text: told(alloc, &examined)?,
    })
}

// Returns what is found of `text`, the input or a front of it that is too long. Returns
// `OutOfMemory` where an allocation fails.
fn find_in<A: Allocator + Copy>(alloc: A, text: &[u8]) -> Result<Finding<A>, OutOfMemory> {
    if text.len() > MOST_TEXT_BYTES {
        return find_long(alloc);
    }
    find_short(alloc, text)
}

// Writes the lines of `text` and then `last`, a line, to `writer`, each by itself.
fn write_told<W: Write>(
    text: &[u8],
    last: &[u8],
    writer: &mut Watched<W>,
) -> Result<(), StreamFailed> {
    write_lines(writer, text)?;
    write_whole(writer, last)
}

// The engine.
struct ExplainEngine;

impl<A: Allocator + Copy> Engine<A> for ExplainEngine {
    type Found = Finding<A>;

    const MOST: u32 = MOST_TEXT_BYTES as u32;

    fn find(&self, alloc: A, read: &[u8]) -> Result<Finding<A>, Unread> {
        match find_in(alloc, read) {
            Ok(finding) => Ok(finding),
            Err(OutOfMemory) => Err(Unread::Memory),
        }
    }

    fn write<W: Write>(
        &self,
        finding: &Finding<A>,
        writer: &mut Watched<W>,
    ) -> Result<(), StreamFailed> {
        write_told(finding.text.as_slice(), finding.last(), writer)
    }
}

/// Reads an input of any kind from `reader`. Writes to `writer` what is wrong with it first, or
/// which commands take it, and in the last line for which kind it is taken (the texts are this
/// project's own choice). Returns what was found.
///
/// - `Reader`, `Writer`: that stream failed. After `Writer` a beginning of the text went out.
/// - `Memory`: an allocation failed.
///
/// Where it stops before it writes, which is at any fault but `Writer`, the writer is as it was. At
/// most 1,048,577 bytes are taken.
#[inline(never)]
pub fn explain<A: Allocator + Copy, R: Read, W: Write>(
    alloc: A,
    reader: &mut Watched<R>,
    writer: &mut Watched<W>,
) -> Result<Finding<A>, ToolFault> {
    serve(&ExplainEngine, alloc, reader, writer)
}
}
mod explained {
//! What is printed of a fault of a sketch beside its name: the text of the line, and what was
//! expected of it.
use crate::forms::{FORMS, operations, write_openings};
use std::fmt;

/// The most bytes of a line that are shown.
const MOST_SHOWN: usize = 60;

/// Where a name is given that was looked for elsewhere.
#[derive(Clone, Copy)]
pub enum Found {
    /// No line gives it.
    Nowhere,
    /// The frame in which it was looked for has no such name, but the ROM has, and this token goes
    /// there.
    InRom(&'static str),
    /// The ROM has no such name, but the frame of the line has, and this token goes there.
    InFrame(&'static str),
    /// Such a frame gives it, in this line.
    In(&'static str, usize),
}

/// What was expected of a line.
#[derive(Clone, Copy)]
pub enum Expected<'a> {
    /// This.
    This(&'static str),
    /// A token that may begin a line.
    Beginning,
    /// An operation after a name.
    Operation,
    /// A name that isn't three hexadecimal digits, as this one is.
    NoAddress(&'a [u8]),
    /// Another name than this one, which that line gives.
    Another(&'a [u8], usize),
    /// A name of this frame or of the ROM, as this one isn't.
    Known(&'static str, &'a [u8], Found),
}

/// The text of a line, as it is shown: without blanks at its ends, and at most 60 bytes of it.
#[derive(Clone, Copy)]
pub struct LineText<'t> {
    /// The bytes of the line.
    pub bytes: &'t [u8],
}

/// What is printed of a fault of a sketch beside its name.
#[derive(Clone, Copy)]
pub struct Explained<'t, 'a> {
    /// The line.
    pub line: LineText<'t>,
    /// What was expected of it.
    pub expected: Expected<'a>,
}

/// A word of a line, as it is shown.
#[derive(Clone, Copy)]
pub(crate) struct Shown<'a> {
    /// The bytes of the word.
    pub bytes: &'a [u8],
}

impl fmt::Display for Shown<'_> {
    fn fmt(&self, f: &mut fmt::Formatter<'_>) -> fmt::Result {
        for byte in self.bytes {
            write_byte(f, *byte)?;
        }
        Ok(())
    }
}

/// Writes `byte`: a tab as a blank, and as `?` each byte that is no printable ASCII.
fn write_byte(f: &mut fmt::Formatter<'_>, byte: u8) -> fmt::Result {
    let shown = match byte {
        b'\t' => b' ',
        b' '..=b'~' => byte,
        _ => b'?',
    };
    write!(f, "{}", char::from(shown))
}

/// Writes where `name` is, which is `found`.
fn write_found(f: &mut fmt::Formatter<'_>, name: &[u8], found: Found) -> fmt::Result {
    let name = Shown { bytes: name };
    match found {
        Found::Nowhere => write!(f, "no line gives {name}"),
        Found::In(frame, at) => write!(f, "{name} is in {frame}, at line {at}"),
        Found::InRom(token) => write!(f, "{name} is in the ROM: {token} {name}"),
        Found::InFrame(token) => write!(f, "{name} is in this frame: {token} {name}"),
    }
}

impl fmt::Display for Expected<'_> {
    fn fmt(&self, f: &mut fmt::Formatter<'_>) -> fmt::Result {
        match self {
            Expected::This(text) => write!(f, "{text}"),
            Expected::Beginning => {
                write!(f, "a line that begins with ")?;
                write_openings(f, FORMS.as_slice())?;
                write!(f, ", NAME: or #")
            }
            Expected::Operation => {
                write!(f, "an operation after the name: ")?;
                write_openings(f, operations())
            }
            Expected::NoAddress(name) => {
                let name = Shown { bytes: name };
                write!(
                    f,
                    "another name than {name}: three hexadecimal digits are an address"
                )
            }
            Expected::Another(name, at) => {
                let name = Shown { bytes: name };
                write!(f, "another name: {name} is given at line {at}")
            }
            Expected::Known(wanted, name, found) => {
                write!(f, "{wanted}: ")?;
                write_found(f, name, *found)
            }
        }
    }
}

/// Returns the number of bytes of `line` up to the last one that is no blank, without a CR at the
/// end.
fn end_of(line: &[u8]) -> usize {
    let mut end = 0;
    for (index, byte) in line.iter().enumerate() {
        let after = index.saturating_add(1);
        let is_cr = *byte == b'\r' && after == line.len();
        if !is_cr && !is_blank(*byte) {
            end = after;
        }
    }
    end
}

/// Whether `byte` is a space or a tab.
fn is_blank(byte: u8) -> bool {
    byte == b' ' || byte == b'\t'
}

/// Writes the text of `line` without blanks at its ends: its first 60 bytes and `..`, if they are
/// more.
fn write_line(f: &mut fmt::Formatter<'_>, line: &[u8]) -> fmt::Result {
    let end = end_of(line);
    let mut count = 0usize;
    for byte in line.iter().take(end) {
        if count == 0 && is_blank(*byte) {
            continue;
        }
        if count == MOST_SHOWN {
            return write!(f, "..");
        }
        write_byte(f, *byte)?;
        count = count.saturating_add(1);
    }
    Ok(())
}

impl fmt::Display for LineText<'_> {
    fn fmt(&self, f: &mut fmt::Formatter<'_>) -> fmt::Result {
        write_line(f, self.bytes)
    }
}
}
mod faults {
//! What the faults of a frame mean, and what to do about them.
use dvg_frame::FrameFault;

/// What is told of a fault.
#[derive(Clone, Copy)]
pub(crate) struct Advice {
    /// What it means.
    pub means: &'static str,
    /// What to do.
    pub cure: &'static str,
}

/// Returns what is told of `fault`, where the frame has the way back that makes a loop, or not
/// (`is_back`).
pub(crate) fn advice_for(fault: FrameFault, is_back: bool) -> Advice {
    match fault {
        FrameFault::Empty => Advice {
            means: "there is no operation",
            cure: "begin with labs X Y S, draw, and end with halt",
        },
        FrameFault::NoLabs => Advice {
            means: "the first operation is no labs, so the picture would depend on where the beam \
                    was",
            cure: "begin with labs X Y S",
        },
        FrameFault::TooLong => Advice {
            means: "the operations take more than 511 words: labs and vctr take two, all others \
                    one",
            cure: "say svec for vctr, call what is drawn twice, or lay shapes in the ROM",
        },
        FrameFault::Target(_) => Advice {
            means: "it names an operation that isn't there",
            cure: "count operations from 0, or give names, as dvg help lay tells",
        },
        FrameFault::RunsOff(_) => Advice {
            means: "it is the last operation, and one must come after it",
            cure: "end with halt, return or a jump",
        },
        FrameFault::OutOfRom(_) => Advice {
            means: "it leads out of the ROM's words, 800 to BFF, or 400 to BFF after map 4096",
            cure: "name a word of the ROM, and end each shape there with return",
        },
        FrameFault::TooDeep(_) => Advice {
            means: "it calls while four calls are open, and the generator keeps no more",
            cure: "call less deep; a shape can't call itself",
        },
        FrameFault::NoCaller(_) => Advice {
            means: "it returns, but nothing has called",
            cure: "put halt between the frame and its shapes, so that it doesn't run into them",
        },
        FrameFault::Loops if is_back => Advice {
            means: "this jump leads back with as many calls open, so the picture may have no end",
            cure: "draw the same twice by two calls, and let the run come to a halt",
        },
        FrameFault::Loops => Advice {
            means: "a jump in the ROM leads back, so the picture may have no end",
            cure: "end each shape of the ROM with return",
        },
    }
}
}
mod forms {
//! The words that may begin a line, and what is expected of its line.
use crate::kind::Kind;
use std::fmt;

/// A token that may begin a line, and what is expected of a line that it begins.
pub struct Form {
    /// The token.
    pub token: &'static str,
    expected: &'static str,
}

/// How many of the forms are those of operations: they come first.
const OPERATIONS: usize = 9;

/// All tokens that may begin a line.
pub static FORMS: [Form; 13] = [
    Form {
        token: "labs",
        expected: "labs X Y S: X and Y 0 to 4095, S 0 to 15",
    },
    Form {
        token: "vctr",
        expected: "vctr S DX DY Z: S 0 to 9, DX and DY -1023 to 1023, Z 0 to 15",
    },
    Form {
        token: "svec",
        expected: "svec S DX DY Z: S 2 to 5, DX and DY -3 to 3, Z 0 to 15",
    },
    Form {
        token: "call",
        expected: "call NAME or call N: N 0 to 65535",
    },
    Form {
        token: "jump",
        expected: "jump NAME or jump N: N 0 to 65535",
    },
    Form {
        token: "callrom",
        expected: "callrom NAME or callrom HHH: HHH three hexadecimal digits",
    },
    Form {
        token: "jumprom",
        expected: "jumprom NAME or jumprom HHH: HHH three hexadecimal digits",
    },
    Form {
        token: "return",
        expected: "return and nothing after it",
    },
    Form {
        token: "halt",
        expected: "halt and nothing after it",
    },
    Form {
        token: ".frame",
        expected: ".frame or .frame NAME",
    },
    Form {
        token: ".rom",
        expected: ".rom or .rom HHH: HHH 800 to C00, or 400 to C00 after map 4096",
    },
    Form {
        token: "map",
        expected: "map 2048 or map 4096, before all other lines",
    },
    Form {
        token: "rom",
        expected: "rom HHH HHHH ..: HHH 800 to BFF, or 400 to BFF after map 4096, \
                   one to eight words up to BFF, before all sections and operations",
    },
];

/// What a name is.
pub const NAME: &str = "a name: a letter and then letters, digits and _, at most 32 in all, \
                    and not three hexadecimal digits";

/// Where the colon of a name stands.
pub const COLON: &str = "NAME: with the colon right after the name, and a blank after the colon";

/// What gives a name, but is the second one in its line.
pub const TWO_NAMES: &str = "one name in a line";

/// A semicolon.
pub const SEMICOLON: &str = "no semicolon: a comment begins with #";

/// A call or a jump in the ROM.
pub const BY_NUMBER: &str = "a name: operations of the ROM have no numbers";

/// Operation 512 of a frame.
pub const FULL: &str = "at most 511 operations in a frame";

/// An operation past the ROM's end.
pub const PAST_END: &str = "no operation past BFF, the last word of the ROM";

/// An operation on a word of another section.
pub const OVERLAP: &str =
    "no word of another section: .rom without an address begins after all others";

/// The words that may begin a line of a trace, but in an offer.
pub static EVENTS: [Form; 9] = [
    Form {
        token: "offer",
        expected: "offer and nothing after it; its operations and end come in lines of their own",
    },
    Form {
        token: "end",
        expected: "end and nothing after it, after an offer and its operations",
    },
    Form {
        token: "redraw",
        expected: "redraw and nothing after it",
    },
    Form {
        token: "tick",
        expected: "tick or tick N: N 1 to 9999",
    },
    Form {
        token: "strobe",
        expected: "strobe or strobe N: N 1 to 9999",
    },
    Form {
        token: "fetch",
        expected: "fetch or fetch N: N 1 to 9999",
    },
    Form {
        token: "resetgen",
        expected: "resetgen and nothing after it",
    },
    Form {
        token: "resetcpu",
        expected: "resetcpu and nothing after it",
    },
    Form {
        token: "resetall",
        expected: "resetall HH: HH two hexadecimal digits",
    },
];

/// The words that may begin a line of a log.
pub static LOG_LINES: [Form; 6] = [
    Form {
        token: "started",
        expected: "started and nothing after it",
    },
    Form {
        token: "low",
        expected: "low HHH HH: a word address of three hexadecimal digits, a byte of two",
    },
    Form {
        token: "fetched",
        expected: "fetched HHH HHHH: a word address of three hexadecimal digits, a word of four",
    },
    Form {
        token: "halted",
        expected: "halted and nothing after it",
    },
    Form {
        token: "reset",
        expected: "reset and nothing after it",
    },
    Form {
        token: "wrote",
        expected: "wrote HHH HH: a byte address 000 to 7FF, a byte of two digits; an address of \
                   the processor has four, and wants dvg torn --base",
    },
];

/// Returns what is expected of a line that `token` begins, by one of `forms`. It is empty where
/// `token` may not begin one.
pub fn form_in(forms: &[Form], token: &[u8]) -> &'static str {
    for form in forms {
        if form.token.as_bytes() == token {
            return form.expected;
        }
    }
    ""
}

/// Returns what is expected of a line of a sketch that `token` begins, or nothing where it may not
/// begin one.
pub fn form_of(token: &[u8]) -> &'static str {
    form_in(FORMS.as_slice(), token)
}

/// Returns the kind of text of which a line begins with `word`, which is in small letters: a draft
/// where it may be several, and none where it is none.
pub fn kind_begun(word: &[u8]) -> Kind {
    if word.starts_with(b".") && !form_of(word).is_empty() || word.ends_with(b":") {
        Kind::Sketch
    } else if !form_of(word).is_empty() || is_listed(word) {
        Kind::Draft
    } else if !form_in(EVENTS.as_slice(), word).is_empty() {
        Kind::Trace
    } else if !form_in(LOG_LINES.as_slice(), word).is_empty() {
        Kind::Log
    } else {
        Kind::Other
    }
}

/// Returns the forms of operations.
pub fn operations() -> &'static [Form] {
    FORMS.split_at(OPERATIONS).0
}

/// Whether `token` is that of an operation.
pub fn is_operation(token: &[u8]) -> bool {
    !form_in(operations(), token).is_empty()
}

/// What `dvg list` calls an instruction, in small letters, and the words of a draft for it.
struct Listed {
    name: &'static str,
    say: &'static str,
}

/// The names of `dvg list` that no draft has.
static LISTED: [Listed; 3] = [
    Listed {
        name: "jsrl",
        say: "dvg list says JSRL: say call, or callrom for a word of the ROM",
    },
    Listed {
        name: "jmpl",
        say: "dvg list says JMPL: say jump, or jumprom for a word of the ROM",
    },
    Listed {
        name: "rtsl",
        say: "dvg list says RTSL: say return",
    },
];

/// Returns what to say in place of `word`, in small letters, a name of `dvg list` that no draft
/// has. It is empty where it isn't one.
pub fn said_for(word: &[u8]) -> &'static str {
    for listed in &LISTED {
        if listed.name.as_bytes() == word {
            return listed.say;
        }
    }
    ""
}

/// Whether `word`, in small letters, is a name of `dvg list` that no draft has.
pub fn is_listed(word: &[u8]) -> bool {
    !said_for(word).is_empty()
}

/// Words that may begin a line, as they are listed.
#[derive(Clone, Copy)]
pub struct Openings {
    /// What stands in the table of these words.
    pub forms: &'static [Form],
}

impl fmt::Display for Openings {
    fn fmt(&self, f: &mut fmt::Formatter<'_>) -> fmt::Result {
        write_openings(f, self.forms)
    }
}

/// Writes the tokens of `forms`, each after a comma but the first.
pub fn write_openings(f: &mut fmt::Formatter<'_>, forms: &[Form]) -> fmt::Result {
    for (number, form) in forms.iter().enumerate() {
        if number > 0 {
            write!(f, ", ")?;
        }
        write!(f, "{}", form.token)?;
    }
    Ok(())
}
}
mod frames {
//! What the check says of the frames of a sketch. A draft is one, too.
use crate::remarks::{Remark, remark_on};
use dvg_blame::{Blamed, Reason, Refusal, Unlaid, check_all};
use dvg_code::OutOfMemory;
use dvg_frame::{Draft, FrameFault, Op, OpKind, check};
use dvg_mem::Rom;
use dvg_named::{NamedFrame, Sketch, read_sketch};
use dvg_read::{TextFault, Unread};
use std::alloc::Allocator;

/// A frame that the check refuses.
pub struct RefusedFrame<A: Allocator> {
    /// What is blamed, and why.
    pub refusal: Refusal<A>,
    /// The line of the jump that leads back, where there is a loop within the frame.
    pub back: Option<usize>,
}

// Whether operation `number` is `op`, a jump that leads back.
fn leads_back(number: usize, op: &Op) -> bool {
    match op.kind() {
        OpKind::Jump(target) => usize::from(target) <= number,
        _ => false,
    }
}

// Returns `ops` with a halt for each jump that leads back and comes after operation `last`.
#[inline(never)]
fn ended_after(ops: &[Op], last: usize) -> Draft {
    let mut draft = Draft::new();
    for (number, op) in ops.iter().enumerate() {
        let is_ended = number > last && leads_back(number, op);
        let kept = if is_ended { Op::default() } else { *op };
        if draft.push(kept).is_err() {
            return draft;
        }
    }
    draft
}

// Whether the check finds a loop in `ops` over `rom`, where each jump that leads back and comes
// after operation `last` is a halt.
#[inline(never)]
fn loops_up_to<A: Allocator>(rom: &Rom<A>, ops: &[Op], last: usize) -> bool {
    let draft = ended_after(ops, last);
    matches!(check(&draft, rom), Err(FrameFault::Loops))
}

// Returns the number of the first of `ops` that leads back, so that there is a loop over `rom`. It
// is the first with which, and with those before it, the check finds one.
fn way_back<A: Allocator>(rom: &Rom<A>, ops: &[Op]) -> Option<usize> {
    for (number, op) in ops.iter().enumerate() {
        if leads_back(number, op) && loops_up_to(rom, ops, number) {
            return Some(number);
        }
    }
    None
}

// Returns the line of the jump that leads back in `frame`, of which the check finds a loop over
// `rom`. There is none where the loop is in the ROM.
fn back_line<A: Allocator>(rom: &Rom<A>, frame: &NamedFrame) -> Option<usize> {
    let number = way_back(rom, frame.ops)?;
    let source = frame.sources.get(number)?;
    Some(source.number)
}

// Whether the first operation of `frame` stands in line `number`.
fn begins_at(frame: &NamedFrame, number: usize) -> bool {
    match frame.sources.first() {
        Some(source) => source.number == number,
        None => false,
    }
}

// Returns the line of the jump that leads back, where `refusal` is of a loop in one of `frames`
// over `rom`. A loop is told of the first operation of its frame.
fn back_of<A: Allocator>(
    rom: &Rom<A>,
    frames: &[NamedFrame],
    refusal: &Refusal<A>,
) -> Option<usize> {
    let (Reason::Fault(FrameFault::Loops), Blamed::Line { number, .. }) = (
        refusal.reason,
        &refusal.blamed,
    ) else {
        return None;
    };
    for frame in frames {
        if begins_at(frame, *number) {
            return back_line(rom, frame);
        }
    }
    None
}

/// What the reader of sketches answers to an input.
pub(crate) struct SketchAnswer<A: Allocator> {
    /// Its fault, if it has one.
    pub fault: Option<TextFault>,
    /// The first frame that the check refuses, if the input is read whole.
    pub refused: Option<RefusedFrame<A>>,
    /// What is odd about its frames, if the check refuses none.
    pub remark: Option<Remark>,
}

// Returns what is answered of `sketch`, which was read: the first frame that the check refuses, if
// it refuses one. Returns `OutOfMemory` where an allocation fails.
fn check_read<A: Allocator + Copy>(
    alloc: A,
    sketch: &Sketch<'_, A>,
) -> Result<SketchAnswer<A>, OutOfMemory> {
    let frames = sketch.frames(alloc)?;
    let Ok(rom) = Rom::new(alloc, sketch.rom.as_slice()) else {
        return Err(OutOfMemory);
    };
    match check_all(alloc, &rom, sketch.names.as_slice(), frames.as_slice()) {
        Ok(()) => Ok(SketchAnswer {
            fault: None,
            refused: None,
            remark: remark_on(alloc, sketch.rom.as_slice(), frames.as_slice())?,
        }),
        Err(Unlaid::Memory) => Err(OutOfMemory),
        Err(Unlaid::Refused(refusal)) => {
            let back = back_of(&rom, frames.as_slice(), &refusal);
            Ok(SketchAnswer {
                fault: None,
                refused: Some(RefusedFrame { refusal, back }),
                remark: None,
            })
        }
    }
}

/// Asks the reader of sketches about `small`, a text in small letters, and the check about its
/// frames. Returns `OutOfMemory` where an allocation fails.
pub(crate) fn ask_sketch<A: Allocator + Copy>(
    alloc: A,
    small: &[u8],
) -> Result<SketchAnswer<A>, OutOfMemory> {
    match read_sketch(alloc, small) {
        Ok(sketch) => check_read(alloc, &sketch),
        Err(Unread::Text(fault)) => Ok(SketchAnswer {
            fault: Some(fault),
            refused: None,
            remark: None,
        }),
        Err(Unread::Memory) => Err(OutOfMemory),
    }
}
}
mod hints {
//! What to do about a line that authors write by mistake.
use crate::forms::{is_operation, said_for};
use crate::lines::word_at;
use dvg_read::hex;

/// A byte order mark, which some editors put before a text.
const MARK: &[u8] = b"\xEF\xBB\xBF";

/// The names of `dvg list` that are operations of a draft, too.
const ALIKE: [&[u8]; 4] = [b"labs", b"vctr", b"svec", b"halt"];

/// What `dvg play --all` says of an event, by its first word.
const ENTRIES: [&[u8]; 19] = [
    b"offered", b"busy", b"refused", b"asked", b"nothing", b"peek", b"wrote", b"read", b"sent",
    b"idle", b"started", b"no", b"low", b"fetched", b"done", b"broke", b"still", b"cleared",
    b"halted",
];

// Whether `word` is one of `words`.
fn is_among(words: &[&[u8]], word: &[u8]) -> bool {
    words.iter().any(|other| *other == word)
}

// Whether `word` has digits alone.
fn is_number(word: &[u8]) -> bool {
    !word.is_empty() && word.iter().all(|byte| byte.is_ascii_digit())
}

// Whether `line`, in small letters, is one that `dvg list` prints.
fn is_of_list(line: &[u8]) -> bool {
    let name = word_at(line, 1);
    hex(word_at(line, 0), 3).is_some()
        && (is_among(ALIKE.as_slice(), name) || !said_for(name).is_empty())
}

// Whether `line`, in small letters, is one that `dvg play --all` prints.
fn is_of_play(line: &[u8]) -> bool {
    is_number(word_at(line, 0)) && is_among(ENTRIES.as_slice(), word_at(line, 1))
}

// Whether `word` is a point X,Y of an outline, perhaps after an `@`.
fn is_point(word: &[u8]) -> bool {
    let point = word.strip_prefix(b"@").unwrap_or(word);
    let is_spelled = point
        .iter()
        .all(|byte| matches!(*byte, b'0'..=b'9' | b'-' | b','));
    is_spelled && point.iter().filter(|byte| **byte == b',').count() == 1 && point.len() > 2
}

// Whether `line` has a point of an outline, alone or after a name.
fn is_outline(line: &[u8]) -> bool {
    let first = word_at(line, 0);
    is_point(first) || first.ends_with(b":") && is_point(word_at(line, 1))
}

// Whether `line` is one word with a point or a slash in it, as the name of a file is.
fn is_file_name(line: &[u8]) -> bool {
    let word = word_at(line, 0);
    word_at(line, 1).is_empty()
        && word.iter().any(|byte| *byte == b'/' || *byte == b'.')
        && !word.ends_with(b".")
}

/// Returns what to do about `line`, in small letters, which isn't read. It is empty where nothing
/// is known of such lines.
pub(crate) fn hint_of(line: &[u8]) -> &'static str {
    let first = word_at(line, 0);
    if line.starts_with(MARK) {
        "a byte order mark comes before the text: save it without one"
    } else if is_of_list(line) {
        "dvg list prints such lines: leave the address out, and say call for JSRL, jump for JMPL, \
         return for RTSL"
    } else if !said_for(first).is_empty() {
        said_for(first)
    } else if first.ends_with(b":") && !said_for(word_at(line, 1)).is_empty() {
        said_for(word_at(line, 1))
    } else if is_outline(line) {
        "points X,Y are an outline: awk -f board/outline.awk FILE makes a sketch of it"
    } else if first == b".word".as_slice() {
        "dvg lay --table writes such lines for an assembler: hand in the sketch itself"
    } else if is_of_play(line) {
        "dvg play --all prints such lines: examples/tools/log.awk makes a log of them"
    } else if is_file_name(line) {
        "this looks like the name of a file, which is read by <: dvg explain <FILE"
    } else {
        ""
    }
}

// Whether blanks stand in `line` where a draft and a trace have none.
fn has_blanks(line: &[u8]) -> bool {
    let is_blank = |byte: &u8| *byte == b' ' || *byte == b'\t';
    line.iter().any(|byte| *byte == b'\t')
        || line.starts_with(b" ")
        || line.ends_with(b" ")
        || line.windows(2).any(|pair| pair.iter().all(is_blank))
}

/// Returns what to do about `line`, which a sketch may have, and a draft and a trace may not. It is
/// empty where nothing is seen.
pub(crate) fn plain_hint(line: &[u8]) -> &'static str {
    if line.ends_with(b"\r") {
        "a CR ends the line, as in texts from Windows: tr -d '\\r' takes all of them away"
    } else if has_blanks(line) {
        "one space parts two words, and none stands at either end"
    } else if line.iter().any(|byte| *byte == b'#') {
        "a comment has a line of its own"
    } else if word_at(line, 0)
        .iter()
        .any(|byte| byte.is_ascii_uppercase())
    {
        "words have small letters"
    } else {
        ""
    }
}

/// Whether `line`, in small letters, begins with an operation.
pub(crate) fn begins_operation(line: &[u8]) -> bool {
    is_operation(word_at(line, 0))
}
}
mod kind {
//! What is found of an input.
use std::prelude::*;

use std::alloc::{Allocator, Global};

/// A kind of input.
#[derive(Clone, Copy, Debug, PartialEq, Eq, Hash)]
pub enum Kind {
    /// Words of vector memory.
    Words,
    /// A draft.
    Draft,
    /// A sketch.
    Sketch,
    /// A trace.
    Trace,
    /// A dump of vector memory.
    Dump,
    /// A log.
    Log,
    /// None of these.
    Other,
}

/// What is found of an input.
#[derive(Debug)]
pub struct Finding<A: Allocator = Global> {
    /// The kind that the input is taken for.
    pub kind: Kind,
    /// Whether the commands of its kind take it, and say yes.
    pub is_good: bool,
    /// What is told of it, but the last line.
    pub text: Vec<u8, A>,
}

impl<A: Allocator> Finding<A> {
    /// Returns the last line that is told.
    pub fn last(&self) -> &'static [u8] {
        match (self.kind, self.is_good) {
            (Kind::Words, true) => b"kind: words, accepted\n",
            (Kind::Words, false) => b"kind: words, something is wrong\n",
            (Kind::Draft, true) => b"kind: draft, accepted\n",
            (Kind::Draft, false) => b"kind: draft, something is wrong\n",
            (Kind::Sketch, true) => b"kind: sketch, accepted\n",
            (Kind::Sketch, false) => b"kind: sketch, something is wrong\n",
            (Kind::Trace, true) => b"kind: trace, accepted\n",
            (Kind::Trace, false) => b"kind: trace, something is wrong\n",
            (Kind::Dump, true) => b"kind: dump, accepted\n",
            (Kind::Dump, false) => b"kind: dump, something is wrong\n",
            (Kind::Log, true) => b"kind: log, accepted\n",
            (Kind::Log, false) => b"kind: log, something is wrong\n",
            (Kind::Other, _) => b"kind: none\n",
        }
    }
}
}
mod lines {
//! The lines of an input, and what stands in them.
use dvg_named::tokens_of;
use dvg_read::TextLines;

/// Returns line `number` of `text`, counted from 1. It is empty where there is none.
pub(crate) fn line_at(text: &[u8], number: usize) -> &[u8] {
    for (index, line) in text.split(|byte| *byte == b'\n').enumerate() {
        if index.saturating_add(1) == number {
            return line;
        }
    }
    &[]
}

/// Returns the lines of `text` before line `number`, with their ends.
pub(crate) fn before_line(text: &[u8], number: usize) -> &[u8] {
    let mut at = 1usize;
    for (index, byte) in text.iter().enumerate() {
        if at == number {
            return text.split_at(index).0;
        }
        if *byte == b'\n' {
            at = at.saturating_add(1);
        }
    }
    text
}

/// Whether no line comes after line `number` of `text`, which has no end.
pub(crate) fn is_unended(text: &[u8], number: usize) -> bool {
    text.split(|byte| *byte == b'\n').count() == number
}

/// Returns the number of the last line of `text` that is `wanted`. It is 0 where none is.
pub(crate) fn last_line(text: &[u8], wanted: &[u8]) -> usize {
    let mut found = 0;
    for (index, line) in text.split(|byte| *byte == b'\n').enumerate() {
        if line == wanted {
            found = index.saturating_add(1);
        }
    }
    found
}

/// Whether `byte` is a space, a tab or a CR.
fn is_blank(byte: u8) -> bool {
    matches!(byte, b' ' | b'\t' | b'\r')
}

/// Returns word `number` of `line`, counted from 0. It is empty where there is none.
pub(crate) fn word_at(line: &[u8], number: usize) -> &[u8] {
    let mut left = number;
    for word in line.split(|byte| is_blank(*byte)) {
        if word.is_empty() {
            continue;
        }
        if left == 0 {
            return word;
        }
        left = left.saturating_sub(1);
    }
    &[]
}

/// Whether `line` says something: it has a token, and isn't a comment alone.
fn is_said(line: &[u8]) -> bool {
    match tokens_of(line) {
        Some(tokens) => !tokens.is_empty(),
        None => true,
    }
}

/// Returns the number of the first line of `text` that says something. It is 0 where there is none.
pub(crate) fn first_said(text: &[u8]) -> usize {
    for (index, line) in text.split(|byte| *byte == b'\n').enumerate() {
        if is_said(line) {
            return index.saturating_add(1);
        }
    }
    0
}

/// Returns the second line of `text` that says something. It is empty where there is none.
pub(crate) fn second_said(text: &[u8]) -> &[u8] {
    let first = first_said(text);
    for (index, line) in text.split(|byte| *byte == b'\n').enumerate() {
        if index >= first && is_said(line) {
            return line;
        }
    }
    &[]
}

/// Whether a line of `text` says something.
pub(crate) fn says_something(text: &[u8]) -> bool {
    for line in TextLines::new(text) {
        if is_said(line) {
            return true;
        }
    }
    false
}
}
mod looks {
//! What an input looks like that no command reads.
/// What an input or a line begins with, and what it looks like then.
struct Look {
    begin: &'static [u8],
    is: &'static str,
}

/// What a program for the 6502 is.
const ASSEMBLER: &str = "6502 assembler: docs/BOARD.md tells how such a program draws frames";

/// Files that are no texts.
static FILES: [Look; 13] = [
    Look {
        begin: b"\x89PNG\r\n\x1A\n",
        is: "a PNG picture",
    },
    Look {
        begin: b"GIF8",
        is: "a GIF picture",
    },
    Look {
        begin: b"\xFF\xD8\xFF",
        is: "a JPEG picture",
    },
    Look {
        begin: b"\x1F\x8B\x08",
        is: "a gzip file: gzip -d unpacks it",
    },
    Look {
        begin: b"\xFD7zXZ\0",
        is: "an xz file: xz -d unpacks it",
    },
    Look {
        begin: b"\x28\xB5\x2F\xFD",
        is: "a zstd file: zstd -d unpacks it",
    },
    Look {
        begin: b"PK\x03\x04",
        is: "a ZIP file: unzip unpacks it",
    },
    Look {
        begin: b"%PDF-",
        is: "a PDF file",
    },
    Look {
        begin: b"\x7FELF",
        is: "a program (ELF)",
    },
    Look {
        begin: b"\0asm",
        is: "a program (WebAssembly)",
    },
    Look {
        begin: b"DVG\x01",
        is: "a saved generator: dvg_restore of dvg.h reads it",
    },
    Look {
        begin: b"DVR\x01",
        is: "a saved generator whose stack wraps: dvg_restore of dvg.h reads it",
    },
    Look {
        begin: b"DVW\x01",
        is: "a saved world: dvg_restore of dvg.h reads it",
    },
];

/// Texts of other kinds, by their first bytes.
static TEXTS: [Look; 6] = [
    Look {
        begin: b"<svg",
        is: "an SVG picture",
    },
    Look {
        begin: b"<",
        is: "XML or HTML",
    },
    Look {
        begin: b"{",
        is: "JSON",
    },
    Look {
        begin: b"[",
        is: "JSON",
    },
    Look {
        begin: b"%pdf-",
        is: "a PDF file",
    },
    Look {
        begin: b"#!",
        is: "a script",
    },
];

/// Texts of other kinds, by how one of their lines begins.
static LINES: [Look; 6] = [
    Look {
        begin: b"#include",
        is: "a source file in C",
    },
    Look {
        begin: b"#define",
        is: "a source file in C",
    },
    Look {
        begin: b"//",
        is: "a source file",
    },
    Look {
        begin: b"/*",
        is: "a source file",
    },
    Look {
        begin: b"import ",
        is: "a source file",
    },
    Look {
        begin: b"use ",
        is: "a source file",
    },
];

/// Texts of other kinds, by how one of their lines begins behind its blanks.
static WORDS: [Look; 8] = [
    Look {
        begin: b".segment",
        is: ASSEMBLER,
    },
    Look {
        begin: b".include",
        is: ASSEMBLER,
    },
    Look {
        begin: b".proc",
        is: ASSEMBLER,
    },
    Look {
        begin: b".byte",
        is: ASSEMBLER,
    },
    Look {
        begin: b"lda ",
        is: ASSEMBLER,
    },
    Look {
        begin: b"ldx ",
        is: ASSEMBLER,
    },
    Look {
        begin: b"sta ",
        is: ASSEMBLER,
    },
    Look {
        begin: b"jsr ",
        is: ASSEMBLER,
    },
];

// Returns what `bytes` look like by the first of `looks` with which they begin. It is empty where
// they begin with none.
fn look_of(looks: &[Look], bytes: &[u8]) -> &'static str {
    for look in looks {
        if bytes.starts_with(look.begin) {
            return look.is;
        }
    }
    ""
}

/// Returns which file `bytes` are, which are no text. It is empty where that isn't known.
pub(crate) fn file_look(bytes: &[u8]) -> &'static str {
    if let [0xFF, 0xFE, _, 0, ..] = bytes {
        return "a text in UTF-16: save it as UTF-8";
    }
    look_of(FILES.as_slice(), bytes)
}

/// Returns what `text`, in small letters, looks like. It is empty where that isn't known.
pub(crate) fn text_look(text: &[u8]) -> &'static str {
    for line in text.split(|byte| *byte == b'\n') {
        match look_of(LINES.as_slice(), line) {
            "" => {}
            found => return found,
        }
        match look_of(WORDS.as_slice(), line.trim_ascii_start()) {
            "" => {}
            found => return found,
        }
    }
    look_of(TEXTS.as_slice(), text)
}
}
mod mistakes {
//! What is said of a line that isn't read, beside what was expected of it.
use crate::alike::token_like;
use crate::forms::{EVENTS, FORMS, Form, LOG_LINES, form_in};
use crate::hints::{hint_of, plain_hint};
use crate::kind::Kind;
use crate::lines::{first_said, line_at, word_at};
use crate::looks::text_look;
use crate::numbers::{SLASHES, WrongNumber, wrong_number};
use dvg_code::OutOfMemory;
use std::alloc::Allocator;
use std::fmt;

/// What is said of a line that isn't read.
#[derive(Clone, Copy)]
pub(crate) enum Mistake<'a> {
    /// What to do.
    Hint(&'static str),
    /// What the whole input looks like.
    Look(&'static str),
    /// What is wrong with its numbers.
    Number(WrongNumber<'a>),
    /// The word that is perhaps meant by its first.
    Alike(&'static str),
}

impl fmt::Display for Mistake<'_> {
    fn fmt(&self, f: &mut fmt::Formatter<'_>) -> fmt::Result {
        match *self {
            Mistake::Hint(hint) => write!(f, "hint: {hint}"),
            Mistake::Look(look) => write!(f, "this looks like {look}"),
            Mistake::Number(wrong) => write!(f, "{wrong}"),
            Mistake::Alike(token) => write!(f, "did you mean {token}?"),
        }
    }
}

// Returns the words that may begin a line of this `kind`: first those that are its own.
fn forms_of(kind: Kind) -> (&'static [Form], &'static [Form]) {
    match kind {
        Kind::Trace => (EVENTS.as_slice(), FORMS.as_slice()),
        Kind::Log => (LOG_LINES.as_slice(), &[]),
        _ => (FORMS.as_slice(), &[]),
    }
}

// Returns the word that is perhaps meant by the first of `line`, or by the one after a name there.
// It is empty where that one may begin a line of this `kind`, or is like none. Returns
// `OutOfMemory` where an allocation fails.
fn meant<A: Allocator + Copy>(
    alloc: A,
    kind: Kind,
    line: &[u8],
) -> Result<&'static str, OutOfMemory> {
    let (own, others) = forms_of(kind);
    let begin = usize::from(word_at(line, 0).ends_with(b":"));
    let word = word_at(line, begin);
    if !form_in(own, word).is_empty() || !form_in(others, word).is_empty() {
        return Ok("");
    }
    match token_like(alloc, own, word)? {
        "" => token_like(alloc, others, word),
        token => Ok(token),
    }
}

// Returns what is said of `line` by what stands in it. `plain` is it as it is in the input, with
// its capitals. Returns `OutOfMemory` where an allocation fails.
fn seen_in<'a, A: Allocator + Copy>(
    alloc: A,
    kind: Kind,
    line: &'a [u8],
    plain: &[u8],
) -> Result<Option<Mistake<'a>>, OutOfMemory> {
    if let Some(wrong) = wrong_number(line) {
        return Ok(Some(Mistake::Number(wrong)));
    }
    match meant(alloc, kind, line)? {
        "" => {}
        token => return Ok(Some(Mistake::Alike(token))),
    }
    match plain_hint(plain) {
        hint if kind == Kind::Trace && !hint.is_empty() => Ok(Some(Mistake::Hint(hint))),
        _ => Ok(None),
    }
}

/// Returns what is said of line `number` of `text`, which isn't read, where `text` is taken for
/// this `kind`. `small` is `text` in small letters. Returns `OutOfMemory` where an allocation
/// fails.
pub(crate) fn mistake_in<'a, A: Allocator + Copy>(
    alloc: A,
    kind: Kind,
    text: &[u8],
    small: &'a [u8],
    number: usize,
) -> Result<Option<Mistake<'a>>, OutOfMemory> {
    let line = line_at(small, number);
    match hint_of(line) {
        "" => {}
        hint => return Ok(Some(Mistake::Hint(hint))),
    }
    if word_at(line, 0).starts_with(b"//") {
        return Ok(Some(Mistake::Hint(SLASHES)));
    }
    match text_look(small) {
        look if !look.is_empty() && number == first_said(small) => Ok(Some(Mistake::Look(look))),
        _ => seen_in(alloc, kind, line, line_at(text, number)),
    }
}
}
mod numbers {
//! Which number of an operation or of an event is wrong, and why.
use crate::explained::Shown;
use crate::lines::word_at;
use std::fmt;
use std::str::from_utf8;

/// What is said of a comment that begins with two slashes.
pub(crate) const SLASHES: &str = "a comment begins with #, not with //";

/// A number that a line has, and its range.
struct Number {
    name: &'static str,
    least: i64,
    most: i64,
}

static LABS: [Number; 3] = [
    Number {
        name: "X",
        least: 0,
        most: 4095,
    },
    Number {
        name: "Y",
        least: 0,
        most: 4095,
    },
    Number {
        name: "S",
        least: 0,
        most: 15,
    },
];

static VCTR: [Number; 4] = [
    Number {
        name: "S",
        least: 0,
        most: 9,
    },
    Number {
        name: "DX",
        least: -1023,
        most: 1023,
    },
    Number {
        name: "DY",
        least: -1023,
        most: 1023,
    },
    Number {
        name: "Z",
        least: 0,
        most: 15,
    },
];

static SVEC: [Number; 4] = [
    Number {
        name: "S",
        least: 2,
        most: 5,
    },
    Number {
        name: "DX",
        least: -3,
        most: 3,
    },
    Number {
        name: "DY",
        least: -3,
        most: 3,
    },
    Number {
        name: "Z",
        least: 0,
        most: 15,
    },
];

/// The number of an event that comes several times. It may be left out.
static TIMES: [Number; 1] = [Number {
    name: "N",
    least: 1,
    most: 9999,
}];

/// The number of an operation that names another. A name may stand there.
static TARGET: [Number; 1] = [Number {
    name: "N",
    least: 0,
    most: 65_535,
}];

/// What is wrong with the numbers of a line.
#[derive(Clone, Copy)]
pub(crate) enum WrongNumber<'a> {
    /// A comma stands in this word.
    Comma(&'a [u8]),
    /// This word isn't decimal.
    Hexadecimal(&'a [u8]),
    /// This word isn't whole.
    Broken(&'a [u8]),
    /// A plus, or zeros, begin this word.
    Padded(&'a [u8]),
    /// The number of this name is less than the least.
    Below(&'static str, &'a [u8], i64),
    /// It is more than the most.
    Above(&'static str, &'a [u8], i64),
    /// It is missing.
    Missing(&'static str),
    /// This word comes after all numbers.
    More(&'a [u8]),
    /// A comment begins with two slashes there.
    Slashes,
}

// Returns the numbers that a line has which begins with `word`. There is none where it may begin no
// line, or has none.
fn numbers_of(word: &[u8]) -> &'static [Number] {
    match word {
        b"labs" => LABS.as_slice(),
        b"vctr" => VCTR.as_slice(),
        b"svec" => SVEC.as_slice(),
        b"call" | b"jump" => TARGET.as_slice(),
        b"tick" | b"strobe" | b"fetch" => TIMES.as_slice(),
        _ => &[],
    }
}

// Whether `word` has `byte` in it.
fn has(word: &[u8], byte: u8) -> bool {
    word.iter().any(|other| *other == byte)
}

// Whether `word` is a number, in the spelling of hexadecimal ones in other languages.
fn is_hexadecimal(word: &[u8]) -> bool {
    word.starts_with(b"$") || word.starts_with(b"0x")
}

// Whether `word` has digits, a point and a sign alone, and begins with no point.
fn is_broken(word: &[u8]) -> bool {
    has(word, b'.')
        && !word.starts_with(b".")
        && word
            .iter()
            .all(|byte| matches!(*byte, b'0'..=b'9' | b'.' | b'-'))
}

// Whether `word` begins with a plus, or with a zero that isn't all of it, perhaps after a minus.
fn is_padded(word: &[u8]) -> bool {
    match word {
        [b'0'] => false,
        [b'+' | b'0', ..] | [b'-', b'0', ..] => true,
        _ => false,
    }
}

// Returns the number that `word` is, if it is one, and not too long.
fn value_of(word: &[u8]) -> Option<i64> {
    match from_utf8(word) {
        Ok(text) => text.parse::<i64>().ok(),
        Err(_) => None,
    }
}

impl Number {
    // Returns what is wrong with `word`, which is to be this number, if that is known.
    fn wrong<'a>(&self, word: &'a [u8]) -> Option<WrongNumber<'a>> {
        if word.is_empty() || word.starts_with(b"#") {
            return Some(WrongNumber::Missing(self.name));
        }
        if has(word, b',') {
            return Some(WrongNumber::Comma(word));
        }
        if is_hexadecimal(word) {
            return Some(WrongNumber::Hexadecimal(word));
        }
        if is_broken(word) {
            return Some(WrongNumber::Broken(word));
        }
        match value_of(word)? {
            _ if is_padded(word) => Some(WrongNumber::Padded(word)),
            value if value < self.least => Some(WrongNumber::Below(self.name, word, self.least)),
            value if value > self.most => Some(WrongNumber::Above(self.name, word, self.most)),
            _ => None,
        }
    }
}

/// Returns what is wrong with the numbers of `line`, in small letters, which isn't read. There is
/// none where that isn't known.
pub(crate) fn wrong_number(line: &[u8]) -> Option<WrongNumber<'_>> {
    let begin = usize::from(word_at(line, 0).ends_with(b":"));
    let numbers = numbers_of(word_at(line, begin));
    let is_alone = word_at(line, begin.saturating_add(1)).is_empty();
    if numbers.is_empty() || is_alone && numbers.len() == TIMES.len() {
        return None;
    }
    let mut at = begin;
    for number in numbers {
        at = at.saturating_add(1);
        if let Some(wrong) = number.wrong(word_at(line, at)) {
            return Some(wrong);
        }
    }
    match word_at(line, at.saturating_add(1)) {
        [] | [b'#', ..] => None,
        [b'/', b'/', ..] => Some(WrongNumber::Slashes),
        word => Some(WrongNumber::More(word)),
    }
}

impl fmt::Display for WrongNumber<'_> {
    fn fmt(&self, f: &mut fmt::Formatter<'_>) -> fmt::Result {
        match *self {
            WrongNumber::Comma(bytes) => {
                write!(f, "{}: blanks part numbers, not commas", Shown { bytes })
            }
            WrongNumber::Hexadecimal(bytes) => {
                write!(f, "{}: numbers are decimal here", Shown { bytes })
            }
            WrongNumber::Broken(bytes) => write!(f, "{}: numbers are whole", Shown { bytes }),
            WrongNumber::Padded(bytes) => {
                let shown = Shown { bytes };
                write!(f, "{shown}: numbers begin with no + and no 0")
            }
            WrongNumber::Below(name, bytes, least) => {
                let shown = Shown { bytes };
                write!(f, "{name} is {shown}, and {least} is the least")
            }
            WrongNumber::Above(name, bytes, most) => {
                let shown = Shown { bytes };
                write!(f, "{name} is {shown}, and {most} is the most")
            }
            WrongNumber::Missing(name) => write!(f, "{name} is missing"),
            WrongNumber::More(bytes) => {
                write!(f, "{}: no number is left for it", Shown { bytes })
            }
            WrongNumber::Slashes => write!(f, "{SLASHES}"),
        }
    }
}
}
mod places {
//! Where lines of a sketch stand, and which lines give a name.
use dvg_named::{Head, Row, read_head, read_row, tokens_of};

/// Where a line of a sketch stands.
#[derive(Clone, Copy)]
pub struct Place {
    /// The line that begins its section. It is 0 before the first section.
    begin: usize,
    /// Whether that is one of the ROM.
    pub is_rom: bool,
}

/// The rows that may give a name.
#[derive(Clone, Copy)]
pub enum Rows {
    /// Those of the ROM.
    OfRom,
    /// Those of the frame that this line begins, or of what stands before the first section.
    OfFrame(usize),
    /// Those of all frames.
    OfFrames,
}

impl Place {
    /// Returns the place before the first line.
    fn top() -> Place {
        Place {
            begin: 0,
            is_rom: false,
        }
    }

    /// Returns the place of the next line, `line`, which has this `number`. `self` is that of the
    /// line before.
    fn next(self, number: usize, line: &[u8]) -> Place {
        match head_of(line) {
            Some(Head::Frame(_)) => Place {
                begin: number,
                is_rom: false,
            },
            Some(Head::Rom(_)) => Place {
                begin: number,
                is_rom: true,
            },
            None => self,
        }
    }

    /// Returns the rows of the same section, or of all sections of the ROM.
    pub fn rows(self) -> Rows {
        if self.is_rom {
            Rows::OfRom
        } else {
            Rows::OfFrame(self.begin)
        }
    }

    /// Whether a line that stands here is among `rows`.
    fn is_among(self, rows: Rows) -> bool {
        match rows {
            Rows::OfRom => self.is_rom,
            Rows::OfFrame(begin) => !self.is_rom && self.begin == begin,
            Rows::OfFrames => !self.is_rom,
        }
    }
}

/// Returns the section that `line` begins.
#[must_use]
pub fn head_of(line: &[u8]) -> Option<Head<'_>> {
    let tokens = tokens_of(line)?;
    read_head(tokens.as_slice())
}

/// Returns the row that `line` spells.
#[must_use]
pub fn row_of(line: &[u8]) -> Option<Row<'_>> {
    let tokens = tokens_of(line)?;
    read_row(tokens.as_slice())
}

/// Whether `line` is a row that gives `name`.
fn gives(line: &[u8], name: &[u8]) -> bool {
    match row_of(line) {
        Some(
            Row {
                name: Some(given),
                ..
            },
        ) => given == name,
        _ => false,
    }
}

/// Whether `line` begins a frame called `name`.
fn begins_frame(line: &[u8], name: &[u8]) -> bool {
    match head_of(line) {
        Some(Head::Frame(Some(given))) => given == name,
        _ => false,
    }
}

/// Returns where line `number` of `text` stands, counted from 1.
pub fn place_of(text: &[u8], number: usize) -> Place {
    let mut place = Place::top();
    for (index, line) in text.split(|byte| *byte == b'\n').enumerate() {
        let at = index.saturating_add(1);
        if at > number {
            return place;
        }
        place = place.next(at, line);
    }
    place
}

/// Returns the number of the first line of `text` that gives `name`, among `rows`.
#[must_use]
pub fn first_given(text: &[u8], name: &[u8], rows: Rows) -> Option<usize> {
    let mut place = Place::top();
    for (index, line) in text.split(|byte| *byte == b'\n').enumerate() {
        let at = index.saturating_add(1);
        place = place.next(at, line);
        if place.is_among(rows) && gives(line, name) {
            return Some(at);
        }
    }
    None
}

/// Returns the number of the first line of `text` that begins a frame called `name`.
#[must_use]
pub fn first_frame(text: &[u8], name: &[u8]) -> Option<usize> {
    for (index, line) in text.split(|byte| *byte == b'\n').enumerate() {
        if begins_frame(line, name) {
            return Some(index.saturating_add(1));
        }
    }
    None
}
}
mod raw {
//! Inputs that are no texts.
use crate::kind::Kind;
use crate::looks::file_look;
use dvg_code::{Listed, Listing, OutOfMemory};
use dvg_dump::{LARGE_DUMP_BYTES, SMALL_DUMP_BYTES};
use dvg_io::collect_words;
use std::alloc::Allocator;
use std::str::from_utf8;

/// The most bytes of words: 4,096 words, as `list` takes them.
pub(crate) const MOST_WORD_BYTES: usize = 8192;

// Whether `byte` isn't one of a text.
fn is_control(byte: u8) -> bool {
    !matches!(byte, b'\t' | b'\n' | b'\r' | b' '..=b'~' | 128..=255)
}

/// Whether `bytes` are a text: UTF-8 without controls but tabs, LFs and CRs.
pub(crate) fn is_text(bytes: &[u8]) -> bool {
    for byte in bytes {
        if is_control(*byte) {
            return false;
        }
    }
    from_utf8(bytes).is_ok()
}

/// Returns the kind for which `bytes` are taken, which are no text.
pub(crate) fn kind_of_bytes(bytes: &[u8]) -> Kind {
    if !file_look(bytes).is_empty() {
        return Kind::Other;
    }
    if bytes.len() == SMALL_DUMP_BYTES || bytes.len() == LARGE_DUMP_BYTES {
        return Kind::Dump;
    }
    if bytes.len() % 2 == 0 && bytes.len() <= MOST_WORD_BYTES {
        return Kind::Words;
    }
    Kind::Other
}

// Returns the place at which `words` are cut, if they are.
fn cut_of(words: &[u16]) -> Option<usize> {
    for item in Listing::new(words) {
        match item {
            Listed::At(..) => {}
            Listed::Cut(place) => return Some(place),
        }
    }
    None
}

/// Returns the place at which the words of `bytes` are cut, if they are. Returns `OutOfMemory`
/// where an allocation fails.
pub(crate) fn cut_in<A: Allocator>(alloc: A, bytes: &[u8]) -> Result<Option<usize>, OutOfMemory> {
    let words = collect_words(alloc, bytes)?;
    Ok(cut_of(words.as_slice()))
}
}
mod remarks {
//! What is odd about frames that the check accepts. This is tested: nothing is proved of it but
//! that it can't panic, and comes to an end.
use std::prelude::*;

use dvg_code::OutOfMemory;
use dvg_driver::Action;
use dvg_frame::{Draft, MAX_OPS, Op, OpKind};
use dvg_gen::Stroke;
use dvg_log::Entry;
use dvg_mem::{Flat, Image, MEMORY_BYTES, Rom};
use dvg_named::NamedFrame;
use dvg_world::World;
use std::alloc::Allocator;
use std::fmt;

/// The first place along an axis that isn't on the screen, in 1/512 of a unit: 1,024 units.
const SCREEN_END: u32 = 1024 * 512;

/// The most ticks and fetches by which a picture is drawn. That is enough for one of 65,536 words,
/// which is the most that `dvg render` draws, and for a frame of 511 words before it.
const MOST_STEPS: usize = 132_100;

/// What is odd about a frame.
#[derive(Clone, Copy)]
pub(crate) enum Oddity {
    /// No run gets to an operation of it.
    Unreached,
    /// It draws no stroke.
    Empty,
    /// It draws strokes, and none of them is on the screen.
    Dark,
}

impl fmt::Display for Oddity {
    fn fmt(&self, f: &mut fmt::Formatter<'_>) -> fmt::Result {
        f.write_str(match self {
            Oddity::Unreached => {
                "no run gets here: the operation before it doesn't go on, and nothing leads here"
            }
            Oddity::Empty =>
                "the frame that begins here draws no stroke: it needs a vector with a Z above 0",
            Oddity::Dark => {
                "the frame that begins here draws nothing on the screen: X and Y 0 to 1023"
            }
        })
    }
}

/// What is odd about the frames of a sketch, and the line where it is seen.
#[derive(Clone, Copy)]
pub(crate) struct Remark {
    /// The number of the line.
    pub number: usize,
    /// What is odd.
    pub oddity: Oddity,
}

// Marks operation `number` of a frame as `reached`, if it has one of this number.
fn mark(reached: &mut [bool; MAX_OPS], number: usize) {
    if let Some(place) = reached.get_mut(number) {
        *place = true;
    }
}

// Whether operation `number` is marked as `reached`.
fn is_marked(reached: &[bool; MAX_OPS], number: usize) -> bool {
    matches!(reached.get(number), Some(true))
}

// Marks as `reached` what comes after operation `number`, which is `op`. After a call come what it
// calls and, when that returns, the next operation.
fn mark_after(reached: &mut [bool; MAX_OPS], number: usize, op: &Op) {
    let next = number.saturating_add(1);
    match op.kind() {
        OpKind::Draw(_) | OpKind::CallRom(_) => mark(reached, next),
        OpKind::Call(target) => {
            mark(reached, usize::from(target));
            mark(reached, next);
        }
        OpKind::Jump(target) => mark(reached, usize::from(target)),
        OpKind::JumpRom(_) | OpKind::Return | OpKind::Halt => {}
    }
}

// Marks as `reached` what comes after the marked ones of `ops`.
fn mark_once(reached: &mut [bool; MAX_OPS], ops: &[Op]) {
    for (number, op) in ops.iter().enumerate() {
        if is_marked(reached, number) {
            mark_after(reached, number, op);
        }
    }
}

// Returns the number of the first of `ops` to which no run gets.
fn first_unreached(ops: &[Op]) -> Option<usize> {
    let mut reached = [false; MAX_OPS];
    mark(&mut reached, 0);
    for _ in ops {
        mark_once(&mut reached, ops);
    }
    for number in 0..ops.len() {
        if !is_marked(&reached, number) {
            return Some(number);
        }
    }
    None
}

// Whether `stroke` may be seen, as far as the box around it tells.
fn may_be_seen(stroke: &Stroke) -> bool {
    stroke.x0.min(stroke.x1) < SCREEN_END && stroke.y0.min(stroke.y1) < SCREEN_END
}

// Returns the line of operation `number` of `frame`. It is 0 where there is none.
fn line_of(frame: &NamedFrame, number: usize) -> usize {
    match frame.sources.get(number) {
        Some(source) => source.number,
        None => 0,
    }
}

// Returns what is odd about `frame`, which draws these `strokes`.
fn remark_on_frame(frame: &NamedFrame, strokes: &[Stroke]) -> Option<Remark> {
    if let Some(number) = first_unreached(frame.ops) {
        return Some(Remark {
            number: line_of(frame, number),
            oddity: Oddity::Unreached,
        });
    }
    let oddity = if strokes.is_empty() {
        Oddity::Empty
    } else if strokes.iter().any(may_be_seen) {
        return None;
    } else {
        Oddity::Dark
    };
    Some(Remark {
        number: line_of(frame, 0),
        oddity,
    })
}

// Returns the picture that `world`, which is at its beginning, draws of `ops`, a frame that the
// check accepts. There is none of a picture that is too long. Returns `OutOfMemory` where an
// allocation fails.
fn picture_of<A: Allocator + Copy>(
    world: &mut World<Flat<A>>,
    ops: &[Op],
) -> Result<Option<Vec<Stroke, A>>, OutOfMemory> {
    let mut draft = Draft::new();
    if draft.try_extend_from_slice(ops).is_err() {
        return Ok(None);
    }
    world.tick();
    world.tick();
    world.offer(&draft);
    for _ in 0..MOST_STEPS {
        if world.act() == Action::Sent {
            world.strobe();
        }
        if let Entry::Done(..) = world.fetch()? {
            return Ok(Some(world.take_picture()));
        }
    }
    Ok(None)
}

/// Returns what is odd about the first of `frames` over the ROM of `bytes` that is odd. The check
/// accepts them. Returns `OutOfMemory` where an allocation fails.
pub(crate) fn remark_on<A: Allocator + Copy>(
    alloc: A,
    bytes: &[u8],
    frames: &[NamedFrame],
) -> Result<Option<Remark>, OutOfMemory> {
    let (Ok(rom), Ok(image)) = (
        Rom::new(alloc, bytes),
        Image::new(alloc, &[0; MEMORY_BYTES]),
    ) else {
        return Err(OutOfMemory);
    };
    let mut world = World::<Flat<A>>::new(alloc, rom, &image)?;
    for frame in frames {
        if world.begin_anew(alloc, bytes, &image).is_err() {
            return Err(OutOfMemory);
        }
        let Some(strokes) = picture_of(&mut world, frame.ops)? else {
            return Ok(None);
        };
        if let Some(remark) = remark_on_frame(frame, strokes.as_slice()) {
            return Ok(Some(remark));
        }
    }
    Ok(None)
}
}
mod sketch_line {
//! What was expected of the line at fault in a sketch. This is tested: nothing is proved of it but
//! that it can't panic, and comes to an end.
use crate::explained::{Expected, Explained, Found, LineText};
use crate::forms::{
    BY_NUMBER, COLON, FULL, NAME, OVERLAP, PAST_END, SEMICOLON, TWO_NAMES, form_of, is_operation,
};
use crate::lines::line_at;
use crate::places::{Place, Rows, first_frame, first_given, head_of, place_of, row_of};
use arrayvec::ArrayVec;
use dvg_named::{Doing, Head, MAX_TOKENS, Row, read_head, tokens_of};
use dvg_read::{TextFault, hex};

/// Returns what is expected of `line`, line `number` of `text`, which gives a name that a line
/// before it gave.
fn another<'a>(text: &[u8], number: usize, line: &'a [u8]) -> Option<Expected<'a>> {
    if let Some(Head::Frame(Some(name))) = head_of(line) {
        return Some(Expected::Another(name, first_frame(text, name)?));
    }
    let Some(
        Row {
            name: Some(name),
            ..
        },
    ) = row_of(line)
    else {
        return None;
    };
    let rows = place_of(text, number).rows();
    Some(Expected::Another(name, first_given(text, name, rows)?))
}

/// Returns where `name` is, which isn't given where it was looked for, but perhaps in another frame
/// of `text`. `frame` is what to call that frame.
fn in_frames(text: &[u8], name: &[u8], frame: &'static str) -> Found {
    match first_given(text, name, Rows::OfFrames) {
        Some(at) => Found::In(frame, at),
        None => Found::Nowhere,
    }
}

/// Returns what is expected of a line of `text` that needs `name` in its frame. `token` is the
/// operation that goes to a name of the ROM.
fn of_frame<'a>(text: &[u8], name: &'a [u8], token: &'static str) -> Expected<'a> {
    let found = match first_given(text, name, Rows::OfRom) {
        Some(_) => Found::InRom(token),
        None => in_frames(text, name, "another frame"),
    };
    Expected::Known("a name of this frame", name, found)
}

/// Returns what is expected of a line of `text` at `place` that needs `name` in the ROM. `token` is
/// the operation that goes to a name of its frame.
fn of_rom<'a>(text: &[u8], place: Place, name: &'a [u8], token: &'static str) -> Expected<'a> {
    let found = match first_given(text, name, place.rows()) {
        Some(_) => Found::InFrame(token),
        None => in_frames(text, name, "a frame"),
    };
    Expected::Known("a name of the ROM", name, found)
}

/// Returns what is expected of `line`, line `number` of `text`, which needs a name that isn't
/// given.
fn known<'a>(text: &[u8], number: usize, line: &'a [u8]) -> Option<Expected<'a>> {
    let place = place_of(text, number);
    let Some(
        Row {
            doing: Some(doing),
            ..
        },
    ) = row_of(line)
    else {
        return None;
    };
    match doing {
        Doing::Plainly(_) => None,
        Doing::Calls(name) if !place.is_rom => Some(of_frame(text, name, "callrom")),
        Doing::Jumps(name) if !place.is_rom => Some(of_frame(text, name, "jumprom")),
        Doing::Calls(name) | Doing::CallsRom(name) => Some(of_rom(text, place, name, "call")),
        Doing::Jumps(name) | Doing::JumpsRom(name) => Some(of_rom(text, place, name, "jump")),
    }
}

/// Returns what is expected of `line`, which begins a section outside the ROM or lays an operation
/// there.
fn in_rom<'a>(line: &[u8]) -> Expected<'a> {
    if head_of(line).is_some() {
        Expected::This(form_of(b".rom"))
    } else {
        Expected::This(PAST_END)
    }
}

/// Whether `token` is a name.
fn is_name(token: &[u8]) -> bool {
    matches!(
        read_head(&[b".frame".as_slice(), token]),
        Some(Head::Frame(Some(_)))
    )
}

/// Whether `token` has the look of a name, which no number has.
fn looks_like_name(token: &[u8]) -> bool {
    match token.first() {
        Some(b'a'..=b'z' | b'_') => true,
        _ => token
            .iter()
            .any(|byte| matches!(*byte, b'g'..=b'w' | b'y' | b'z' | b'_')),
    }
}

/// Returns what is expected in place of `token`, which is no name.
fn name_for(token: &[u8]) -> Expected<'_> {
    match token.first() {
        Some(b'a'..=b'f') if hex(token, 3).is_some() => Expected::NoAddress(token),
        _ => Expected::This(NAME),
    }
}

/// Whether a colon stands in `token`.
fn has_colon(token: &[u8]) -> bool {
    token.iter().any(|byte| *byte == b':')
}

/// Returns the tokens of `line`, or the first ten where there are more.
fn first_tokens(line: &[u8]) -> ArrayVec<&[u8], MAX_TOKENS> {
    if let Some(tokens) = tokens_of(line) {
        return tokens;
    }
    let mut tokens = ArrayVec::new();
    for token in line.split(|byte| *byte == b' ' || *byte == b'\t') {
        if !token.is_empty() && !tokens.is_full() {
            tokens.push(token);
        }
    }
    tokens
}

/// Whether a semicolon stands in `line` before its comment.
fn has_semicolon(line: &[u8]) -> bool {
    for byte in line {
        match *byte {
            b'#' => return false,
            b';' => return true,
            _ => {}
        }
    }
    false
}

/// Returns what is expected of `line`, which spells nothing that may stand at its place. `is_rom`
/// says whether that is in the ROM.
fn spelled(is_rom: bool, line: &[u8]) -> Expected<'_> {
    if has_semicolon(line) {
        return Expected::This(SEMICOLON);
    }
    let tokens = first_tokens(line);
    let [first, rest @ ..] = tokens.as_slice() else {
        return Expected::Beginning;
    };
    match first {
        [name @ .., b':'] if is_name(name) => after_name(is_rom, rest),
        [name @ .., b':'] => name_for(name),
        _ if has_colon(first) || begins_with_colon(rest) => Expected::This(COLON),
        _ => begun(is_rom, first, rest),
    }
}

/// Whether the first of `tokens` begins with a colon.
fn begins_with_colon(tokens: &[&[u8]]) -> bool {
    match tokens {
        [token, ..] => token.starts_with(b":"),
        [] => false,
    }
}

/// Returns what is expected of `tokens` after a name. `is_rom` says whether they stand in the ROM.
fn after_name<'a>(is_rom: bool, tokens: &[&'a [u8]]) -> Expected<'a> {
    match tokens {
        [first, ..] if first.ends_with(b":") => Expected::This(TWO_NAMES),
        [first, rest @ ..] if is_operation(first) => begun(is_rom, first, rest),
        _ => Expected::Operation,
    }
}

/// Returns what is expected of a line that begins with the token `first`, with the tokens `rest`
/// after it. `is_rom` says whether it stands in the ROM.
fn begun<'a>(is_rom: bool, first: &[u8], rest: &[&'a [u8]]) -> Expected<'a> {
    match (first, rest) {
        (b".frame", [name]) => return name_for(name),
        (b"call" | b"jump" | b"callrom" | b"jumprom", [name]) if looks_like_name(name) => {
            return name_for(name);
        }
        (b"call" | b"jump", _) if is_rom => return Expected::This(BY_NUMBER),
        _ => {}
    }
    match form_of(first) {
        "" => Expected::Beginning,
        form => Expected::This(form),
    }
}

/// Returns what is expected of line `number` of `text`, at which `fault` is.
fn expected_of(fault: TextFault, text: &[u8], number: usize) -> Option<Expected<'_>> {
    let line = line_at(text, number);
    match fault {
        TextFault::NameGivenAgain(_) => another(text, number, line),
        TextFault::UnknownName(_) => known(text, number, line),
        TextFault::OutOfRom(_) => Some(in_rom(line)),
        TextFault::Overlap(_) => Some(Expected::This(OVERLAP)),
        TextFault::Full(_) => Some(Expected::This(FULL)),
        _ => Some(spelled(place_of(text, number).is_rom, line)),
    }
}

/// Returns the text of the line at which `fault` is, in the sketch `text`, and what was expected of
/// it. `small` is `text` in small letters. Returns `None` for a fault that has no line.
#[must_use]
pub fn explain_line<'t, 'a>(
    fault: TextFault,
    text: &'t [u8],
    small: &'a [u8],
) -> Option<Explained<'t, 'a>> {
    let number = match fault {
        TextFault::Syntax(number)
        | TextFault::NameGivenAgain(number)
        | TextFault::Full(number)
        | TextFault::OutOfRom(number)
        | TextFault::Overlap(number)
        | TextFault::UnknownName(number) => number,
        _ => return None,
    };
    match expected_of(fault, small, number) {
        Some(expected) => Some(Explained {
            line: LineText {
                bytes: line_at(text, number),
            },
            expected,
        }),
        None => None,
    }
}
}
mod telling {
//! What is told of an input.
use std::prelude::*;

use crate::asking::Answers;
use crate::choosing::line_of;
use crate::explained::{Expected, Explained, LineText};
use crate::faults::advice_for;
use crate::forms::{EVENTS, FULL, Openings, form_in, form_of, operations};
use crate::frames::RefusedFrame;
use crate::hints::{begins_operation, hint_of, plain_hint};
use crate::kind::Kind;
use crate::lines::{before_line, first_said, is_unended, last_line, line_at, word_at};
use crate::looks::{file_look, text_look};
use crate::mistakes::{Mistake, mistake_in};
use crate::raw::{MOST_WORD_BYTES, is_text};
use crate::remarks::Remark;
use crate::sketch_line::explain_line;
use crate::unread_log::{Logged, UNENDED, logged_for};
use dvg_blame::{Blamed, Reason};
use dvg_dump::{LARGE_DUMP_BYTES, SMALL_DUMP_BYTES};
use dvg_io::Text;
use dvg_logs::{LogFinding, LogVerdict};
use dvg_mem::{LARGE_ROM_BYTES, MEMORY_BYTES};
use dvg_print::Line;
use dvg_read::{MOST_TEXT_BYTES, TextFault, Unread, read_trace};
use std::alloc::Allocator;
use std::fmt::{self, Write};

/// An input, and what was found of it.
pub(crate) struct Examined<'a, A: Allocator> {
    /// The input.
    pub text: &'a [u8],
    /// The same in small letters.
    pub small: &'a [u8],
    /// What the readers of texts answer.
    pub answers: Answers<A>,
    /// The kind for which it is taken.
    pub kind: Kind,
    /// The place at which words are cut.
    pub cut: Option<usize>,
}

// Tells `line`, which is line `number`.
fn tell_line<A: Allocator>(out: &mut Text<A>, number: usize, line: &[u8]) -> fmt::Result {
    let shown = LineText { bytes: line };
    write!(out, "line {number}: {shown}\n")
}

// Tells what is expected, `expected`.
fn tell_expected<A: Allocator, D: fmt::Display + Drop>(
    out: &mut Text<A>,
    expected: D,
) -> fmt::Result {
    write!(out, "expected {expected}\n")
}

// Tells `hint`, unless it is empty.
fn tell_hint<A: Allocator>(out: &mut Text<A>, hint: &str) -> fmt::Result {
    if hint.is_empty() {
        return Ok(());
    }
    write!(out, "hint: {hint}\n")
}

// Tells whether the words of `bytes` are a ROM, too, and which sizes a ROM and a dump have.
fn tell_sizes<A: Allocator>(out: &mut Text<A>, bytes: &[u8]) -> fmt::Result {
    let count = bytes.len();
    if count == MEMORY_BYTES {
        return write!(out, "dvg rom takes it as a ROM\n");
    }
    if count == MOST_WORD_BYTES {
        return write!(
            out,
            "dvg game takes it as a game, a vector ROM of {MEMORY_BYTES} bytes and a program\n"
        );
    }
    write!(
        out,
        "it is no ROM and no dump: dvg rom takes {MEMORY_BYTES} or {LARGE_ROM_BYTES} bytes, dvg \
         picture {SMALL_DUMP_BYTES} or {LARGE_DUMP_BYTES}, and it has {count}\n"
    )
}

// Tells that the words of `bytes` are cut at `place`.
fn tell_cut<A: Allocator>(out: &mut Text<A>, bytes: &[u8], place: usize) -> fmt::Result {
    write!(out, "the last word begins an instruction of two words\n")?;
    tell_sizes(out, bytes)?;
    let fault = TextFault::Cut(place);
    write!(out, "{fault}\n")
}

// Tells which commands take the dump `bytes`.
fn tell_dump<A: Allocator>(out: &mut Text<A>, bytes: &[u8]) -> fmt::Result {
    write!(out, "dvg picture takes it\n")?;
    if bytes.len() == LARGE_ROM_BYTES {
        write!(out, "dvg rom takes it as a ROM, and dvg list as words\n")?;
    }
    Ok(())
}

impl<A: Allocator + Copy> Examined<'_, A> {
    // Returns the fault that the reader of its kind has, if that is one of texts and has one.
    fn fault(&self) -> Option<TextFault> {
        match self.kind {
            Kind::Draft => self.answers.draft,
            Kind::Trace => self.answers.trace,
            Kind::Sketch => self.answers.sketch,
            Kind::Log => self.answers.log,
            Kind::Words | Kind::Dump | Kind::Other => None,
        }
    }

    // Returns the first frame that the check refuses, of a draft or a sketch.
    fn refused(&self) -> Option<&RefusedFrame<A>> {
        match self.kind {
            Kind::Draft | Kind::Sketch => self.answers.refused.as_ref(),
            _ => None,
        }
    }

    // Returns line `number`, and the same in small letters.
    fn line(&self, number: usize) -> (&[u8], &[u8]) {
        (line_at(self.text, number), line_at(self.small, number))
    }

    // Tells what was expected of line `number` of a draft or a sketch. A list of all words that may
    // begin it is left out if its mistake `is_told`.
    fn expect_row(&self, out: &mut Text<A>, number: usize, is_told: bool) -> fmt::Result {
        let fault = self.answers.sketch.unwrap_or(TextFault::Syntax(number));
        match explain_line(fault, self.text, self.small) {
            Some(
                Explained {
                    expected: Expected::Beginning,
                    ..
                },
            ) if is_told => Ok(()),
            Some(Explained { expected, .. }) => tell_expected(out, expected),
            None => Ok(()),
        }
    }

    // Whether line `number` of a trace stands in an offer. Fails where memory is refused.
    fn is_in_offer(&self, alloc: A, number: usize) -> Result<bool, fmt::Error> {
        match read_trace(alloc, before_line(self.text, number)) {
            Err(Unread::Text(TextFault::Unended)) => Ok(true),
            Err(Unread::Memory) => Err(fmt::Error),
            _ => Ok(false),
        }
    }

    // Tells what was expected of line `number` of a trace. A list is left out if `is_told`.
    fn expect_event(
        &self,
        alloc: A,
        out: &mut Text<A>,
        number: usize,
        is_told: bool,
    ) -> fmt::Result {
        let word = word_at(self.line(number).1, 0);
        if self.is_in_offer(alloc, number)? {
            return expect_operation(out, word, is_told);
        }
        match form_in(EVENTS.as_slice(), word) {
            "" => {}
            form => return tell_expected(out, form),
        }
        let forms = EVENTS.as_slice();
        match form_of(word) {
            "" if is_told => Ok(()),
            "" => write!(
                out,
                "expected a line that begins with {}, map, rom or #\n",
                Openings { forms }
            ),
            _ if begins_operation(word) => {
                tell_expected(
                    out,
                    "an operation only after a line offer, and before its end",
                )
            }
            form => tell_expected(out, form),
        }
    }

    // Tells what was expected of line `number` of a log. A list is left out if `is_told`.
    fn expect_logged(&self, out: &mut Text<A>, number: usize, is_told: bool) -> fmt::Result {
        match logged_for(word_at(self.line(number).1, 0)) {
            Logged::Beginning if is_told => Ok(()),
            expected => tell_expected(out, expected),
        }
    }

    // Tells what was expected of line `number`, at which `fault` is. A list of all words that may
    // begin it is left out if its mistake `is_told`.
    fn expect(
        &self,
        alloc: A,
        out: &mut Text<A>,
        fault: TextFault,
        number: usize,
        is_told: bool,
    ) -> fmt::Result {
        match (fault, self.kind) {
            (TextFault::Many(_), _) => {
                tell_expected(out, "at most 65536 events: tick N counts as N of them")
            }
            (TextFault::Full(_), Kind::Trace) => tell_expected(out, FULL),
            (_, Kind::Trace) => self.expect_event(alloc, out, number, is_told),
            (_, Kind::Log) => self.expect_logged(out, number, is_told),
            _ => self.expect_row(out, number, is_told),
        }
    }

    // Tells what is wrong with line `number`, where that is seen in it, and returns that. `fault`
    // is there. Fails where memory is refused.
    fn tell_mistake(
        &self,
        alloc: A,
        out: &mut Text<A>,
        fault: TextFault,
        number: usize,
    ) -> Result<Option<Mistake<'_>>, fmt::Error> {
        let TextFault::Syntax(_) = fault else {
            return Ok(None);
        };
        let Ok(found) = mistake_in(alloc, self.kind, self.text, self.small, number) else {
            return Err(fmt::Error);
        };
        if let Some(mistake) = found {
            write!(out, "{mistake}\n")?;
        }
        Ok(found)
    }

    // Tells of `fault`, which is at line `number`. Of a line that looks like none of its kind it
    // isn't told what was expected.
    fn tell_at(&self, alloc: A, out: &mut Text<A>, fault: TextFault, number: usize) -> fmt::Result {
        tell_line(out, number, self.line(number).0)?;
        match self.tell_mistake(alloc, out, fault, number)? {
            Some(Mistake::Look(_)) => {}
            found => self.expect(alloc, out, fault, number, found.is_some())?,
        }
        if is_unended(self.text, number) {
            write!(out, "{UNENDED}\n")?;
        }
        Ok(())
    }

    // Tells of `fault`, which the text has for its kind.
    fn tell_fault(&self, alloc: A, out: &mut Text<A>, fault: TextFault) -> fmt::Result {
        match shown_line(fault) {
            Some(number) => self.tell_at(alloc, out, fault, number)?,
            None if fault == TextFault::Unended => {
                let number = last_line(self.text, b"offer");
                tell_line(out, number, self.line(number).0)?;
                write!(out, "expected end after the operations of this offer\n")?;
            }
            None => {}
        }
        write!(out, "{fault}\n")
    }

    // Returns what `torn` says of a log, if it doesn't say that it isn't torn.
    fn torn(&self) -> Option<LogVerdict> {
        match (self.kind, self.answers.judged) {
            (Kind::Log, Ok(verdict)) if verdict.finding != LogFinding::NotTorn => Some(verdict),
            _ => None,
        }
    }

    // Tells of a log of which `torn` says `verdict`.
    fn tell_torn(&self, out: &mut Text<A>, verdict: LogVerdict) -> fmt::Result {
        match verdict.finding {
            LogFinding::NotTorn => {}
            LogFinding::Torn { line, .. } => {
                tell_line(out, line, self.line(line).0)?;
                write!(
                    out,
                    "it writes in the half that is being drawn, so the picture is torn\n"
                )?;
            }
            LogFinding::NoRunDrew if verdict.counts.runs == 0 => {
                write!(out, "no line says started, as each begins a run\n")?;
                write!(out, "do: log started where a strobe begins a run\n")?;
            }
            LogFinding::NoRunDrew => {
                write!(out, "no run fetches the jump to a half, at word 000\n")?;
                write!(out, "do: log each word that is fetched after started\n")?;
            }
        }
        tell_verdict(out, verdict)
    }

    // Tells at which line of the sketch `dvg check` stops, and why.
    fn tell_plain(&self, out: &mut Text<A>) -> fmt::Result {
        let Some(number) = self.answers.draft.and_then(line_of) else {
            return Ok(());
        };
        let (line, _) = self.line(number);
        let shown = LineText { bytes: line };
        write!(out, "dvg check stops at line {number}: {shown}\n")?;
        tell_hint(out, plain_hint(line))?;
        write!(
            out,
            "dvg lay --draft writes it as dvg check and dvg play take it\n"
        )
    }

    // Tells what is odd about the frames of a draft or of a sketch, if something is.
    fn tell_remark(&self, out: &mut Text<A>) -> fmt::Result {
        match (self.kind, self.answers.remark) {
            (Kind::Draft | Kind::Sketch, Some(Remark { number, oddity })) => {
                tell_line(out, number, self.line(number).0)?;
                write!(out, "{oddity}\n")
            }
            _ => Ok(()),
        }
    }

    // Tells which commands take the input, which they accept.
    fn tell_commands(&self, out: &mut Text<A>) -> fmt::Result {
        match self.kind {
            Kind::Words => {
                write!(out, "dvg list takes it\n")?;
                tell_sizes(out, self.text)
            }
            Kind::Dump => tell_dump(out, self.text),
            Kind::Draft => write!(out, "dvg check, dvg lay and dvg render take it\n"),
            Kind::Sketch => {
                write!(out, "dvg lay and dvg render take it\n")?;
                self.tell_plain(out)
            }
            Kind::Trace => write!(
                out,
                "dvg play takes it; where there is no picture, dvg play --all shows why\n"
            ),
            Kind::Log => {
                if let Ok(verdict) = self.answers.judged {
                    tell_verdict(out, verdict)?;
                }
                write!(
                    out,
                    "dvg torn says so; dvg torn --moments also asks if each run reads one frame\n"
                )
            }
            Kind::Other => Ok(()),
        }
    }

    // Tells what the input looks like, of which no command reads a line.
    fn tell_other(&self, out: &mut Text<A>) -> fmt::Result {
        if !is_text(self.text) {
            return tell_bytes(out, self.text);
        }
        let number = first_said(self.text);
        if number == 0 {
            return write!(out, "it is empty, or has empty lines and comments alone\n");
        }
        let (line, small) = self.line(number);
        tell_line(out, number, line)?;
        match (hint_of(small), text_look(self.small)) {
            ("", "") => write!(
                out,
                "no line of an input begins so: dvg help shows which there are\n"
            ),
            ("", look) => write!(out, "this looks like {look}\n"),
            (hint, _) => tell_hint(out, hint),
        }
    }

    /// Tells all but the last line. Whatever is asked for comes from `alloc`.
    pub(crate) fn tell(&self, alloc: A, out: &mut Text<A>) -> fmt::Result {
        if self.kind == Kind::Other {
            return self.tell_other(out);
        }
        if let Some(verdict) = self.torn() {
            return self.tell_torn(out, verdict);
        }
        if let Some(fault) = self.fault() {
            return self.tell_fault(alloc, out, fault);
        }
        if let Some(refused) = self.refused() {
            return tell_refused(out, refused, self.text);
        }
        if let Some(place) = self.cut {
            return tell_cut(out, self.text, place);
        }
        self.tell_remark(out)?;
        self.tell_commands(out)
    }
}

// Tells what `torn` writes of `verdict`.
fn tell_verdict<A: Allocator>(out: &mut Text<A>, verdict: LogVerdict) -> fmt::Result {
    let mut line = Line::new();
    line.become_log_verdict(verdict);
    out.add(line.as_bytes())
}

// Returns the number of the line that is shown of `fault`, if it has one.
fn shown_line(fault: TextFault) -> Option<usize> {
    match fault {
        TextFault::UnknownName(number) => Some(number),
        _ => line_of(fault),
    }
}

/// Tells of an input that is too long.
pub(crate) fn tell_long<A: Allocator>(out: &mut Text<A>) -> fmt::Result {
    write!(
        out,
        "it has more than {MOST_TEXT_BYTES} bytes: dvg torn alone reads longer inputs, logs\n"
    )
}

// Tells what `bytes` look like, which are neither text nor words nor a dump.
fn tell_bytes<A: Allocator>(out: &mut Text<A>, bytes: &[u8]) -> fmt::Result {
    let count = bytes.len();
    match file_look(bytes) {
        "" => write!(
            out,
            "it is no text, and has {count} bytes: dvg list takes an even number up to \
             {MOST_WORD_BYTES}, dvg rom {MEMORY_BYTES} or {LARGE_ROM_BYTES}, dvg picture \
             {SMALL_DUMP_BYTES} or {LARGE_DUMP_BYTES}\n"
        ),
        look => write!(out, "this looks like {look}\n"),
    }
}

// Tells what was expected of a line in an offer, which begins with `word`. A list is left out if
// `is_told`.
fn expect_operation<A: Allocator>(out: &mut Text<A>, word: &[u8], is_told: bool) -> fmt::Result {
    match form_in(operations(), word) {
        "" if is_told => Ok(()),
        "" => write!(
            out,
            "expected an operation or end: a line that begins with {}, end or #\n",
            Openings {
                forms: operations()
            }
        ),
        form => tell_expected(out, form),
    }
}

// Tells what `refusal` blames in `text`.
fn tell_blamed<A: Allocator>(
    out: &mut Text<A>,
    refused: &RefusedFrame<A>,
    text: &[u8],
) -> fmt::Result {
    if let Some(number) = refused.back {
        return tell_line(out, number, line_at(text, number));
    }
    match &refused.refusal.blamed {
        Blamed::Line { number, .. } => tell_line(out, *number, line_at(text, *number)),
        blamed => write!(out, "at {blamed}\n"),
    }
}

// Tells of `refused`, a frame of `text`.
fn tell_refused<A: Allocator>(
    out: &mut Text<A>,
    refused: &RefusedFrame<A>,
    text: &[u8],
) -> fmt::Result {
    tell_blamed(out, refused, text)?;
    let reason = &refused.refusal.reason;
    if let Reason::Fault(fault) = reason {
        let advice = advice_for(*fault, refused.back.is_some());
        write!(out, "{}\n", advice.means)?;
        write!(out, "do: {}\n", advice.cure)?;
    }
    write!(out, "{reason}\n")
}
}
mod unread_log {
//! What is printed of a log beside the name of its fault: the line that isn't read, and what to do
//! about it.
use crate::explained::LineText;
use crate::forms::{LOG_LINES, Openings, form_in};
use crate::hints::hint_of;
use crate::lines::word_at;
use crate::looks::file_look;
use arrayvec::ArrayVec;
use dvg_logs::{MOST_LINE_BYTES, read_log_line};
use std::fmt;

/// What is said of a last line that has no end.
pub const UNENDED: &str = "it is the last line, and has no line end: is the input cut?";

/// What is expected of a write, in a log that has addresses of the processor.
const BASED: &str = "wrote HHHH HH: an address of the processor of four digits, in the 2,048 bytes \
                     from --base on; a byte of two digits";

/// What was expected of a line of a log.
#[derive(Clone, Copy)]
pub(crate) enum Logged {
    /// This.
    This(&'static str),
    /// A word that may begin a line.
    Beginning,
}

/// Returns what was expected of a line that begins with `word`, in small letters.
pub(crate) fn logged_for(word: &[u8]) -> Logged {
    match form_in(LOG_LINES.as_slice(), word) {
        "" => Logged::Beginning,
        form => Logged::This(form),
    }
}

impl fmt::Display for Logged {
    fn fmt(&self, f: &mut fmt::Formatter<'_>) -> fmt::Result {
        match self {
            Logged::This(text) => write!(f, "{text}"),
            Logged::Beginning => {
                let forms = LOG_LINES.as_slice();
                write!(f, "a line that begins with {} or #", Openings { forms })
            }
        }
    }
}

/// What to do about a line that isn't read.
#[derive(Clone, Copy)]
enum Advice {
    /// The input is another kind of file, which looks like this.
    File(&'static str),
    /// The line is too long.
    Long,
    /// A hint, printed as it is.
    Hint(&'static str),
    /// To write what was expected.
    Expected(Logged),
}

/// The line of a log that isn't read, and what to do about it.
#[derive(Clone, Copy)]
pub struct UnreadLog<'t> {
    line: &'t [u8],
    // Whether the bytes of the log end with the line, without a line end.
    is_unended: bool,
    advice: Advice,
}

// Returns what to do about a line that isn't read: `small`, in small letters. It is one of a log
// with addresses of the processor, or not (`is_based`).
fn advice_of(small: &[u8], is_based: bool) -> Advice {
    match (hint_of(small), word_at(small, 0)) {
        ("", b"wrote") if is_based => Advice::Expected(Logged::This(BASED)),
        ("", word) => Advice::Expected(logged_for(word)),
        (hint, _) => Advice::Hint(hint),
    }
}

// Returns what to do about `line`, which isn't read. `is_based` says the same.
fn advice_for(line: &[u8], is_based: bool) -> Advice {
    let mut small = ArrayVec::<u8, MOST_LINE_BYTES>::new();
    for byte in line {
        if small.try_push(byte.to_ascii_lowercase()).is_err() {
            return Advice::Long;
        }
    }
    advice_of(small.as_slice(), is_based)
}

impl<'t> UnreadLog<'t> {
    /// Returns the first line of `bytes` that isn't read, the line `number` of a log, of which
    /// `bytes` are a part that begins with a line. With a `base`, lines `wrote` have addresses of
    /// the processor. Returns `None` if each line is read.
    #[must_use]
    pub fn of(bytes: &'t [u8], number: usize, base: Option<u16>) -> Option<UnreadLog<'t>> {
        let is_unread = |line: &&[u8]| read_log_line(line, base).is_none();
        let mut lines = bytes.split(|byte| *byte == b'\n');
        let line = lines.find(is_unread)?;
        let advice = match file_look(bytes) {
            look if number == 1 && !look.is_empty() => Advice::File(look),
            _ => advice_for(line, base.is_some()),
        };
        Some(UnreadLog {
            line,
            is_unended: lines.next().is_none(),
            advice,
        })
    }

    /// Returns the text of the line.
    pub fn line(&self) -> LineText<'t> {
        LineText { bytes: self.line }
    }

    /// Whether the bytes of the log end with the line, which has no line end. It is a line of a
    /// log, not of a file of another kind.
    pub fn is_unended(&self) -> bool {
        match self.advice {
            Advice::File(_) => false,
            _ => self.is_unended,
        }
    }
}

impl fmt::Display for UnreadLog<'_> {
    fn fmt(&self, f: &mut fmt::Formatter<'_>) -> fmt::Result {
        match self.advice {
            Advice::File(look) => write!(f, "this looks like {look}"),
            Advice::Long => write!(f, "a line of a log has at most {MOST_LINE_BYTES} bytes"),
            Advice::Hint(hint) => write!(f, "{hint}"),
            Advice::Expected(expected) => write!(f, "expected {expected}"),
        }
    }
}
}

pub use engine::explain;
pub use explained::{Explained, LineText};
pub use kind::{Finding, Kind};
pub use sketch_line::explain_line;
pub use unread_log::{UNENDED, UnreadLog};
