//! Texts in memory that are read: the lines of numbers, drafts, ROMs and traces, which are the
//! input of the program `dvg` (all formats are this project's own choice). What a text means is a
//! relation to a draft and a ROM (`specs/`), in no order of reading.
#![no_std]

extern crate plain_std as std;

mod draft_text {
//! Texts of drafts.
use crate::fault::TextFault;
use crate::op_line::read_op;
use crate::rom_text::RomReading;
use crate::text_lines::{TextLines, is_passed};
use arrayvec::ArrayVec;
use dvg_frame::Draft;
use dvg_mem::LARGE_ROM_BYTES;

/// The most bytes of a text (this project's own choice).
pub const MOST_TEXT_BYTES: usize = 1_048_576;

/// What the text of a draft denotes.
#[derive(Clone, Debug)]
pub struct DraftText {
    /// Its operations.
    pub draft: Draft,
    /// The bytes of the ROM, 2,048 or 4,096: the words that its lines `rom` give, and D000, an
    /// RTSL, for each other.
    pub rom: ArrayVec<u8, LARGE_ROM_BYTES>,
}

/// Reads `text`, the text of a draft, in one pass over its lines and without taking memory. Each
/// text either denotes a draft and a ROM, or has a fault (the format is this project's own choice).
///
/// - `TooLong`: `text` has more than `MOST_TEXT_BYTES`. This is decided before all others.
/// - `Syntax`: this line is the first that spells nothing that may stand at its place.
/// - `Full`: this line spells operation number 511, and the lines before it are without fault.
pub fn read_draft(text: &[u8]) -> Result<DraftText, TextFault> {
    if text.len() > MOST_TEXT_BYTES {
        return Err(TextFault::TooLong);
    }
    let mut draft = Draft::new();
    let mut rom = RomReading::new();
    let mut number = 0;
    let mut lines = TextLines::new(text);
    loop {
        number += 1;
        if let Some(op) = lines.take_op() {
            if draft.push(op).is_err() {
                return Err(TextFault::Full(number));
            }
            continue;
        }
        let Some(line) = lines.next() else {
            break;
        };
        if is_passed(line) {
            continue;
        }
        if draft.is_empty() && rom.take(line) {
            continue;
        }
        let Some(op) = read_op(line) else {
            return Err(TextFault::Syntax(number));
        };
        if draft.push(op).is_err() {
            return Err(TextFault::Full(number));
        }
    }
    Ok(DraftText {
        draft,
        rom: rom.into_bytes(),
    })
}
}
mod event_head {
//! Events at the head of a text, each read in one pass with the end of its line.
use crate::letters::letters_at_head;
use crate::number::{after_byte, digit_of};
use dvg_log::{Event, SpelledEvent};

/// How many bytes the longest line that is read here has, with its end. A shorter text is read
/// otherwise.
pub(crate) const HEAD: usize = 12;

/// An event's name with its line's end.
#[derive(Clone, Copy)]
pub(crate) struct Name {
    /// Its first four letters as a number, the first of them the lowest.
    pub(crate) letters: u32,
    /// What stands after them.
    pub(crate) ending: &'static [u8],
}

/// The name `tick`.
pub(crate) const TICK: Name = Name {
    letters: 0x6B63_6974,
    ending: b"\n",
};

/// The name `fetch`.
pub(crate) const FETCH: Name = Name {
    letters: 0x6374_6566,
    ending: b"h\n",
};

/// The name `strobe`.
pub(crate) const STROBE: Name = Name {
    letters: 0x6F72_7473,
    ending: b"be\n",
};

/// The name `redraw`.
pub(crate) const REDRAW: Name = Name {
    letters: 0x7264_6572,
    ending: b"aw\n",
};

/// The name `resetgen`.
pub(crate) const RESETGEN: Name = Name {
    letters: 0x6573_6572,
    ending: b"tgen\n",
};

/// The name `resetcpu`.
pub(crate) const RESETCPU: Name = Name {
    letters: 0x6573_6572,
    ending: b"tcpu\n",
};

/// The name `resetall`, without its line's end: a space and two digits stand before that.
pub(crate) const RESETALL: Name = Name {
    letters: 0x6573_6572,
    ending: b"tall",
};

/// Returns what stands in `text` after `name`. Returns `None` where it doesn't begin with that, or
/// has fewer than 12 bytes.
#[inline(always)]
pub(crate) fn after_name(text: &[u8], name: Name) -> Option<&[u8]> {
    let (letters, rest) = letters_at_head(text, HEAD)?;
    if letters != name.letters {
        return None;
    }
    after_bytes(rest, name.ending)
}

// Returns what stands in `text` after `bytes`, or `None` where it doesn't begin with them. They are
// compared one by one, as a comparison of two slices is a call.
#[inline(always)]
fn after_bytes<'a>(text: &'a [u8], bytes: &[u8]) -> Option<&'a [u8]> {
    let mut rest = text;
    for byte in bytes {
        rest = after_byte(rest, *byte)?;
    }
    Some(rest)
}

/// Returns the reset of the whole system that the first line of `text` spells, and what stands
/// after that line. `None` says nothing of `text`.
#[inline(always)]
pub(crate) fn reset_at_head(text: &[u8]) -> Option<(SpelledEvent, &[u8])> {
    let [b' ', high, low, b'\n', rest @ ..] = after_name(text, RESETALL)? else {
        return None;
    };
    let (high, low) = (digit_of(*high), digit_of(*low));
    if high > 15 || low > 15 {
        return None;
    }
    Some((Event::ResetAll(16 * high + low), rest))
}
}
mod event_line {
//! Lines that spell events by themselves.
use crate::number::{hex, natural};
use dvg_log::{Event, SpelledEvent};
use memchr::memchr;

/// The most events of one line.
const MAX_TIMES: u16 = 9999;

/// The events of a line: `event`, `count` times in a row.
#[derive(Clone, Copy)]
pub struct EventLine {
    pub(crate) event: SpelledEvent,
    pub(crate) count: u16,
}

/// Returns the events that `line` spells by itself, or `None` exactly where it spells none.
#[inline(always)]
#[must_use]
pub fn read_event_line(line: &[u8]) -> Option<EventLine> {
    if let Some(event) = event_named(line) {
        return Some(EventLine { event, count: 1 });
    }
    let space = memchr(b' ', line)?;
    with_operand(&line[..space], &line[space + 1..])
}

// Returns the events of the event's `name` with `operand` after it.
fn with_operand(name: &[u8], operand: &[u8]) -> Option<EventLine> {
    if name == b"resetall".as_slice() {
        return Some(EventLine {
            event: Event::ResetAll(byte(operand)?),
            count: 1,
        });
    }
    let event = event_named(name)?;
    if !is_counted(&event) {
        return None;
    }
    Some(EventLine {
        event,
        count: times(operand)?,
    })
}

// Returns the event that `name` alone spells.
#[inline(always)]
fn event_named(name: &[u8]) -> Option<SpelledEvent> {
    match name {
        b"tick" => Some(Event::Tick),
        b"fetch" => Some(Event::Fetch),
        b"strobe" => Some(Event::Strobe),
        b"redraw" => Some(Event::Redraw),
        b"resetgen" => Some(Event::ResetGen),
        b"resetcpu" => Some(Event::ResetCpu),
        _ => None,
    }
}

// Whether a count may follow the name of `event`.
fn is_counted(event: &SpelledEvent) -> bool {
    matches!(event, Event::Tick | Event::Strobe | Event::Fetch)
}

// Returns the number that `count` spells, 1 to 9,999.
fn times(count: &[u8]) -> Option<u16> {
    let count = natural(count)?;
    if count == 0 || count > MAX_TIMES {
        return None;
    }
    Some(count)
}

// Returns the byte that two hexadecimal `digits` spell.
fn byte(digits: &[u8]) -> Option<u8> {
    u8::try_from(hex(digits, 2)?).ok()
}
}
mod fault {
//! What can be wrong with a text.
use thiserror::Error;

/// A fault of an input. Its text is what `dvg` prints of it (this project's own choice).
#[derive(Clone, Copy, Debug, PartialEq, Eq, Error, Hash)]
pub enum TextFault {
    /// The input has more bytes, or a log more lines, than are allowed.
    #[error("too long")]
    TooLong,
    /// The input has an odd number of bytes.
    #[error("odd length")]
    Odd,
    /// The word at this place, counted in words from 0, needs a second word, which is missing.
    #[error("cut at {0:03X}")]
    Cut(usize),
    /// A ROM has neither 2,048 nor 4,096 bytes.
    #[error("rom size")]
    RomSize,
    /// A dump of vector memory has this many bytes, fewer than 6,144 and not 4,096.
    #[error("dump size {0}: wanted are 4096 or 6144 bytes")]
    DumpSize(usize),
    /// A dump of vector memory has more than 6,144 bytes.
    #[error("dump size 6145 or more: wanted are 4096 or 6144 bytes")]
    LongDump,
    /// A game has this many bytes, fewer than 8,192.
    #[error("game size {0}: wanted are 8192 bytes, 2048 of the vector ROM and 6144 of the program")]
    GameSize(usize),
    /// A game has more than 8,192 bytes.
    #[error("game size 8193 or more: wanted are 8192 bytes, 2048 of the vector ROM and 6144 of the program")]
    LongGame,
    /// The line of this number, counted from 1, spells nothing that may stand at its place.
    #[error("syntax at line {0}")]
    Syntax(usize),
    /// The line of this number, counted from 1, spells operation number 511 of a draft, which can't
    /// hold it.
    #[error("full at line {0}")]
    Full(usize),
    /// The line of this number, counted from 1, brings the number of a trace's events above 65,536.
    #[error("too many events at line {0}")]
    Many(usize),
    /// The text ends inside an offer.
    #[error("offer without end")]
    Unended,
    /// The line of this number, counted from 1, gives a name that a line before it gave.
    #[error("name given again at line {0}")]
    NameGivenAgain(usize),
    /// The line of this number, counted from 1, begins a section before the ROM or past C00, its
    /// end, or lays an operation past that.
    #[error("out of rom at line {0}")]
    OutOfRom(usize),
    /// The line of this number, counted from 1, lays an operation on a word of another section of
    /// the ROM.
    #[error("overlap at line {0}")]
    Overlap(usize),
    /// The line of this number, counted from 1, needs a name that isn't given where it is looked
    /// for: in its own frame, or in the ROM.
    #[error("unknown name at line {0}")]
    UnknownName(usize),
}

/// Why a text isn't read, by a reader that takes memory.
#[derive(Clone, Copy, Debug, PartialEq, Eq, Error, Hash)]
pub enum Unread {
    /// The text is at fault.
    #[error(transparent)]
    Text(TextFault),
    /// An allocation failed.
    #[error("out of memory")]
    Memory,
}

/// Why a line isn't taken. What takes one line at a time doesn't know its number.
#[derive(Clone, Copy, Debug, PartialEq, Eq, Error, Hash)]
pub enum LineFault {
    /// It spells nothing that may stand at its place.
    #[error("the line spells nothing that may stand at its place")]
    Syntax,
    /// The draft has its 511 operations already.
    #[error("the draft has its 511 operations already")]
    Full,
    /// There would be more events than a trace has.
    #[error("there would be more than 65536 events")]
    Many,
    /// It gives a name that was given before.
    #[error("the line gives a name that was given before")]
    NameGivenAgain,
    /// It begins a section before the ROM or past its end, or lays an operation past that.
    #[error("the line lays nothing at a word of the ROM")]
    OutOfRom,
    /// It lays an operation on a word on which another section lies.
    #[error("the line lays an operation on another section")]
    Overlap,
    /// An allocation failed.
    #[error("out of memory")]
    Memory,
}

impl LineFault {
    /// Returns this fault as that of the line of this `number`, counted from 1.
    pub fn at_line(self, number: usize) -> Unread {
        match self {
            LineFault::Syntax => Unread::Text(TextFault::Syntax(number)),
            LineFault::Full => Unread::Text(TextFault::Full(number)),
            LineFault::Many => Unread::Text(TextFault::Many(number)),
            LineFault::NameGivenAgain => Unread::Text(TextFault::NameGivenAgain(number)),
            LineFault::OutOfRom => Unread::Text(TextFault::OutOfRom(number)),
            LineFault::Overlap => Unread::Text(TextFault::Overlap(number)),
            LineFault::Memory => Unread::Memory,
        }
    }
}
}
mod letters {
//! The first letters of a text, as a number.
/// Returns the first four bytes of `text` as a number, the first of them the lowest, and the bytes
/// after them. Returns `None` where `text` has fewer than `least` bytes. `least`, 4 or more, is how
/// many bytes the caller looks at: so it tests no length again.
#[inline(always)]
pub(crate) fn letters_at_head(text: &[u8], least: usize) -> Option<(u32, &[u8])> {
    if text.len() < least {
        return None;
    }
    let letters = u32::from_le_bytes([text[0], text[1], text[2], text[3]]);
    Some((letters, &text[4..]))
}
}
mod line_parts {
//! The parts of a line of a text.
use arrayvec::ArrayVec;

/// The most parts that a line of a text has: a ROM line of eight words has so many.
pub const MAX_PARTS: usize = 10;

/// Returns the parts of `line`, which is cut at each space. Returns `None` where there are more
/// than ten.
#[must_use]
pub fn parts_of(line: &[u8]) -> Option<ArrayVec<&[u8], MAX_PARTS>> {
    let mut found = ArrayVec::new();
    match found.extend(line.split(|byte| *byte == b' ')) {
        Ok(()) => Some(found),
        Err(_) => None,
    }
}
}
mod number {
//! Numbers in a line of a text.
/// The most decimal digits of a number of 16 bits.
const MAX_DIGITS: usize = 5;

/// The value of each byte as a hexadecimal digit of either case, and 16 for a byte that isn't one.
#[rustfmt::skip]
const HEX_DIGITS: [u8; 256] = [
    16, 16, 16, 16, 16, 16, 16, 16, 16, 16, 16, 16, 16, 16, 16, 16,
    16, 16, 16, 16, 16, 16, 16, 16, 16, 16, 16, 16, 16, 16, 16, 16,
    16, 16, 16, 16, 16, 16, 16, 16, 16, 16, 16, 16, 16, 16, 16, 16,
    0, 1, 2, 3, 4, 5, 6, 7, 8, 9, 16, 16, 16, 16, 16, 16,
    16, 10, 11, 12, 13, 14, 15, 16, 16, 16, 16, 16, 16, 16, 16, 16,
    16, 16, 16, 16, 16, 16, 16, 16, 16, 16, 16, 16, 16, 16, 16, 16,
    16, 10, 11, 12, 13, 14, 15, 16, 16, 16, 16, 16, 16, 16, 16, 16,
    16, 16, 16, 16, 16, 16, 16, 16, 16, 16, 16, 16, 16, 16, 16, 16,
    16, 16, 16, 16, 16, 16, 16, 16, 16, 16, 16, 16, 16, 16, 16, 16,
    16, 16, 16, 16, 16, 16, 16, 16, 16, 16, 16, 16, 16, 16, 16, 16,
    16, 16, 16, 16, 16, 16, 16, 16, 16, 16, 16, 16, 16, 16, 16, 16,
    16, 16, 16, 16, 16, 16, 16, 16, 16, 16, 16, 16, 16, 16, 16, 16,
    16, 16, 16, 16, 16, 16, 16, 16, 16, 16, 16, 16, 16, 16, 16, 16,
    16, 16, 16, 16, 16, 16, 16, 16, 16, 16, 16, 16, 16, 16, 16, 16,
    16, 16, 16, 16, 16, 16, 16, 16, 16, 16, 16, 16, 16, 16, 16, 16,
    16, 16, 16, 16, 16, 16, 16, 16, 16, 16, 16, 16, 16, 16, 16, 16,
];

/// Returns the value of `byte` as a hexadecimal digit of either case, and 16 where it isn't one.
#[inline(always)]
pub fn digit_of(byte: u8) -> u8 {
    HEX_DIGITS[usize::from(byte)]
}

// Returns the number that `digits` spell in `radix`, 2 to 16. Returns `None` where another byte is
// among them.
#[inline(always)]
fn value_of(digits: &[u8], radix: u32) -> Option<u32> {
    let mut number = 0;
    for byte in digits {
        let digit = u32::from(digit_of(*byte));
        if digit >= radix {
            return None;
        }
        number = number * radix + digit;
    }
    Some(number)
}

/// Returns the decimal number below 65,536 that `part` spells, without a sign and without leading
/// zeros.
#[must_use]
pub fn natural(part: &[u8]) -> Option<u16> {
    let first = *part.first()?;
    if part.len() > MAX_DIGITS || (first == b'0' && part.len() > 1) {
        return None;
    }
    u16::try_from(value_of(part, 10)?).ok()
}

/// Returns the decimal number below 256 that `part` spells, without a sign and without leading
/// zeros.
#[must_use]
pub fn small_natural(part: &[u8]) -> Option<u8> {
    u8::try_from(natural(part)?).ok()
}

/// Returns the decimal number from -32,767 to 32,767 that `part` spells, without leading zeros. It
/// has `-` before it exactly where it is negative.
#[must_use]
pub fn integer(part: &[u8]) -> Option<i16> {
    let (first, digits) = part.split_first()?;
    if *first != b'-' {
        return i16::try_from(natural(part)?).ok();
    }
    let size = i16::try_from(natural(digits)?).ok()?;
    if size > 0 { Some(-size) } else { None }
}

/// Returns the number that `part` spells, as `integer` does, if it is from -128 to 127.
#[must_use]
pub fn small_integer(part: &[u8]) -> Option<i8> {
    i8::try_from(integer(part)?).ok()
}

/// Returns the number that `part` spells in exactly `count` hexadecimal digits of either case.
/// `count` is at most 4.
#[inline]
#[must_use]
pub fn hex(part: &[u8], count: usize) -> Option<u16> {
    if part.len() != count {
        return None;
    }
    u16::try_from(value_of(part, 16)?).ok()
}

// Returns the value of the decimal digit `byte`.
#[inline(always)]
fn decimal_digit(byte: u8) -> Option<u8> {
    match byte {
        b'0'..=b'9' => Some(byte - b'0'),
        _ => None,
    }
}

/// Returns the decimal number of one digit that `text` begins with, before the byte `end`, and what
/// comes after that byte.
#[inline(always)]
pub(crate) fn digit_before(text: &[u8], end: u8) -> Option<(u8, &[u8])> {
    if let [first, then, rest @ ..] = text {
        if *then != end {
            return None;
        }
        return Some((decimal_digit(*first)?, rest));
    }
    None
}

/// Like `digit_before`, for a number of `text` from 0 to 15 before `end`.
#[inline(always)]
pub(crate) fn nibble_before(text: &[u8], end: u8) -> Option<(u8, &[u8])> {
    if let Some(ahead) = digit_before(text, end) {
        return Some(ahead);
    }
    let [b'1', rest @ ..] = text else {
        return None;
    };
    let (ones, rest) = digit_before(rest, end)?;
    if ones <= 5 {
        Some((10 + ones, rest))
    } else {
        None
    }
}

/// Like `digit_before`, for a number of `text` up to `most` before `end`, without leading zeros.
/// `most` is at least 9.
#[inline(always)]
pub(crate) fn natural_before(text: &[u8], end: u8, most: u16) -> Option<(u16, &[u8])> {
    let (number, rest) = first_digit(text)?;
    if let Some(after) = after_byte(rest, end) {
        return Some((number as u16, after));
    }
    if number == 0 {
        return None;
    }
    let (number, rest) = one_more(number, rest, most)?;
    if let Some(after) = after_byte(rest, end) {
        return Some((number as u16, after));
    }
    let (number, rest) = one_more(number, rest, most)?;
    if let Some(after) = after_byte(rest, end) {
        return Some((number as u16, after));
    }
    let (number, rest) = one_more(number, rest, most)?;
    if let Some(after) = after_byte(rest, end) {
        return Some((number as u16, after));
    }
    let (number, rest) = one_more(number, rest, most)?;
    Some((number as u16, after_byte(rest, end)?))
}

/// Returns what stands in `text` after `byte`, with which it begins. Returns `None` where it begins
/// otherwise.
#[inline(always)]
pub(crate) fn after_byte(text: &[u8], byte: u8) -> Option<&[u8]> {
    match text {
        [first, rest @ ..] if *first == byte => Some(rest),
        _ => None,
    }
}

// Returns the number that the first digit of `text` spells, and what comes after that digit.
#[inline(always)]
fn first_digit(text: &[u8]) -> Option<(u32, &[u8])> {
    let (byte, rest) = text.split_first()?;
    Some((u32::from(decimal_digit(*byte)?), rest))
}

// Returns `number` with one more digit, with which `text` begins, and what comes after that.
// Returns `None` where it would be greater than `most`, or no digit comes.
#[inline(always)]
fn one_more(number: u32, text: &[u8], most: u16) -> Option<(u32, &[u8])> {
    let (byte, rest) = text.split_first()?;
    let number = number * 10 + u32::from(decimal_digit(*byte)?);
    if number <= u32::from(most) {
        Some((number, rest))
    } else {
        None
    }
}

/// Returns the decimal number that `text` begins with, before a space, and what comes after that.
/// It is from -`most` to `most`, without leading zeros. It has `-` before it exactly where it is
/// negative.
#[inline(always)]
pub(crate) fn integer_before_space(text: &[u8], most: u16) -> Option<(i16, &[u8])> {
    let (first, digits) = text.split_first()?;
    if *first != b'-' {
        let (size, rest) = natural_before(text, b' ', most)?;
        return Some((size as i16, rest));
    }
    let (size, rest) = natural_before(digits, b' ', most)?;
    if size > 0 {
        Some((-(size as i16), rest))
    } else {
        None
    }
}

/// Like `integer_before_space`, for a number of `text` from -3 to 3.
#[inline(always)]
pub(crate) fn tiny_before_space(text: &[u8]) -> Option<(i8, &[u8])> {
    if let [b'-', rest @ ..] = text {
        let (size, rest) = digit_before(rest, b' ')?;
        return if 1 <= size && size <= 3 {
            Some((-(size as i8), rest))
        } else {
            None
        };
    }
    let (size, rest) = digit_before(text, b' ')?;
    if size <= 3 {
        Some((size as i8, rest))
    } else {
        None
    }
}
}
mod op_head {
//! Operations at the head of a text, each read in one pass with the end of its line.
use crate::letters::letters_at_head;
use crate::number::{
    after_byte, digit_before, integer_before_space, natural_before, nibble_before,
    tiny_before_space,
};
use dvg_code::{Code, Instr};
use dvg_frame::{Op, OpKind};

/// How many bytes the longest line that is read here has, with its end. A shorter text is read
/// otherwise.
const HEAD: usize = 24;

/// The letters `svec`, as a number.
const SVEC_LETTERS: u32 = 0x6365_7673;

/// The letters `vctr`, as a number.
const VCTR_LETTERS: u32 = 0x7274_6376;

/// The letters `labs`, as a number.
const LABS_LETTERS: u32 = 0x7362_616C;

/// The letters `call`, as a number.
const CALL_LETTERS: u32 = 0x6C6C_6163;

/// The letters `jump`, as a number.
const JUMP_LETTERS: u32 = 0x706D_756A;

/// The letters `halt`, as a number.
const HALT_LETTERS: u32 = 0x746C_6168;

/// Fast path for the operations that come most often. Returns the one that the first line of `text`
/// spells, and what stands after that line. `None` says nothing of `text`.
#[inline(always)]
pub(crate) fn op_at_head(text: &[u8]) -> Option<(Op, &[u8])> {
    let (letters, rest) = letters_at_head(text, HEAD)?;
    match letters {
        SVEC_LETTERS => svec(after_byte(rest, b' ')?),
        VCTR_LETTERS => vctr(after_byte(rest, b' ')?),
        LABS_LETTERS => labs(after_byte(rest, b' ')?),
        CALL_LETTERS => call(after_byte(rest, b' ')?),
        JUMP_LETTERS => jump(after_byte(rest, b' ')?),
        HALT_LETTERS => halt(rest),
        _ => None,
    }
}

// Reads the rest of the line of an SVEC from `text`, after its name and a space. Returns the
// operation, and what stands after the line.
#[inline(always)]
fn svec(text: &[u8]) -> Option<(Op, &[u8])> {
    let (scale, rest) = digit_before(text, b' ')?;
    if scale < 2 || scale > 5 {
        return None;
    }
    let (dx, rest) = tiny_before_space(rest)?;
    let (dy, rest) = tiny_before_space(rest)?;
    let (z, rest) = nibble_before(rest, b'\n')?;
    let code = Code::within(Instr::Svec { scale, dx, dy, z });
    Some((Op::new(OpKind::Draw(code))?, rest))
}

// Reads the rest of the line of a VCTR from `text`, after its name and a space. Returns the
// operation, and what stands after the line.
#[inline(always)]
fn vctr(text: &[u8]) -> Option<(Op, &[u8])> {
    let (scale, rest) = digit_before(text, b' ')?;
    let (dx, rest) = integer_before_space(rest, 1023)?;
    let (dy, rest) = integer_before_space(rest, 1023)?;
    let (z, rest) = nibble_before(rest, b'\n')?;
    let code = Code::within(Instr::Vctr { scale, dx, dy, z });
    Some((Op::new(OpKind::Draw(code))?, rest))
}

// Reads the rest of the line of a LABS from `text`, after its name and a space. Returns the
// operation, and what stands after the line.
#[inline(always)]
fn labs(text: &[u8]) -> Option<(Op, &[u8])> {
    let (x, rest) = natural_before(text, b' ', 4095)?;
    let (y, rest) = natural_before(rest, b' ', 4095)?;
    let (scale, rest) = nibble_before(rest, b'\n')?;
    let code = Code::within(Instr::Labs { x, y, scale });
    Some((Op::new(OpKind::Draw(code))?, rest))
}

// Reads the rest of the line of a call from `text`, after its name and a space. Returns the
// operation, and what stands after the line.
#[inline(always)]
fn call(text: &[u8]) -> Option<(Op, &[u8])> {
    let (target, rest) = natural_before(text, b'\n', u16::MAX)?;
    Some((Op::new(OpKind::Call(target))?, rest))
}

// Reads the rest of the line of a jump from `text`, after its name and a space. Returns the
// operation, and what stands after the line.
#[inline(always)]
fn jump(text: &[u8]) -> Option<(Op, &[u8])> {
    let (target, rest) = natural_before(text, b'\n', u16::MAX)?;
    Some((Op::new(OpKind::Jump(target))?, rest))
}

// Reads the rest of the line of a halt from `text`, after its name. Returns the operation, and what
// stands after the line.
#[inline(always)]
fn halt(text: &[u8]) -> Option<(Op, &[u8])> {
    match text {
        [b'\n', rest @ ..] => Some((Op::new(OpKind::Halt)?, rest)),
        _ => None,
    }
}
}
mod op_line {
//! Lines of operations.
use crate::line_parts::parts_of;
use crate::number::{hex, integer, natural, small_integer, small_natural};
use dvg_code::{Code, Instr};
use dvg_frame::{Op, OpKind};

/// Returns the operation that `line` spells, or `None` exactly where it spells none.
#[must_use]
pub fn read_op(line: &[u8]) -> Option<Op> {
    let parts = parts_of(line)?;
    read_op_parts(parts.as_slice())
}

/// Returns the operation that `parts`, the parts of a line, spell, or `None` exactly where they
/// spell none.
#[must_use]
pub fn read_op_parts(parts: &[&[u8]]) -> Option<Op> {
    Op::new(kind(parts)?)
}

// Returns the kind of operation that `parts` spell.
fn kind(parts: &[&[u8]]) -> Option<OpKind> {
    match parts {
        [name] => bare(name),
        [name, target] => targeting(name, target),
        [name, x, y, scale] => labs(name, x, y, scale),
        [name, scale, dx, dy, z] => vector(name, scale, dx, dy, z),
        _ => None,
    }
}

// Returns the operation that `name` alone spells.
fn bare(name: &[u8]) -> Option<OpKind> {
    match name {
        b"return" => Some(OpKind::Return),
        b"halt" => Some(OpKind::Halt),
        _ => None,
    }
}

// Returns the operation that `name` and `target` spell.
fn targeting(name: &[u8], target: &[u8]) -> Option<OpKind> {
    match name {
        b"callrom" => Some(OpKind::CallRom(hex(target, 3)?)),
        b"jumprom" => Some(OpKind::JumpRom(hex(target, 3)?)),
        b"call" => Some(OpKind::Call(natural(target)?)),
        b"jump" => Some(OpKind::Jump(natural(target)?)),
        _ => None,
    }
}

// Returns the operation that `name`, the position `x` and `y`, and `scale` spell.
fn labs(name: &[u8], x: &[u8], y: &[u8], scale: &[u8]) -> Option<OpKind> {
    if name != b"labs".as_slice() {
        return None;
    }
    let x = natural(x)?;
    let y = natural(y)?;
    let scale = small_natural(scale)?;
    draw(Instr::Labs { x, y, scale })
}

// Returns the operation that `name` and the numbers of a vector spell: `scale`, `dx`, `dy` and `z`.
fn vector(name: &[u8], scale: &[u8], dx: &[u8], dy: &[u8], z: &[u8]) -> Option<OpKind> {
    match name {
        b"vctr" => vctr(scale, dx, dy, z),
        b"svec" => svec(scale, dx, dy, z),
        _ => None,
    }
}

// Returns the VCTR that the numbers `scale`, `dx`, `dy` and `z` spell.
fn vctr(scale: &[u8], dx: &[u8], dy: &[u8], z: &[u8]) -> Option<OpKind> {
    let scale = small_natural(scale)?;
    let dx = integer(dx)?;
    let dy = integer(dy)?;
    let z = small_natural(z)?;
    draw(Instr::Vctr { scale, dx, dy, z })
}

// Returns the SVEC that the numbers `scale`, `dx`, `dy` and `z` spell.
fn svec(scale: &[u8], dx: &[u8], dy: &[u8], z: &[u8]) -> Option<OpKind> {
    let scale = small_natural(scale)?;
    let dx = small_integer(dx)?;
    let dy = small_integer(dy)?;
    let z = small_natural(z)?;
    draw(Instr::Svec { scale, dx, dy, z })
}

// Returns the operation that draws by `instr`, if that is in range.
fn draw(instr: Instr) -> Option<OpKind> {
    Some(OpKind::Draw(Code::new(instr)?))
}
}
mod rom_line {
//! Lines that give words of a ROM.
use crate::line_parts::parts_of;
use crate::number::hex;
use arrayvec::ArrayVec;
use dvg_mem::ROM_END;

/// The most words that a line gives.
const MAX_WORDS: usize = 8;

/// The words that a line gives, from the word address `address` on. All of them are words of the
/// ROM.
pub struct RomWords {
    address: u16,
    words: ArrayVec<u16, MAX_WORDS>,
}

/// Returns the words that `line` gives, or `None` exactly where it isn't a line of the ROM. `first`
/// is the word address of the ROM's first word.
#[must_use]
pub fn read_rom_line(first: u16, line: &[u8]) -> Option<RomWords> {
    let parts = parts_of(line)?;
    read_rom_parts(first, parts.as_slice())
}

/// Returns the words that a line of the parts `cut` gives, or `None` exactly where it isn't a line
/// of the ROM. `first` is the word address of the ROM's first word.
#[must_use]
pub fn read_rom_parts(first: u16, cut: &[&[u8]]) -> Option<RomWords> {
    let [name, address, spelled @ ..] = cut else {
        return None;
    };
    if *name != b"rom".as_slice() {
        return None;
    }
    let address = hex(address, 3)?;
    let words = hex_words(spelled)?;
    if words.is_empty() || address < first {
        return None;
    }
    if usize::from(address) + words.len() > usize::from(ROM_END) {
        return None;
    }
    Some(RomWords { address, words })
}

// Returns the words that `parts` spell, at most eight.
fn hex_words(parts: &[&[u8]]) -> Option<ArrayVec<u16, MAX_WORDS>> {
    let mut words = ArrayVec::new();
    for part in parts {
        if words.is_full() {
            return None;
        }
        words.push(hex(part, 4)?);
    }
    Some(words)
}

impl RomWords {
    /// Returns the word address after the words.
    pub fn end(&self) -> u16 {
        self.address + self.words.len() as u16
    }

    /// Puts the words into `rom`, the bytes of a ROM. `first` is the word address of the ROM's
    /// first word.
    pub fn put(&self, first: u16, rom: &mut [u8]) {
        let place = usize::from(self.address - first);
        for (k, word) in self.words.as_slice().iter().enumerate() {
            put_word(rom, place + k, *word);
        }
    }
}

/// Puts `word` at the place `k`, counted in words from 0, of `bytes`, the low byte first.
pub fn put_word(bytes: &mut [u8], k: usize, word: u16) {
    bytes[2 * k] = (word % 256) as u8;
    bytes[2 * k + 1] = (word / 256) as u8;
}
}
mod rom_text {
//! The lines of a text that describe a ROM.
use crate::rom_line::read_rom_line;
use arrayvec::ArrayVec;
use dvg_mem::{FIRST_LARGE_ROM_WORD, FIRST_ROM_WORD, LARGE_ROM_BYTES, ROM_END};

/// How many words are given at once that no line gives.
const ROW_WORDS: u16 = 8;

/// So many of them: each is an RTSL, its low byte first (this project's own choice).
const UNGIVEN_ROW: [u8; 16] = [
    0x00, 0xD0, 0x00, 0xD0, 0x00, 0xD0, 0x00, 0xD0, 0x00, 0xD0, 0x00, 0xD0, 0x00, 0xD0, 0x00, 0xD0,
];

/// The ROM that the lines describe which were read so far.
pub struct RomReading {
    // Whether a line described something of the ROM.
    is_stated: bool,
    bytes: ArrayVec<u8, LARGE_ROM_BYTES>,
}

impl RomReading {
    /// Returns the ROM before the first line.
    pub fn new() -> RomReading {
        let mut bytes = ArrayVec::new();
        fill_with_returns(&mut bytes, FIRST_ROM_WORD);
        RomReading {
            is_stated: false,
            bytes,
        }
    }

    /// Reads one more line, `line`. Returns whether it describes something of the ROM, and may
    /// stand here. Where it doesn't, nothing changes.
    #[must_use]
    pub fn take(&mut self, line: &[u8]) -> bool {
        if let Some(first) = read_map_line(line) {
            if self.is_stated {
                return false;
            }
            self.is_stated = true;
            fill_with_returns(&mut self.bytes, first);
            return true;
        }
        let first = self.first();
        let Some(given) = read_rom_line(first, line) else {
            return false;
        };
        given.put(first, self.bytes.as_mut_slice());
        self.is_stated = true;
        true
    }

    // Returns the word address of the ROM's first word. The last one is at BFF.
    fn first(&self) -> u16 {
        ROM_END - (self.bytes.as_slice().len() / 2) as u16
    }

    /// Returns the bytes of the ROM.
    pub fn into_bytes(self) -> ArrayVec<u8, LARGE_ROM_BYTES> {
        self.bytes
    }
}

// Returns the word address of the ROM's first word in the memory map that `line` gives, or `None`
// exactly where it gives none.
fn read_map_line(line: &[u8]) -> Option<u16> {
    if line == b"map 2048".as_slice() {
        Some(FIRST_ROM_WORD)
    } else if line == b"map 4096".as_slice() {
        Some(FIRST_LARGE_ROM_WORD)
    } else {
        None
    }
}

/// Makes `bytes` the bytes of a ROM of which no line gives a word. `first` is the word address of
/// its first word, 400 or 800. They are made where they lie: if a new list were returned, its room
/// would be zeroed for each line that is read.
pub fn fill_with_returns(bytes: &mut ArrayVec<u8, LARGE_ROM_BYTES>, first: u16) {
    bytes.clear();
    for _row in 0..(ROM_END - first) / ROW_WORDS {
        bytes.try_extend_from_slice(&UNGIVEN_ROW).unwrap();
    }
}
}
mod text_lines {
//! The lines of a text.
use crate::event_head::{HEAD, Name, after_name, reset_at_head};
use crate::letters::letters_at_head;
use crate::op_head::op_at_head;
use dvg_frame::{Draft, Op};
use dvg_log::SpelledEvent;
use memchr::memchr;

/// How many bytes are looked at one by one for the end of a line.
const NEAR: usize = 16;

/// An iterator over the lines of a borrowed text, without their ends. Each line ends with LF, which
/// the last one may lack.
pub struct TextLines<'a> {
    rest: &'a [u8],
}

impl<'a> TextLines<'a> {
    /// Returns the lines of `text`.
    pub fn new(text: &'a [u8]) -> TextLines<'a> {
        TextLines { rest: text }
    }

    /// Returns the first four bytes that are left, as a number, if at least 12 are left.
    #[inline(always)]
    pub(crate) fn letters(&self) -> Option<u32> {
        let (letters, _) = letters_at_head(self.rest, HEAD)?;
        Some(letters)
    }

    /// Takes the next lines as long as each is `name`, which has the line's end too. It takes at
    /// most `most`, and returns how many it took.
    #[inline(always)]
    pub(crate) fn take_names(&mut self, name: Name, most: u16) -> u16 {
        let mut rest = self.rest;
        let mut count = 0;
        while let Some(after) = after_name(rest, name) {
            if count == most {
                break;
            }
            rest = after;
            count += 1;
        }
        self.rest = rest;
        count
    }

    /// Takes the next line if it is a reset of the whole system, and returns that. `None` says
    /// nothing of the line, and nothing is taken then.
    #[inline(always)]
    pub(crate) fn take_reset(&mut self) -> Option<SpelledEvent> {
        let Some((event, rest)) = reset_at_head(self.rest) else {
            return None;
        };
        self.rest = rest;
        Some(event)
    }

    /// Fast path for the operations that come most often: takes the next line if it spells one of
    /// them, and returns that. `None` says nothing of the line, and nothing is taken then.
    #[inline(always)]
    pub(crate) fn take_op(&mut self) -> Option<Op> {
        let Some((op, rest)) = op_at_head(self.rest) else {
            return None;
        };
        self.rest = rest;
        Some(op)
    }

    /// Takes the next lines as long as they spell operations that come most often, and adds those
    /// to `draft` as long as it has room. Returns how many lines it took.
    #[inline(always)]
    pub(crate) fn take_ops(&mut self, draft: &mut Draft) -> u16 {
        let mut rest = self.rest;
        let mut count = 0;
        while let Some(head) = op_at_head(rest) {
            if draft.push(head.0).is_err() {
                break;
            }
            rest = head.1;
            count += 1;
        }
        self.rest = rest;
        count
    }
}

impl<'a> Iterator for TextLines<'a> {
    type Item = &'a [u8];

    #[inline(always)]
    fn next(&mut self) -> Option<&'a [u8]> {
        let rest = self.rest;
        if rest.is_empty() {
            return None;
        }
        match line_end(rest) {
            Some(end) => {
                self.rest = &rest[end + 1..];
                Some(&rest[..end])
            }
            None => {
                self.rest = &[];
                Some(rest)
            }
        }
    }
}

// Returns the place of the first line end in `text`. Most lines are short, so the first bytes are
// looked at one by one before the search that looks at many at once.
#[inline(always)]
fn line_end(text: &[u8]) -> Option<usize> {
    let Some(head) = text.first_chunk::<NEAR>() else {
        return memchr(b'\n', text);
    };
    for (place, byte) in head.iter().enumerate() {
        if *byte == b'\n' {
            return Some(place);
        }
    }
    let place = memchr(b'\n', &text[NEAR..])?;
    Some(NEAR + place)
}

/// Whether `line` is passed over: it is empty, or begins with `#`.
pub fn is_passed(line: &[u8]) -> bool {
    line.is_empty() || line[0] == b'#'
}
}
mod trace_events {
//! Events at the head of a trace's text, of which many lines are taken at once.
use crate::event_head::{FETCH, Name, REDRAW, RESETALL, RESETCPU, RESETGEN, STROBE, TICK};
use crate::text_lines::TextLines;
use dvg_code::OutOfMemory;
use dvg_log::{Event, MOST_EVENTS, SpelledEvent, Trace};
use std::alloc::Allocator;

/// Takes the next of `lines` as long as each is the name of an event or a reset of the whole
/// system, and adds their events to `events`. Returns how many lines it took: at most 65,535, and
/// as many as there is room for. The only error is a failed allocation.
#[inline(always)]
pub(crate) fn take_events<A: Allocator + Copy>(
    lines: &mut TextLines,
    events: &mut Trace<A>,
) -> Result<u16, OutOfMemory> {
    let most = u16::try_from(MOST_EVENTS - events.len()).unwrap_or(u16::MAX);
    let mut room = most;
    while room > 0 {
        let count = take_run(room, lines, events)?;
        if count == 0 {
            break;
        }
        room -= count;
    }
    Ok(most - room)
}

// Takes the next of `lines` as long as they are the name of one event, at most `most`, or else one
// reset of the whole system, and adds their events to `events`. Returns how many lines it took.
#[inline(always)]
fn take_run<A: Allocator + Copy>(
    most: u16,
    lines: &mut TextLines,
    events: &mut Trace<A>,
) -> Result<u16, OutOfMemory> {
    let Some(letters) = lines.letters() else {
        return Ok(0);
    };
    if letters == TICK.letters {
        take_names(Event::Tick, TICK, most, lines, events)
    } else if letters == FETCH.letters {
        take_names(Event::Fetch, FETCH, most, lines, events)
    } else if letters == STROBE.letters {
        take_names(Event::Strobe, STROBE, most, lines, events)
    } else if letters == REDRAW.letters {
        take_names(Event::Redraw, REDRAW, most, lines, events)
    } else if letters == RESETALL.letters {
        take_resets(most, lines, events)
    } else {
        Ok(0)
    }
}

// Like `take_run`, where the next of `lines` begins with `rese`.
#[inline(always)]
fn take_resets<A: Allocator + Copy>(
    most: u16,
    lines: &mut TextLines,
    events: &mut Trace<A>,
) -> Result<u16, OutOfMemory> {
    if let Some(event) = lines.take_reset() {
        events.push_times(event, 1)?;
        return Ok(1);
    }
    let count = take_names(Event::ResetGen, RESETGEN, most, lines, events)?;
    if count > 0 {
        return Ok(count);
    }
    take_names(Event::ResetCpu, RESETCPU, most, lines, events)
}

// Like `take_run`, for lines that are `name`, the name of `event`.
#[inline(always)]
fn take_names<A: Allocator + Copy>(
    event: SpelledEvent,
    name: Name,
    most: u16,
    lines: &mut TextLines,
    events: &mut Trace<A>,
) -> Result<u16, OutOfMemory> {
    let count = lines.take_names(name, most);
    if count > 0 {
        events.push_times(event, count)?;
    }
    Ok(count)
}
}
mod trace_text {
//! Texts of traces.
use crate::draft_text::MOST_TEXT_BYTES;
use crate::event_line::{EventLine, read_event_line};
use crate::fault::{LineFault, TextFault, Unread};
use crate::op_line::read_op;
use crate::rom_text::RomReading;
use crate::text_lines::{TextLines, is_passed};
use crate::trace_events::take_events;
use arrayvec::ArrayVec;
use dvg_code::OutOfMemory;
use dvg_frame::{Draft, Op};
use dvg_log::{MOST_EVENTS, Trace};
use dvg_mem::LARGE_ROM_BYTES;
use std::alloc::{Allocator, Global};

/// What the text of a trace denotes.
pub struct TraceText<A: Allocator = Global> {
    /// Its events, in order.
    pub events: Trace<A>,
    /// The bytes of the ROM, 2,048 or 4,096: the words that its ROM lines give, and D000, an RTSL,
    /// for each other.
    pub rom: ArrayVec<u8, LARGE_ROM_BYTES>,
}

/// Reads `text`, the text of a trace, in one pass over its lines. The events are kept in memory
/// from `alloc` (the format is this project's own choice).
///
/// - `TooLong`: `text` has more than `MOST_TEXT_BYTES`. This is decided before all others.
/// - `Syntax`: this line is the first that spells nothing that may stand at its place.
/// - `Full`: this line spells operation number 511 of its offer, and the lines before it are
///   without fault.
/// - `Many`: this line brings the number of events above `MOST_EVENTS`, and the lines before it are
///   without fault. An offer is an event with its `end`.
/// - `Unended`: no line is at fault, and the text ends inside an offer.
/// - `Memory`: an allocation failed, at a line that brings events or ends an offer.
pub fn read_trace<A: Allocator + Copy>(alloc: A, text: &[u8]) -> Result<TraceText<A>, Unread> {
    if text.len() > MOST_TEXT_BYTES {
        return Err(Unread::Text(TextFault::TooLong));
    }
    let reading = read_lines(alloc, text)?;
    if reading.is_open {
        return Err(Unread::Text(TextFault::Unended));
    }
    Ok(TraceText {
        events: reading.events,
        rom: reading.rom.into_bytes(),
    })
}

// Reads all lines of `text`. The last of them may leave an offer open.
#[inline(always)]
fn read_lines<A: Allocator + Copy>(alloc: A, text: &[u8]) -> Result<TraceReading<A>, Unread> {
    let mut reading = TraceReading {
        rom: RomReading::new(),
        events: Trace::new(alloc),
        draft: Draft::new(),
        is_open: false,
    };
    let mut lines = TextLines::new(text);
    let mut number = 0;
    loop {
        let Ok(count) = reading.take_ahead(&mut lines) else {
            return Err(Unread::Memory);
        };
        number += usize::from(count) + 1;
        let Some(line) = lines.next() else {
            return Ok(reading);
        };
        if is_passed(line) {
            continue;
        }
        match reading.take(line) {
            Ok(()) => {}
            Err(fault) => return Err(fault.at_line(number)),
        }
    }
}

// What was read of a trace's text. After a fault it is read no further.
struct TraceReading<A: Allocator> {
    rom: RomReading,
    events: Trace<A>,
    // The draft of the newest offer.
    draft: Draft,
    // Whether that offer isn't ended.
    is_open: bool,
}

impl<A: Allocator + Copy> TraceReading<A> {
    // Reads the next of `lines`: lines of operations where an offer is open, else lines that spell
    // an event each. Returns how many it read, or `OutOfMemory` where an allocation fails.
    #[inline(always)]
    fn take_ahead(&mut self, lines: &mut TextLines) -> Result<u16, OutOfMemory> {
        if self.is_open {
            return Ok(lines.take_ops(&mut self.draft));
        }
        take_events(lines, &mut self.events)
    }

    // Reads one more line, `line`, which isn't passed over.
    fn take(&mut self, line: &[u8]) -> Result<(), LineFault> {
        if !self.is_open {
            return self.take_outside(line);
        }
        if line == b"end".as_slice() {
            return self.end_offer();
        }
        add_op(&mut self.draft, line)
    }

    // Reads one more line, `line`, where no offer is open.
    fn take_outside(&mut self, line: &[u8]) -> Result<(), LineFault> {
        if is_offer(line) {
            self.draft.clear();
            self.is_open = true;
            return Ok(());
        }
        if let Some(repeated) = read_event_line(line) {
            return add_events(repeated, &mut self.events);
        }
        if self.events.is_empty() && self.rom.take(line) {
            return Ok(());
        }
        Err(LineFault::Syntax)
    }

    // Ends the offer that is open.
    fn end_offer(&mut self) -> Result<(), LineFault> {
        if self.events.len() == MOST_EVENTS {
            return Err(LineFault::Many);
        }
        if self.events.push_offer(&self.draft).is_err() {
            return Err(LineFault::Memory);
        }
        self.is_open = false;
        Ok(())
    }
}

// Whether an offer begins with `line`. Each line outside of offers is asked, so its bytes are
// matched one by one: a comparison of slices is a call.
#[inline(always)]
fn is_offer(line: &[u8]) -> bool {
    matches!(line, b"offer")
}

// Adds the operation that `line` spells to `draft`. Returns `Syntax` where it spells none, and
// `Full` where `draft` has 511 already.
fn add_op(draft: &mut Draft, line: &[u8]) -> Result<(), LineFault> {
    let Some(op) = read_op(line) else {
        return Err(LineFault::Syntax);
    };
    push_op(draft, op)
}

// Adds `op` to `draft`. Returns `Full` where that has 511 operations already.
#[inline(always)]
fn push_op(draft: &mut Draft, op: Op) -> Result<(), LineFault> {
    match draft.push(op) {
        Ok(_) => Ok(()),
        Err(_) => Err(LineFault::Full),
    }
}

// Adds the events of a line, `repeated`, to `events`. Returns `Many` where there would be more than
// 65,536, and `Memory` where an allocation fails.
#[inline(always)]
fn add_events<A: Allocator + Copy>(
    repeated: EventLine,
    events: &mut Trace<A>,
) -> Result<(), LineFault> {
    if events.len() + count(&repeated) > MOST_EVENTS {
        return Err(LineFault::Many);
    }
    if events.push_times(repeated.event, repeated.count).is_err() {
        return Err(LineFault::Memory);
    }
    Ok(())
}

// Returns how many events a line has, which `repeated` holds.
fn count(repeated: &EventLine) -> usize {
    usize::from(repeated.count)
}
}

pub use draft_text::{DraftText, MOST_TEXT_BYTES, read_draft};
pub use dvg_log::MOST_EVENTS;
pub use fault::{LineFault, TextFault, Unread};
pub use number::{digit_of, hex};
pub use op_line::read_op_parts;
pub use rom_line::{RomWords, put_word, read_rom_parts};
pub use rom_text::fill_with_returns;
pub use text_lines::{TextLines, is_passed};
pub use trace_text::{TraceText, read_trace};

#[path = "../rust.rs"]
mod rust;
