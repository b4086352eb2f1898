//! What is said of a log's text, by halves and by moments, in plain Rust, for the plain twin.

use crate::explain::shown;
use crate::moments::{Line, Moments, Standing};
use crate::run::Run;
use std::io::{self, Read, Write};

/// The most bytes of a line, without its end.
const MOST_LINE_BYTES: usize = 64;

/// The most bytes that one read takes.
const PIECE: usize = 32_768;

/// How many bytes the RAM has, which begins at byte address 0.
const RAM_BYTES: u16 = 0x800;

/// What a log shows up to a line.
#[derive(Default)]
pub struct Seen {
    pub runs: u64,
    /// Runs that drew a half.
    pub drew: u64,
    pub halted: u64,
    pub writes: u64,
}

/// A write that tears a picture.
pub struct Torn {
    pub line: usize,
    pub address: u16,
    pub byte: u8,
}

/// What is said of a log.
pub struct Verdict {
    pub torn: Option<Torn>,
    pub seen: Seen,
}

/// Why nothing is said of it.
pub enum LogFault {
    /// A line says nothing that a line may say: its number and its text.
    Syntax(usize, String),
    Reader,
    Writer,
}

impl From<io::Error> for LogFault {
    fn from(_error: io::Error) -> LogFault {
        LogFault::Reader
    }
}

/// What a line says.
#[derive(Clone, Copy)]
enum LogLine {
    Nothing,
    Started,
    Low(u16, u8),
    Fetched(u16, u16),
    Wrote(u16, u8),
    Halted,
    Reset,
}

/// The number that hexadecimal digits spell.
fn hex(digits: &[u8]) -> Option<u16> {
    digits.iter().try_fold(0, |number, digit| {
        let digit = char::from(*digit).to_digit(16)?;
        Some(number << 4 | digit as u16)
    })
}

/// An address of so many digits and a number of this many, with one space between them.
fn numbers(bytes: &[u8], width: usize, digits: usize) -> Option<(u16, u16)> {
    let (address, rest) = bytes.split_at_checked(width)?;
    let number = rest.strip_prefix(b" ")?;
    (number.len() == digits).then_some(())?;
    Some((hex(address)?, hex(number)?))
}

/// The byte address of the RAM and the byte of a write. With a base the address is one of the
/// processor, which has the RAM from there on.
fn written(bytes: &[u8], base: Option<u16>) -> Option<(u16, u8)> {
    let width = if base.is_some() { 4 } else { 3 };
    let (address, byte) = numbers(bytes, width, 2)?;
    let within = i32::from(address) - i32::from(base.unwrap_or(0));
    let within = u16::try_from(within).ok()?;
    (within < RAM_BYTES).then_some((within, byte as u8))
}

/// What a line says, in small letters or capitals, and with a CR at its end or without.
fn read_line(line: &[u8], base: Option<u16>) -> Option<LogLine> {
    if line.len() > MOST_LINE_BYTES {
        return None;
    }
    let line = line.strip_suffix(b"\r").unwrap_or(line);
    read_small(line, base).or_else(|| read_small(&line.to_ascii_lowercase(), base))
}

/// What a line in small letters says.
fn read_small(line: &[u8], base: Option<u16>) -> Option<LogLine> {
    if let Some(rest) = line.strip_prefix(b"wrote ") {
        let (address, byte) = written(rest, base)?;
        return Some(LogLine::Wrote(address, byte));
    }
    if let Some(rest) = line.strip_prefix(b"fetched ") {
        let (address, word) = numbers(rest, 3, 4)?;
        return Some(LogLine::Fetched(address, word));
    }
    if let Some(rest) = line.strip_prefix(b"low ") {
        let (address, byte) = numbers(rest, 3, 2)?;
        return Some(LogLine::Low(address, byte as u8));
    }
    match line {
        [] | [b'#', ..] => Some(LogLine::Nothing),
        b"started" => Some(LogLine::Started),
        b"halted" => Some(LogLine::Halted),
        b"reset" => Some(LogLine::Reset),
        _ => None,
    }
}

/// Takes a line, by its number. Some where it ends the reading.
fn take<T>(
    number: usize,
    line: &[u8],
    base: Option<u16>,
    judge: &mut impl FnMut(usize, LogLine) -> Result<Option<T>, LogFault>,
) -> Result<Option<T>, LogFault> {
    let logged = read_line(line, base).ok_or_else(|| LogFault::Syntax(number, shown(line)))?;
    judge(number, logged)
}

/// Reads a log to its end, or to the line that ends the reading.
fn read<T>(
    reader: &mut impl Read,
    base: Option<u16>,
    mut judge: impl FnMut(usize, LogLine) -> Result<Option<T>, LogFault>,
) -> Result<Option<T>, LogFault> {
    // An unfinished line stands at the front, and what is read after it.
    let mut buffer = [0; MOST_LINE_BYTES + PIECE];
    let mut held = 0;
    let mut number = 0;
    loop {
        let count = reader.read(&mut buffer[held..held + PIECE])?;
        if count == 0 {
            break;
        }
        let mut rest = &buffer[..held + count];
        while let Some(end) = rest.iter().position(|byte| *byte == b'\n') {
            number += 1;
            if let Some(found) = take(number, &rest[..end], base, &mut judge)? {
                return Ok(Some(found));
            }
            rest = &rest[end + 1..];
        }
        if rest.len() > MOST_LINE_BYTES {
            return Err(LogFault::Syntax(number + 1, shown(rest)));
        }
        let begin = held + count - rest.len();
        held = rest.len();
        buffer.copy_within(begin..begin + held, 0);
    }
    if held == 0 {
        return Ok(None);
    }
    take(number + 1, &buffer[..held], base, &mut judge)
}

/// A judge of halves.
struct Judge {
    run: Run,
    seen: Seen,
}

impl Judge {
    /// Takes the next line. Some where it is torn.
    fn take(&mut self, line: usize, logged: LogLine) -> Option<Torn> {
        match logged {
            LogLine::Nothing | LogLine::Low(..) => {}
            LogLine::Started => {
                self.seen.runs += 1;
                self.run = Run::Begun;
            }
            LogLine::Fetched(address, word) => {
                let begun = matches!(self.run, Run::Begun);
                self.run = self.run.after_fetch(address, word);
                self.seen.drew += u64::from(begun && matches!(self.run, Run::Draws(_)));
            }
            LogLine::Halted => {
                self.seen.halted += 1;
                self.run = Run::Closed;
            }
            LogLine::Reset => self.run = Run::Closed,
            LogLine::Wrote(address, byte) => {
                self.seen.writes += 1;
                if self.run.is_torn_by(address) {
                    return Some(Torn {
                        line,
                        address,
                        byte,
                    });
                }
            }
        }
        None
    }
}

/// What is said of the log that a reader gives.
pub fn judge_text(reader: &mut impl Read, base: Option<u16>) -> Result<Verdict, LogFault> {
    let mut judge = Judge {
        run: Run::Closed,
        seen: Seen::default(),
    };
    let torn = read(reader, base, |number, logged| Ok(judge.take(number, logged)))?;
    Ok(Verdict {
        torn,
        seen: judge.seen,
    })
}

/// What is found at a line by moments, as it is written.
enum Found {
    Torn(String),
    Contradicts(String),
}

/// A judge of moments.
#[derive(Default)]
struct MomentJudge {
    moments: Moments,
    runs: u64,
    halted: u64,
    judged: u64,
    // Whether the newest run has fetched past word zero.
    is_past_zero: bool,
    // The line after which the open run had no moment.
    tear: Option<String>,
}

impl MomentJudge {
    fn start(&mut self) {
        self.moments.tell(Line::Started);
        self.runs += 1;
        self.is_past_zero = false;
        self.tear = None;
    }

    /// Takes what a line reads, and its text. Some where it contradicts.
    fn read(&mut self, number: usize, line: Line, text: String) -> Option<Found> {
        if let Line::Low(address, _) | Line::Fetched(address, _) = line {
            self.is_past_zero |= address > 0;
        }
        let (standing, contradicts) = self.moments.tell(line);
        if contradicts {
            let said = format!("line {number} reads what was not written: {text}\n");
            return Some(Found::Contradicts(said));
        }
        if standing == Standing::NoMoment && self.tear.is_none() {
            self.tear = Some(format!("torn at line {number}: {text}\n"));
        }
        None
    }

    /// Takes the end of a run by a HALT. Some where that is torn.
    fn halt(&mut self) -> Option<Found> {
        if self.moments.is_open() {
            self.halted += 1;
            self.judged += u64::from(self.is_past_zero);
        }
        self.moments.tell(Line::Ended);
        self.tear.take().map(Found::Torn)
    }

    /// Takes the next line. Some where it decides.
    fn take(&mut self, number: usize, logged: LogLine) -> Option<Found> {
        match logged {
            LogLine::Nothing => {
                self.moments.tell(Line::Passed);
            }
            LogLine::Started => self.start(),
            LogLine::Low(address, byte) => {
                let text = format!("low {address:03X} {byte:02X}");
                return self.read(number, Line::Low(address, byte), text);
            }
            LogLine::Fetched(address, word) => {
                let text = format!("fetched {address:03X} {word:04X}");
                return self.read(number, Line::Fetched(address, word), text);
            }
            LogLine::Halted => return self.halt(),
            LogLine::Reset => {
                self.moments.tell(Line::Reset);
                self.tear = None;
            }
            LogLine::Wrote(address, byte) => {
                self.moments.tell(Line::Wrote(address, byte));
            }
        }
        None
    }
}

/// Writes by moments what is said of the log that a reader gives, the first torn run or all.
/// Whether it is whole.
pub fn judge_moments(
    reader: &mut impl Read,
    writer: &mut impl Write,
    base: Option<u16>,
    all: bool,
) -> Result<bool, LogFault> {
    let mut judge = MomentJudge::default();
    let mut torn = 0u64;
    let last = read(reader, base, |number, logged| {
        let (said, goes_on) = match judge.take(number, logged) {
            None => return Ok(None),
            Some(Found::Torn(said)) => (said, all),
            Some(Found::Contradicts(said)) => (said, false),
        };
        if !goes_on {
            return Ok(Some(said));
        }
        torn += 1;
        write(writer, &said).map(|()| None)
    })?;
    if let Some(said) = last {
        return write(writer, &said).map(|()| false);
    }
    let (runs, halted, judged) = (judge.runs, judge.halted, judge.judged);
    let is_whole = torn == 0 && judged > 0;
    let counts = format!("{runs} runs, {halted} halted");
    let said = match (torn, is_whole) {
        (0, true) => format!("whole: {counts}, {judged} judged\n"),
        (0, false) => format!("no run to judge: {counts}\n"),
        _ => format!("in all: {counts}, {torn} torn\n"),
    };
    write(writer, &said).map(|()| is_whole)
}

fn write(writer: &mut impl Write, text: &str) -> Result<(), LogFault> {
    writer
        .write_all(text.as_bytes())
        .map_err(|_| LogFault::Writer)
}
