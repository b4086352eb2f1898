//! Logs as texts, of any length and from anyone: what each line says, and the engines that find
//! the first write that tears a picture, or the first run that is mixed, or each (the format
//! is this project's own choice). A log is read in pieces and takes no memory.
#![no_std]

extern crate plain_std as std;

mod half_lines {
//! The lines of a log by the rule of halves: none is written while it is drawn.
use crate::line_judge::LineJudge;
use crate::log_line::LogLine;
use dvg_print::{LogCounts, LogFinding, LogVerdict};
use dvg_world::Judge;

// Returns the finding for a log that has these `counts` and no torn line.
fn found(counts: LogCounts) -> LogFinding {
    if counts.drew == 0 {
        LogFinding::NoRunDrew
    } else {
        LogFinding::NotTorn
    }
}

/// What is known of the lines that were told.
#[derive(Clone, Copy, Debug, PartialEq, Eq, Hash)]
pub struct HalfLines {
    judge: Judge,
    counts: LogCounts,
}

// Feeds what a line says, `logged`, to `judge`. Returns the byte address and the byte of the write,
// if it tears a picture.
#[inline(always)]
fn tell(judge: &mut Judge, logged: LogLine) -> Option<(u16, u8)> {
    match logged {
        LogLine::Started => judge.started(),
        LogLine::Fetched(address, word) => judge.fetched(address, word),
        LogLine::Wrote(address, byte) => {
            if judge.wrote(address) {
                return Some((address, byte));
            }
        }
        LogLine::Halted => judge.halted(),
        LogLine::Reset => judge.reset(),
        LogLine::Passed | LogLine::Low(..) => {}
    }
    None
}

// Whether a half is drawn after a line (`after`), and none before it (`before`).
#[inline(always)]
fn begins(before: bool, after: bool) -> bool {
    after && !before
}

// Counts one line more in `counts`, which says `logged`. With `draws` a run begins to draw a half
// by it. None of the numbers is greater than that of the lines, so none wraps.
#[inline(always)]
fn count(counts: &mut LogCounts, logged: LogLine, draws: bool) {
    if draws {
        counts.drew = counts.drew.wrapping_add(1);
    }
    match logged {
        LogLine::Started => counts.runs = counts.runs.wrapping_add(1),
        LogLine::Wrote(..) => counts.writes = counts.writes.wrapping_add(1),
        LogLine::Halted => counts.halted = counts.halted.wrapping_add(1),
        _ => {}
    }
}

impl HalfLines {
    /// Returns what is known before the first line.
    pub fn new() -> HalfLines {
        HalfLines {
            judge: Judge::new(),
            counts: LogCounts {
                runs: 0,
                drew: 0,
                halted: 0,
                writes: 0,
            },
        }
    }

    // Takes one line more, which says `logged`. Returns the byte address and the byte of the write,
    // if it tears a picture.
    #[inline(always)]
    fn hear(&mut self, logged: LogLine) -> Option<(u16, u8)> {
        let drew = self.judge.is_drawing();
        let torn = tell(&mut self.judge, logged);
        let draws = begins(drew, self.judge.is_drawing());
        count(&mut self.counts, logged, draws);
        torn
    }
}

impl LineJudge for HalfLines {
    type Verdict = LogVerdict;

    #[inline(always)]
    fn find(&self, number: usize, logged: LogLine) -> Option<LogVerdict> {
        let mut lines = *self;
        match lines.hear(logged) {
            Some((address, byte)) => Some(LogVerdict {
                finding: LogFinding::Torn {
                    line: number,
                    address,
                    byte,
                },
                counts: lines.counts,
            }),
            None => None,
        }
    }

    #[inline(always)]
    fn take(&mut self, _number: usize, logged: LogLine) {
        self.hear(logged);
    }

    fn at_end(&self) -> LogVerdict {
        LogVerdict {
            finding: found(self.counts),
            counts: self.counts,
        }
    }
}
}
mod judging {
//! How the text of a log is read, from a reader.
use crate::line_judge::LineJudge;
use crate::log_reading::{LogReading, LogStop};
use dvg_io::{ToolFault, Watched};
use dvg_read::TextFault;
use std::io::Read;

/// The most bytes that one read takes.
pub(crate) const PIECE: usize = 32_768;

// Returns the verdict or the fault of a log whose reading stops by `stop`.
fn answer<V>(stop: LogStop<V>) -> Result<V, ToolFault> {
    match stop {
        LogStop::Found(_, verdict) => Ok(verdict),
        LogStop::Syntax(line) => Err(ToolFault::Text(TextFault::Syntax(line))),
        LogStop::TooLong => Err(ToolFault::Text(TextFault::TooLong)),
    }
}

/// Returns what `judge`, which was told no line, says of the text of a log, which comes from
/// `reader`. With a `base`, lines `wrote` have addresses of the processor.
pub(crate) fn judge_text<J: LineJudge, R: Read>(
    judge: J,
    base: Option<u16>,
    reader: &mut Watched<R>,
) -> Result<J::Verdict, ToolFault> {
    let mut reading = LogReading::new(judge, base);
    let mut piece = [0u8; PIECE];
    loop {
        let Ok(count) = reader.read(&mut piece) else {
            return Err(ToolFault::Reader);
        };
        if count == 0 {
            break;
        }
        match reading.take_piece(&piece[..count]) {
            Ok(()) => {}
            Err(stopped) => return answer(stopped.stop),
        }
    }
    match reading.finish() {
        Ok(()) => Ok(reading.at_end()),
        Err(stop) => answer(stop),
    }
}
}
mod line_judge {
//! What the lines of a log are told. One reader serves all rules of `torn`, by a trait: what is
//! found at a line is asked first, and then the line is taken, so no copy of a judge is needed.
//! What was said before is a list, at first empty.
use crate::log_line::LogLine;

/// A judge of logs, which is told their lines in order.
pub trait LineJudge: Copy {
    /// What is said of a log.
    type Verdict: Copy;

    /// Returns what is said where the next line decides. That is the line number `number`, counted
    /// from 1, and says `logged`.
    fn find(&self, number: usize, logged: LogLine) -> Option<Self::Verdict>;

    /// Takes the next line, the line number `number`, counted from 1, which says `logged`.
    fn take(&mut self, number: usize, logged: LogLine);

    /// Returns what is said at the end of a log.
    fn at_end(&self) -> Self::Verdict;
}
}
mod log_line {
//! Lines of logs.
use arrayvec::ArrayVec;
use dvg_read::{hex, is_passed};

/// How many bytes the RAM has, which begins at byte address 0.
pub(crate) const RAM_BYTES: u16 = 0x800;

/// The most bytes of a line, without its end (this project's own choice).
pub const MOST_LINE_BYTES: usize = 64;

/// What a line says.
#[derive(Clone, Copy, Debug, PartialEq, Eq, Hash)]
pub enum LogLine {
    /// Nothing, as it is passed over.
    Passed,
    /// A strobe began a run.
    Started,
    /// A fetch completed the word at this word address. The second number is the word. The run goes
    /// on.
    Fetched(u16, u16),
    /// A fetch brought the low byte of the word at this word address.
    Low(u16, u8),
    /// The driver wrote this byte at this byte address of the RAM.
    Wrote(u16, u8),
    /// A fetch ended the run by a HALT.
    Halted,
    /// The generator was reset.
    Reset,
}

/// Returns what `line`, a line of a log, says. Returns `None` exactly where it says nothing that a
/// line may say.
///
/// It may be `started`, `fetched` with a word address and the word there, `low` with a word address
/// and a byte, `wrote` with a byte address of the RAM, 000 to 7FF, and the byte, `halted` or
/// `reset`. One space stands between the parts. Or it is passed over, as it is empty or begins with
/// `#`. An address has three hexadecimal digits, a word four and a byte two. Letters are of either
/// case, and a CR may stand at the end. A line has at most 64 bytes.
///
/// With a `base` the address after `wrote` is one of the processor, in four digits. The RAM lies
/// there from the base on.
#[must_use]
pub fn read_log_line(line: &[u8], base: Option<u16>) -> Option<LogLine> {
    if line.len() > MOST_LINE_BYTES {
        return None;
    }
    let line = without_cr(line);
    if is_passed(line) {
        return Some(LogLine::Passed);
    }
    let small = in_small_letters(line);
    row(small.as_slice(), base)
}

// Returns `line` without a CR at its end.
fn without_cr(line: &[u8]) -> &[u8] {
    if line.is_empty() || line[line.len() - 1] != b'\r' {
        line
    } else {
        &line[..line.len() - 1]
    }
}

// Returns `line`, which has at most 64 bytes, in small letters.
fn in_small_letters(line: &[u8]) -> ArrayVec<u8, MOST_LINE_BYTES> {
    let mut small = ArrayVec::new();
    for byte in line {
        small.push(byte.to_ascii_lowercase());
    }
    small
}

// Returns what `line`, which is in small letters, says, or `None` if it is no row of a log.
fn row(line: &[u8], base: Option<u16>) -> Option<LogLine> {
    if let Some(rest) = line.strip_prefix(b"wrote ") {
        let (address, byte) = written(rest, base)?;
        Some(LogLine::Wrote(address, byte))
    } else if let Some(rest) = line.strip_prefix(b"fetched ") {
        let (address, word) = numbers(rest, 3, 4)?;
        Some(LogLine::Fetched(address, word))
    } else if let Some(rest) = line.strip_prefix(b"low ") {
        let (address, byte) = numbers(rest, 3, 2)?;
        Some(LogLine::Low(address, byte as u8))
    } else {
        bare(line)
    }
}

// Returns the address and the number that `bytes` spell: `width` hexadecimal digits, one space, and
// as many digits as `digits` says.
fn numbers(bytes: &[u8], width: usize, digits: usize) -> Option<(u16, u16)> {
    if bytes.len() != width + 1 + digits || bytes[width] != b' ' {
        return None;
    }
    let address = hex(&bytes[..width], width)?;
    let number = hex(&bytes[width + 1..], digits)?;
    Some((address, number))
}

// Returns the byte address of the RAM that the processor has at `address`, where the RAM begins at
// `base`. The processor's address may be below it.
fn lowered(address: u16, base: u16) -> Option<u16> {
    if address < base {
        return None;
    }
    Some(address - base)
}

// Returns the byte address and the byte that `bytes` spell, at an address of the processor. That
// has the RAM from `base` on.
fn based(bytes: &[u8], base: u16) -> Option<(u16, u16)> {
    let (address, byte) = numbers(bytes, 4, 2)?;
    let within = lowered(address, base)?;
    Some((within, byte))
}

// Returns the byte address `address` and the byte `byte`, if the address is one of the RAM.
fn in_ram(address: u16, byte: u16) -> Option<(u16, u8)> {
    if address >= RAM_BYTES {
        return None;
    }
    Some((address, byte as u8))
}

// Returns the byte address and the byte that `bytes` spell, of a write in the RAM.
fn written(bytes: &[u8], base: Option<u16>) -> Option<(u16, u8)> {
    match base {
        Some(base) => {
            let (address, byte) = based(bytes, base)?;
            in_ram(address, byte)
        }
        None => {
            let (address, byte) = numbers(bytes, 3, 2)?;
            in_ram(address, byte)
        }
    }
}

// Returns what `name` alone says.
fn bare(name: &[u8]) -> Option<LogLine> {
    match name {
        b"started" => Some(LogLine::Started),
        b"halted" => Some(LogLine::Halted),
        b"reset" => Some(LogLine::Reset),
        _ => None,
    }
}
}
mod log_reading {
//! The text of a log, as it is read in pieces. A log has at most 2^64 - 1 lines, as their numbers
//! have 64 bits: so reading is proved to end, whatever the reader.
use crate::line_judge::LineJudge;
use crate::log_line::{LogLine, MOST_LINE_BYTES, read_log_line};
use arrayvec::ArrayVec;
use memchr::memchr;

/// Why the reading of a log stops before its text ends.
#[derive(Clone, Copy, Debug, PartialEq, Eq, Hash)]
pub enum LogStop<V> {
    /// The line of this number, counted from 1, decides: this is said of the log.
    Found(usize, V),
    /// The line of this number, counted from 1, says nothing that a line may say.
    Syntax(usize),
    /// There are more lines than are counted.
    TooLong,
}

/// Why the reading stops in a piece of a text, and what of the piece comes after the line by which
/// it does.
#[derive(Clone, Copy)]
#[derive(Debug)]
pub struct Stopped<'a, V> {
    pub stop: LogStop<V>,
    pub rest: &'a [u8],
}

/// The lines that have ended. None of them is at fault.
#[derive(Clone, Copy)]
pub struct JudgedLines<J> {
    judge: J,
    /// Where the processor has the RAM, if lines `wrote` have its addresses.
    pub base: Option<u16>,
    /// How many there are.
    pub count: usize,
}

impl<J: LineJudge> JudgedLines<J> {
    // Returns why the next line stops the reading, where it says nothing that a line may say.
    fn wrong(&self) -> LogStop<J::Verdict> {
        if self.count == usize::MAX {
            return LogStop::TooLong;
        }
        LogStop::Syntax(self.count + 1)
    }

    // Takes the next line, `line`. Returns why the reading stops there, if it does. A line that
    // decides is taken, too, so the reading may go on after it.
    fn take(&mut self, line: &[u8]) -> Result<(), LogStop<J::Verdict>> {
        if self.count == usize::MAX {
            return Err(LogStop::TooLong);
        }
        let number = self.count + 1;
        let Some(logged) = read_log_line(line, self.base) else {
            return Err(LogStop::Syntax(number));
        };
        let found = self.judge.find(number, logged);
        self.judge.take(number, logged);
        self.count = number;
        match found {
            Some(verdict) => Err(LogStop::Found(number, verdict)),
            None => Ok(()),
        }
    }

    /// Takes a line that says `logged`, unless it decides. Returns whether it is taken. Else
    /// nothing changes.
    #[inline(always)]
    pub fn take_logged(&mut self, logged: LogLine) -> bool {
        let number = self.count + 1;
        if self.judge.find(number, logged).is_some() {
            return false;
        }
        self.judge.take(number, logged);
        self.count = number;
        true
    }
}

/// What was read of a log's text.
pub struct LogReading<J> {
    judged: JudgedLines<J>,
    // The bytes of a line that has not ended.
    unfinished: ArrayVec<u8, MOST_LINE_BYTES>,
}

impl<J: LineJudge> LogReading<J> {
    /// Returns the reading before the first piece, whose lines `judge` is told. It was told none.
    /// With a `base`, lines `wrote` have addresses of the processor.
    pub fn new(judge: J, base: Option<u16>) -> LogReading<J> {
        LogReading {
            judged: JudgedLines {
                judge,
                base,
                count: 0,
            },
            unfinished: ArrayVec::new(),
        }
    }

    // Takes `bytes` of a line, without its end.
    fn begin_line(&mut self, bytes: &[u8]) -> Result<(), LogStop<J::Verdict>> {
        match self.unfinished.try_extend_from_slice(bytes) {
            Ok(()) => Ok(()),
            Err(_) => Err(self.judged.wrong()),
        }
    }

    // Takes `bytes`, the last ones of a line, and its end.
    fn end_line(&mut self, bytes: &[u8]) -> Result<(), LogStop<J::Verdict>> {
        if self.unfinished.is_empty() {
            return self.judged.take(bytes);
        }
        match self.begin_line(bytes) {
            Ok(()) => {}
            Err(stop) => return Err(stop),
        }
        let taken = self.judged.take(self.unfinished.as_slice());
        self.unfinished.clear();
        taken
    }

    /// Takes `piece`, the next piece of the text. Returns where the reading stops, if it does: at
    /// the first line that decides or that is at fault. After one that decides it may go on, with
    /// the rest of the piece.
    pub fn take_piece<'a>(&mut self, piece: &'a [u8]) -> Result<(), Stopped<'a, J::Verdict>> {
        let mut rest = piece;
        while let Some(end) = memchr(b'\n', rest) {
            let after = &rest[end + 1..];
            match self.end_line(&rest[..end]) {
                Ok(()) => {}
                Err(stop) => return Err(Stopped { stop, rest: after }),
            }
            rest = self.judged.take_usual_lines(after);
        }
        match self.begin_line(rest) {
            Ok(()) => Ok(()),
            Err(stop) => Err(Stopped { stop, rest }),
        }
    }

    /// Takes the end of the text, which ends a line that has begun. Returns why the reading stops
    /// at this last line, if it does.
    pub fn finish(&mut self) -> Result<(), LogStop<J::Verdict>> {
        if self.unfinished.is_empty() {
            return Ok(());
        }
        self.judged.take(self.unfinished.as_slice())
    }

    /// Returns what is said of the log of all lines, once the text has ended.
    pub fn at_end(&self) -> J::Verdict {
        self.judged.judge.at_end()
    }
}
}
mod moment_lines {
//! The lines of a log by moments: each run is of one.
use crate::line_judge::LineJudge;
use crate::log_line::LogLine;
use dvg_moment::MomentJudge;
use dvg_print::{MomentVerdict, Reading};

/// The line after which no moment of a run was left: its number, counted from 1, and what it read.
#[derive(Clone, Copy, Debug, PartialEq, Eq, Hash)]
pub struct Tear {
    pub line: usize,
    pub reading: Reading,
}

/// What is known of the lines that were told.
#[derive(Clone, Copy)]
pub struct MomentLines {
    judge: MomentJudge,
    // The runs that began.
    runs: usize,
    // Those that came to their HALT.
    halted: usize,
    // Those of them that had fetched past word zero.
    judged: usize,
    // Whether the newest run has fetched past word zero.
    is_past_zero: bool,
    // Where the open run tore, if it did.
    tear: Option<Tear>,
}

impl MomentLines {
    /// Returns what is known before the first line.
    pub fn new() -> MomentLines {
        MomentLines {
            judge: MomentJudge::new(),
            runs: 0,
            halted: 0,
            judged: 0,
            is_past_zero: false,
            tear: None,
        }
    }

    // Takes a line that says that a strobe began a run.
    fn start(&mut self) {
        self.judge.started();
        self.runs = self.runs.wrapping_add(1);
        self.is_past_zero = false;
        self.tear = None;
    }

    // Returns where the open run tore, once the line number `line` has read `reading`, which the
    // judge was told.
    #[inline(always)]
    fn tear_by(&self, line: usize, reading: Reading) -> Option<Tear> {
        match self.tear {
            Some(tear) => Some(tear),
            None => {
                if self.judge.is_torn() {
                    Some(Tear { line, reading })
                } else {
                    None
                }
            }
        }
    }

    // Takes the line number `number`, a fetch of the low byte `byte` at the word address `address`.
    #[inline(always)]
    fn low(&mut self, number: usize, address: u16, byte: u8) {
        self.judge.low(address, byte);
        self.is_past_zero = reads_past_zero(address, self.is_past_zero);
        self.tear = self.tear_by(number, Reading::Low(address, byte));
    }

    // Takes the line number `number`, a fetch that completed `word` at the word address `address`.
    #[inline(always)]
    fn fetched(&mut self, number: usize, address: u16, word: u16) {
        self.judge.fetched(address, word);
        self.is_past_zero = reads_past_zero(address, self.is_past_zero);
        self.tear = self.tear_by(number, Reading::Fetched(address, word));
    }

    // Takes a line that says that the run ended by a HALT.
    fn halt(&mut self) {
        let halts = self.judge.is_open();
        self.halted = count_with(self.halted, halts);
        self.judged = count_with(self.judged, is_judged(halts, self.is_past_zero));
        self.judge.ended();
        self.tear = None;
    }

    // Takes a line that says that the generator was reset, or the whole system.
    fn reset(&mut self) {
        self.judge.reset();
        self.tear = None;
    }
}

// Returns `count`, of runs that came to their HALT, with one more where `is_one`. It is no greater
// than that of the lines, so it doesn't wrap.
fn count_with(count: usize, is_one: bool) -> usize {
    if is_one { count.wrapping_add(1) } else { count }
}

// Returns whether a run is judged by a line: it `halts` then, and `is_past_zero`.
fn is_judged(halts: bool, is_past_zero: bool) -> bool {
    halts && is_past_zero
}

// Returns whether a run has fetched past word zero: it had `before`, or it now fetches at the word
// address `address`, which isn't zero.
#[inline(always)]
fn reads_past_zero(address: u16, before: bool) -> bool {
    address > 0 || before
}

// Returns what is said where the line number `number` reads `reading`, if it contradicts.
#[inline(always)]
fn contradicted(contradicts: bool, line: usize, reading: Reading) -> Option<MomentVerdict> {
    if contradicts {
        Some(MomentVerdict::Contradicts { line, reading })
    } else {
        None
    }
}

impl LineJudge for MomentLines {
    type Verdict = MomentVerdict;

    #[inline(always)]
    fn find(&self, number: usize, logged: LogLine) -> Option<MomentVerdict> {
        match logged {
            LogLine::Low(address, byte) => {
                let contradicts = self.judge.contradicts_low(address, byte);
                contradicted(contradicts, number, Reading::Low(address, byte))
            }
            LogLine::Fetched(address, word) => {
                let contradicts = self.judge.contradicts_word(address, word);
                contradicted(contradicts, number, Reading::Fetched(address, word))
            }
            LogLine::Halted => match self.tear {
                Some(Tear { line, reading }) => Some(MomentVerdict::Torn { line, reading }),
                None => None,
            },
            _ => None,
        }
    }

    #[inline(always)]
    fn take(&mut self, number: usize, logged: LogLine) {
        match logged {
            LogLine::Passed => self.judge.passed(),
            LogLine::Started => self.start(),
            LogLine::Low(address, byte) => self.low(number, address, byte),
            LogLine::Fetched(address, word) => self.fetched(number, address, word),
            LogLine::Wrote(address, byte) => self.judge.wrote(address, byte),
            LogLine::Halted => self.halt(),
            LogLine::Reset => self.reset(),
        }
    }

    fn at_end(&self) -> MomentVerdict {
        let (runs, halted, judged) = (self.runs, self.halted, self.judged);
        if judged == 0 {
            return MomentVerdict::NoRun { runs, halted };
        }
        MomentVerdict::Whole {
            runs,
            halted,
            judged,
        }
    }
}
}
mod number_line {
//! Lines of logs that have numbers, as most do, and comments. Each is taken from the head of a
//! text, one that has numbers with no search for its end.
use crate::line_judge::LineJudge;
use crate::log_line::{LogLine, MOST_LINE_BYTES, RAM_BYTES};
use crate::log_reading::JudgedLines;
use dvg_read::digit_of;
use memchr::memchr;

/// The most bytes of a line that has numbers, with its end. A text with fewer bytes left is read
/// otherwise.
const MOST_NUMBER_BYTES: usize = 17;

// Returns the number of two hexadecimal digits, whose values are `a` and `b`.
#[inline(always)]
fn of_two(a: u8, b: u8) -> u8 {
    16 * a + b
}

// Returns the number of three hexadecimal digits, whose values are `a`, `b` and `c`.
#[inline(always)]
fn of_three(a: u8, b: u8, c: u8) -> u16 {
    256 * u16::from(a) + u16::from(of_two(b, c))
}

// Returns the address (three digits) and the byte (two) on the first line of `text`, and the text
// after that line; else `None`. All digits are tested at once.
#[inline(always)]
fn address_and_byte(text: &[u8]) -> Option<(u16, u8, &[u8])> {
    let [a, b, c, b' ', d, e, b'\n', rest @ ..] = text else {
        return None;
    };
    let (a, b, c) = (digit_of(*a), digit_of(*b), digit_of(*c));
    let (d, e) = (digit_of(*d), digit_of(*e));
    let all = a | b | c | d | e;
    if all >= 16 {
        return None;
    }
    Some((of_three(a, b, c), of_two(d, e), rest))
}

// Returns the address and the word that `text` begins with, and what comes after the line's end.
#[inline(always)]
fn address_and_word(text: &[u8]) -> Option<(u16, u16, &[u8])> {
    let [a, b, c, b' ', d, e, f, g, b'\n', rest @ ..] = text else {
        return None;
    };
    let (a, b, c) = (digit_of(*a), digit_of(*b), digit_of(*c));
    let (d, e, f, g) = (digit_of(*d), digit_of(*e), digit_of(*f), digit_of(*g));
    let all = a | b | c | d | e | f | g;
    if all >= 16 {
        return None;
    }
    let word = 256 * u16::from(of_two(d, e)) + u16::from(of_two(f, g));
    Some((of_three(a, b, c), word, rest))
}

// Each line is taken from the head of a text, if it ends there and doesn't decide. What comes after
// it is returned.
impl<J: LineJudge> JudgedLines<J> {
    // Takes the rest of a line `wrote` from `text`, after `wrot`: four letters are compared as one
    // number, and six are not. Returns what comes after the line. One with an address of the
    // processor isn't taken here.
    #[inline(always)]
    fn take_wrote<'a>(&mut self, text: &'a [u8]) -> Option<&'a [u8]> {
        if self.base.is_some() {
            return None;
        }
        let [b'e', b' ', numbers @ ..] = text else {
            return None;
        };
        let (address, byte, rest) = address_and_byte(numbers)?;
        if address < RAM_BYTES && self.take_logged(LogLine::Wrote(address, byte)) {
            Some(rest)
        } else {
            None
        }
    }

    // Takes the rest of a line `low` from `text`, after its name and a space. Returns what comes
    // after the line.
    #[inline(always)]
    fn take_low<'a>(&mut self, text: &'a [u8]) -> Option<&'a [u8]> {
        let (address, byte, rest) = address_and_byte(text)?;
        if self.take_logged(LogLine::Low(address, byte)) {
            Some(rest)
        } else {
            None
        }
    }

    // Takes the rest of a line `fetched` from `text`, after its name and a space. Returns what
    // comes after the line.
    #[inline(always)]
    fn take_fetched<'a>(&mut self, text: &'a [u8]) -> Option<&'a [u8]> {
        let (address, word, rest) = address_and_word(text)?;
        if self.take_logged(LogLine::Fetched(address, word)) {
            Some(rest)
        } else {
            None
        }
    }

    // Takes a line that begins with `#` from the head of `text`. Returns what comes after it.
    #[inline(always)]
    fn take_comment<'a>(&mut self, text: &'a [u8]) -> Option<&'a [u8]> {
        let [b'#', ..] = text else {
            return None;
        };
        let end = memchr(b'\n', text)?;
        if end <= MOST_LINE_BYTES && self.take_logged(LogLine::Passed) {
            Some(&text[end + 1..])
        } else {
            None
        }
    }

    // Takes a line that has numbers, or begins with `#`, from the head of `text`. Returns what
    // comes after it. The name that comes most often is looked for first.
    #[inline(always)]
    fn take_usual_line<'a>(&mut self, text: &'a [u8]) -> Option<&'a [u8]> {
        if text.len() < MOST_NUMBER_BYTES {
            return None;
        }
        if let Some(rest) = text.strip_prefix(b"wrot") {
            self.take_wrote(rest)
        } else if let Some(rest) = text.strip_prefix(b"fetched ") {
            self.take_fetched(rest)
        } else if let Some(rest) = text.strip_prefix(b"low ") {
            self.take_low(rest)
        } else {
            self.take_comment(text)
        }
    }

    /// Takes lines that have numbers, or begin with `#`, from the head of `text`. It stops before
    /// the first line that is of another kind, that decides or that doesn't end, and where fewer
    /// bytes are left than the longest line with numbers has. Returns what comes after the lines.
    #[inline(never)]
    pub fn take_usual_lines<'a>(&mut self, text: &'a [u8]) -> &'a [u8] {
        let mut rest = text;
        while self.count < usize::MAX {
            let Some(after) = self.take_usual_line(rest) else {
                break;
            };
            rest = after;
        }
        rest
    }
}
}
mod tears {
//! The engine `torn`.
use crate::half_lines::HalfLines;
use crate::judging::judge_text;
use crate::log_reading::{LogReading, LogStop};
use dvg_io::{StreamFailed, ToolFault, Watched, write_lines};
use dvg_print::{Line, LogVerdict};
use dvg_read::TextFault;
use std::io::{Read, Write};

// Writes `verdict`, what is said of a log, to `writer`.
fn write_verdict<W: Write>(writer: &mut Watched<W>, verdict: LogVerdict) -> Result<(), StreamFailed> {
    let mut line = Line::new();
    line.become_log_verdict(verdict);
    write_lines(writer, line.as_bytes())
}

// Returns what is said of a log whose reading stops by `stop`.
fn said(stop: LogStop<LogVerdict>) -> Result<LogVerdict, TextFault> {
    match stop {
        LogStop::Found(_, verdict) => Ok(verdict),
        LogStop::Syntax(line) => Err(TextFault::Syntax(line)),
        LogStop::TooLong => Err(TextFault::TooLong),
    }
}

/// Returns what `torn` says of `text`, the whole text of a log, or its fault of the text. With a
/// `base`, lines `wrote` have addresses of the processor.
pub fn judge_log(text: &[u8], base: Option<u16>) -> Result<LogVerdict, TextFault> {
    let mut reading = LogReading::new(HalfLines::new(), base);
    match reading.take_piece(text) {
        Ok(()) => {}
        Err(stopped) => return said(stopped.stop),
    }
    match reading.finish() {
        Ok(()) => Ok(reading.at_end()),
        Err(stop) => said(stop),
    }
}

/// Reads the text of a log from `reader`, of any length, up to the first line that is torn or at
/// fault, and writes what is said of it to `writer` (the text is this project's own choice):
///
/// - `not torn: R runs, D drew a half, H halted, W writes`, where no byte was written in the half
///   that the open run draws: R runs began, D of them drew a half, H lines say `halted`, and W
///   bytes were written;
/// - `no run drew a half:` and the same, where D is 0, so no byte could be found that tears;
/// - `torn at line N: wrote A B` of the first write in such a half, by its line, its byte address
///   and its byte, and on one more line `so far:` and the same numbers up to that line.
///
/// It takes no memory. With a `base`, lines `wrote` have addresses of the processor, and the RAM
/// lies there from the base on.
///
/// - `Syntax`: this line is the first that says nothing that a line may say (see `read_log_line`),
///   and none before it is torn.
/// - `TooLong`: none of the first 18,446,744,073,709,551,615 lines is torn or at fault, and there
///   are more.
/// - `Reader`, `Writer`: that stream failed. After `Writer` a beginning of the text went out.
///
/// `Memory` is never returned. Where it stops before it writes, which is at any fault but `Writer`,
/// the writer is as it was.
#[inline(never)]
pub fn torn<R: Read, W: Write>(
    reader: &mut Watched<R>,
    writer: &mut Watched<W>,
    base: Option<u16>,
) -> Result<LogVerdict, ToolFault> {
    let verdict = match judge_text(HalfLines::new(), base, reader) {
        Ok(verdict) => verdict,
        Err(fault) => return Err(fault),
    };
    if write_verdict(writer, verdict).is_err() {
        return Err(ToolFault::Writer);
    }
    Ok(verdict)
}
}
mod tears_all {
//! The engine `torn --moments --all`. By halves there is no such engine: one write that tears is
//! followed by others of the same kind.
use crate::judging::PIECE;
use crate::log_reading::{LogReading, LogStop};
use crate::moment_lines::MomentLines;
use crate::tears_moments::write_verdict;
use dvg_io::{ToolFault, Watched};
use dvg_print::MomentVerdict;
use dvg_read::TextFault;
use std::io::{Read, Write};

// Returns whether `verdict` is of a torn run.
fn is_tear(verdict: MomentVerdict) -> bool {
    matches!(verdict, MomentVerdict::Torn { .. })
}

// Returns what is said at the end of a log in which so many runs are `torn`. `said` is what is said
// of it where none is.
fn of_all(torn: usize, said: MomentVerdict) -> MomentVerdict {
    if torn == 0 {
        return said;
    }
    match said {
        MomentVerdict::Whole { runs, halted, .. } | MomentVerdict::NoRun { runs, halted } => {
            MomentVerdict::SomeTorn { runs, halted, torn }
        }
        _ => said,
    }
}

/// What was read of a log's text, and how many of its torn runs were told.
pub struct Telling {
    reading: LogReading<MomentLines>,
    torn: usize,
}

impl Telling {
    // Writes the line of `one`, which was found, to `writer`, and counts a torn run. Returns the
    // answer, unless the reading goes on.
    fn tell_found<W: Write>(
        &mut self,
        one: MomentVerdict,
        writer: &mut Watched<W>,
    ) -> Option<Result<MomentVerdict, ToolFault>> {
        if write_verdict(writer, one).is_err() {
            return Some(Err(ToolFault::Writer));
        }
        if !is_tear(one) {
            return Some(Ok(one));
        }
        self.torn = self.torn.wrapping_add(1);
        None
    }

    // Tells why the reading stops, by `stop`, to `writer`. Returns the answer, unless the reading
    // goes on, as it is a torn run.
    fn tell<W: Write>(
        &mut self,
        stop: LogStop<MomentVerdict>,
        writer: &mut Watched<W>,
    ) -> Option<Result<MomentVerdict, ToolFault>> {
        match stop {
            LogStop::Found(_, one) => self.tell_found(one, writer),
            LogStop::Syntax(line) => Some(Err(ToolFault::Text(TextFault::Syntax(line)))),
            LogStop::TooLong => Some(Err(ToolFault::Text(TextFault::TooLong))),
        }
    }

    // Takes `piece`, the next piece of the text, and tells its torn runs to `writer`. Returns the
    // answer, if the reading ends there.
    fn take_piece<W: Write>(
        &mut self,
        piece: &[u8],
        writer: &mut Watched<W>,
    ) -> Option<Result<MomentVerdict, ToolFault>> {
        let mut rest = piece;
        while !rest.is_empty() {
            let stopped = match self.reading.take_piece(rest) {
                Ok(()) => return None,
                Err(stopped) => stopped,
            };
            if let Some(answer) = self.tell(stopped.stop, writer) {
                return Some(answer);
            }
            rest = stopped.rest;
        }
        None
    }

    // Takes the end of the text, which ends a line that has begun, and tells a torn run that comes
    // to its HALT by that line to `writer`. Returns the answer, if the reading ends there.
    fn end_lines<W: Write>(
        &mut self,
        writer: &mut Watched<W>,
    ) -> Option<Result<MomentVerdict, ToolFault>> {
        match self.reading.finish() {
            Ok(()) => None,
            Err(stop) => self.tell(stop, writer),
        }
    }

    // Tells what is said at the end of the log of all lines to `writer`. Returns the answer.
    fn tell_end<W: Write>(&self, writer: &mut Watched<W>) -> Result<MomentVerdict, ToolFault> {
        let verdict = of_all(self.torn, self.reading.at_end());
        if write_verdict(writer, verdict).is_err() {
            return Err(ToolFault::Writer);
        }
        Ok(verdict)
    }

    // Takes the end of the text, and tells what is said then to `writer`. Returns the answer.
    fn finish<W: Write>(&mut self, writer: &mut Watched<W>) -> Result<MomentVerdict, ToolFault> {
        match self.end_lines(writer) {
            Some(answer) => answer,
            None => self.tell_end(writer),
        }
    }
}

/// Reads the text of a log from `reader`, of any length and of any system, up to the first line
/// that contradicts or is at fault, and writes to `writer` (the text is this project's own choice):
///
/// - `torn at line N: ..`, as `torn_moments` does, for each run that is mixed and comes to
///   its HALT, in the order of these;
/// - and then `in all: R runs, H halted, T torn`: R runs began, H of them came to their HALT, and T
///   of these are torn; where none is, what `torn_moments` writes then;
/// - or, in place of that, `line N reads what was not written: ..`.
///
/// It takes no memory. At a fault of the text, or of the reader, the lines of the torn runs before
/// it were written. Its faults are those of `torn`, and a `base` means the same.
#[inline(never)]
pub fn torn_all<R: Read, W: Write>(
    reader: &mut Watched<R>,
    writer: &mut Watched<W>,
    base: Option<u16>,
) -> Result<MomentVerdict, ToolFault> {
    let mut telling = Telling {
        reading: LogReading::new(MomentLines::new(), base),
        torn: 0,
    };
    let mut piece = [0u8; PIECE];
    loop {
        let Ok(count) = reader.read(&mut piece) else {
            return Err(ToolFault::Reader);
        };
        if count == 0 {
            return telling.finish(writer);
        }
        if let Some(answer) = telling.take_piece(&piece[..count], writer) {
            return answer;
        }
    }
}
}
mod tears_moments {
//! The engine `torn --moments`.
use crate::judging::judge_text;
use crate::moment_lines::MomentLines;
use dvg_io::{StreamFailed, ToolFault, Watched, write_lines};
use dvg_print::{Line, MomentVerdict};
use std::io::{Read, Write};

/// Writes `verdict`, what is said of a log, or of a torn run in it, to `writer`.
pub(crate) fn write_verdict<W: Write>(
    writer: &mut Watched<W>,
    verdict: MomentVerdict,
) -> Result<(), StreamFailed> {
    let mut line = Line::new();
    line.become_moment_verdict(verdict);
    write_lines(writer, line.as_bytes())
}

/// Reads the text of a log from `reader`, of any length and of any system, up to the first line
/// that decides or is at fault, and writes what is said of it to `writer` (the text is this
/// project's own choice):
///
/// - `torn at line N: ..`, where a mixed run comes to its HALT: after line N, which is
///   shown, no moment of it was left. No byte that a run reads may change between its moment and
///   its reading;
/// - `line N reads what was not written: ..`, where a line reads another byte than the log told
///   last of it, of the RAM, of the ROM, or of the low byte that was told of this very word;
/// - `whole: R runs, H halted, J judged`, where no line does either: R runs began, H of them came
///   to their HALT, and J of these, one or more, had fetched past word zero, so they are judged;
/// - `no run to judge: R runs, H halted`, where none of these had.
///
/// `halted` tells no word, so the log before it is judged. `reset` may be one of the whole system:
/// after it nothing is known of memory. It takes no memory. Its faults are those of `torn`, and a
/// `base` means the same.
#[inline(never)]
pub fn torn_moments<R: Read, W: Write>(
    reader: &mut Watched<R>,
    writer: &mut Watched<W>,
    base: Option<u16>,
) -> Result<MomentVerdict, ToolFault> {
    let verdict = match judge_text(MomentLines::new(), base, reader) {
        Ok(verdict) => verdict,
        Err(fault) => return Err(fault),
    };
    if write_verdict(writer, verdict).is_err() {
        return Err(ToolFault::Writer);
    }
    Ok(verdict)
}
}

pub use dvg_print::{LogCounts, LogFinding, LogVerdict, MomentVerdict, Reading};
pub use log_line::{LogLine, MOST_LINE_BYTES, read_log_line};
pub use tears::{judge_log, torn};
pub use tears_all::torn_all;
pub use tears_moments::torn_moments;
