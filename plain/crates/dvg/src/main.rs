//! The program `dvg`, for people who write and debug display lists of the Digital Vector Generator.
extern crate plain_std as std;

use std::prelude::*;

use std::{eprint, eprintln};

mod files {
//! Arguments that are perhaps the names of files.
use arrayvec::ArrayVec;
use clap::Error;
use std::fmt::{self, Write};

/// How the refusal of an argument begins that no subcommand takes. The argument follows.
const UNEXPECTED: &[u8] = b"error: unexpected argument '";

/// The first bytes of a text: as many as tell how an argument begins.
struct Front {
    bytes: ArrayVec<u8, 32>,
}

impl fmt::Write for Front {
    fn write_str(&mut self, part: &str) -> fmt::Result {
        for byte in part.as_bytes() {
            if self.bytes.try_push(*byte).is_err() {
                return Ok(());
            }
        }
        Ok(())
    }
}

/// Returns whether `error` is of an argument that is no option, such as the name of a file.
pub(crate) fn is_of_a_word(error: &Error) -> bool {
    let mut front = Front {
        bytes: ArrayVec::new(),
    };
    if write!(front, "{error}").is_err() {
        return false;
    }
    match front.bytes.as_slice().strip_prefix(UNEXPECTED) {
        Some([first, ..]) => *first != b'-' && *first != b'\'',
        _ => false,
    }
}
}
mod kept {
//! A reader that keeps what another one gave last, so that a line of it can be shown.
use std::prelude::*;

use std::alloc::Global;
use std::io::{Read, Result};

/// A reader that gives what another one gives, and keeps the last bytes of it: those of the last
/// read, and before them those of the line that had not ended by then.
pub struct Kept<R> {
    stream: R,
    bytes: Vec<u8>,
    // Whether memory for the bytes was refused, so that none are kept any more.
    is_lost: bool,
    has_ended: bool,
}

impl<R> Kept<R> {
    /// Returns a reader that gives what `stream` gives. What it keeps is in memory of `alloc`.
    pub fn new(alloc: Global, stream: R) -> Kept<R> {
        Kept {
            stream,
            bytes: Vec::new(alloc),
            is_lost: false,
            has_ended: false,
        }
    }

    /// Returns the bytes that are kept, from the beginning of a line on. There are none if memory
    /// for them was refused.
    pub fn bytes(&self) -> &[u8] {
        self.bytes.as_slice()
    }

    /// Whether the last read gave nothing, so that the input ends after these bytes.
    pub fn has_ended(&self) -> bool {
        self.has_ended
    }

    // Forgets the lines that have ended.
    fn forget_lines(&mut self) {
        let mut bytes = self.bytes.iter().rev();
        if let Some(unended) = bytes.position(|byte| *byte == b'\n') {
            let ended = self.bytes.len().saturating_sub(unended);
            self.bytes.as_mut_slice().copy_within(ended.., 0);
            self.bytes.truncate(unended);
        }
    }

    // Keeps `piece`, which the last read gave.
    fn keep(&mut self, piece: &[u8]) {
        self.has_ended = piece.is_empty();
        if self.is_lost || self.has_ended {
            return;
        }
        self.forget_lines();
        if self.bytes.extend_from_slice(piece).is_err() {
            self.is_lost = true;
            self.bytes.clear();
        }
    }
}

impl<R: Read> Read for Kept<R> {
    fn read(&mut self, buf: &mut [u8]) -> Result<usize> {
        let count = self.stream.read(buf)?;
        self.keep(&buf[..count]);
        Ok(count)
    }
}
}
mod told {
//! A reader that tells on standard error how far it is, if that is a terminal.
use std::prelude::*;

use std::eprint;

use std::io::{IsTerminal, Read, Result};
use std::time::Instant;

/// The bytes after which the clock is looked at, so a slow input is told less often.
const MEGABYTE: u64 = 1_000_000;

/// The least number of seconds between one line and the next.
const STAYS_SECONDS: u64 = 1;

/// What clears a line, whatever it tells.
const CLEARING: &str = "\r                           \r";

/// A reader that tells on standard error how much of another one was read, if that is a terminal:
/// in one line, which is written anew at most once a second. It gives what the other one gives.
pub struct Told<'a, R> {
    rt: &'a HostRuntime,
    stream: R,
    may_tell: bool,
    // How many bytes were read, and how many at the last look.
    read: u64,
    looked_at: u64,
    // When the last line was written, or the first look was.
    since: Option<Instant>,
    // Whether there is a line.
    stands: bool,
}

impl<'a, R> Told<'a, R> {
    /// Returns a reader that gives what `stream` gives. It tells nothing unless
    /// `may_tell` is set.
    pub fn new(rt: &'a HostRuntime, stream: R, may_tell: bool) -> Told<'a, R> {
        Told {
            rt,
            stream,
            may_tell,
            read: 0,
            looked_at: 0,
            since: None,
            stands: false,
        }
    }

    // Writes the line anew, if it is time to.
    fn tell(&mut self) {
        self.looked_at = self.read;
        if !self.may_tell || !self.rt.stderr().is_terminal() {
            return;
        }
        let Ok(now) = Instant::now(self.rt) else {
            return;
        };
        if let Some(since) = self.since {
            if now.duration_since(since).as_secs() < STAYS_SECONDS {
                return;
            }
            let megabytes = self.read / MEGABYTE;
            let _ = eprint!(self.rt; "\rdvg: {megabytes} MB read");
            self.stands = true;
        }
        self.since = Some(now);
    }

    /// Clears the line, if there is one. Returns the reader that was told of.
    pub fn end(self) -> R {
        if self.stands {
            let _ = eprint!(self.rt; "{CLEARING}");
        }
        self.stream
    }
}

impl<R: Read> Read for Told<'_, R> {
    fn read(&mut self, buf: &mut [u8]) -> Result<usize> {
        let count = self.stream.read(buf)?;
        self.read = self.read.saturating_add(count as u64);
        if self.read.saturating_sub(self.looked_at) >= MEGABYTE {
            self.tell();
        }
        Ok(count)
    }
}
}

use clap::Error;
use clap::error::ErrorKind;
use dvg_explain::{Explained, UNENDED, UnreadLog, explain_line};
use dvg_io::read_up_to;
use dvg_tool::{
    Done, Job, LogRule, MISUSE, MOST_TEXT_BYTES, TextFault, ToolFault, Watched, arguments_status,
    finish, job, perform, status,
};
use files::is_of_a_word;
use kept::Kept;
use std::alloc::Global;
use std::io::{BufWriter, IsTerminal, Read, Write};
use std::process::ExitCode;
use std::{env, io};
use told::Told;

/// The most bytes of output that are kept, to be written together.
const OUTPUT_BYTES: usize = 65_536;

/// Returns the program's arguments. They need not be text, and an allocation can fail.
fn arguments(rt: &HostRuntime) -> io::Result<Vec<String>> {
    Ok(env::args(rt)?.collect(rt.alloc())?)
}

/// Returns what `arguments` ask for.
fn asked(rt: &HostRuntime, arguments: &[String]) -> Result<Job, Error> {
    let mut texts = Vec::new(rt.alloc());
    for argument in arguments {
        texts.push(argument.as_str())?;
    }
    job(rt.alloc(), texts.as_slice())
}

/// Writes `text`, a help text, on standard output.
fn help(rt: &HostRuntime, text: &Error) -> io::Result<()> {
    let mut output = io::writer(rt);
    write!(output, "{text}")?;
    output.flush()
}

/// Prints `fault`, for which the program could not do a job, on standard error.
fn complain(rt: &HostRuntime, fault: ToolFault) {
    let _ = eprintln!(rt; "dvg: {fault}");
}

/// Prints on standard error how a file is read, where `error` is of the name of one after a
/// subcommand, the second of `arguments`.
fn tell_of_files(rt: &HostRuntime, arguments: &[String], error: &Error) {
    match arguments.get(1) {
        Some(command) if is_of_a_word(error) => {
            let _ = eprintln!(rt; "a file is read by `<`: dvg {command} < FILE");
        }
        _ => {}
    }
}

/// Prints `error`: the help that was asked for, or why `arguments` ask for nothing. Returns the
/// exit status.
fn answer_arguments(rt: &HostRuntime, arguments: &[String], error: &Error) -> u8 {
    match error.kind() {
        ErrorKind::DisplayHelp | ErrorKind::DisplayVersion => {
            if help(rt, error).is_err() {
                complain(rt, ToolFault::Writer);
                return status::<Global>(&Err(ToolFault::Writer));
            }
        }
        ErrorKind::OutOfMemory => complain(rt, ToolFault::Memory),
        _ => {
            let _ = eprint!(rt; "{error}");
            tell_of_files(rt, arguments, error);
        }
    }
    arguments_status(error)
}

/// Returns whether standard error may tell how far `job` is. It may not where the job writes lines
/// on a terminal while it still reads.
fn may_tell(rt: &HostRuntime, job: Job) -> bool {
    match job {
        Job::Torn {
            rule: LogRule::AllMoments,
            ..
        } => !rt.stdout().is_terminal(),
        _ => true,
    }
}

/// What came of a job.
type Answer = Result<Done<Global>, ToolFault>;

/// Does `job` from `input` to standard output. Where that takes long, standard error tells how far
/// it is, if that is a terminal. Returns what came of it, and `input`, as far as it was read.
fn run<R: Read + Drop>(rt: &HostRuntime, job: Job, input: R) -> (Answer, R) {
    let Ok(output) = BufWriter::with_capacity(rt.alloc(), OUTPUT_BYTES, io::writer(rt)) else {
        return (Err(ToolFault::Memory), input);
    };
    let mut reader = Watched::new(Told::new(rt, input, may_tell(rt, job)));
    let mut writer = Watched::new(output);
    let answer = perform(rt.alloc(), job, &mut reader, &mut writer);
    let input = reader.into_inner().end();
    (finish(answer, &mut writer), input)
}

/// Prints on standard error what is wrong with `text`, the text of a sketch: `fault` with its line,
/// and what was expected there.
fn complain_of_sketch(rt: &HostRuntime, text: &[u8], fault: TextFault) {
    if let Ok(small) = text.to_ascii_lowercase_in(rt.alloc()) {
        if let Some(Explained { line, expected }) = explain_line(fault, text, small.as_slice()) {
            let _ = eprintln!(rt; "dvg: {fault}: {line}\ndvg: expected {expected}");
            return;
        }
    }
    complain(rt, ToolFault::Text(fault));
}

/// Returns what is known of the lines before a line that isn't read, by `rule`: nothing that was
/// not printed, if each torn run is printed.
fn known_before(rule: LogRule) -> Option<&'static str> {
    match rule {
        LogRule::Halves => Some("no line before it tears a picture"),
        LogRule::Moments => Some("no run that ended before it is torn"),
        LogRule::AllMoments => None,
    }
}

/// Prints on standard error why the log of which `kept` has the last bytes isn't judged by `rule`:
/// its line `number` with what is wrong there, and what is known of the lines before it. With a
/// `base`, its lines `wrote` have addresses of the processor.
fn complain_of_log<R>(
    rt: &HostRuntime,
    kept: &Kept<R>,
    number: usize,
    rule: LogRule,
    base: Option<u16>,
) {
    let fault = TextFault::Syntax(number);
    let Some(unread) = UnreadLog::of(kept.bytes(), number, base) else {
        return complain(rt, ToolFault::Text(fault));
    };
    let line = unread.line();
    let _ = eprintln!(rt; "dvg: {fault}: {line}\ndvg: {unread}");
    if kept.has_ended() && unread.is_unended() {
        let _ = eprintln!(rt; "dvg: {UNENDED}");
    }
    let before = number.saturating_sub(1);
    match known_before(rule) {
        Some(known) if before > 0 => {
            let _ = eprintln!(rt; "dvg: {known}; for the counts, judge only head -n {before}");
        }
        _ => {}
    }
}

/// Prints on standard error what came of a job, `answer`, where there is something to print.
fn say(rt: &HostRuntime, answer: &Answer) {
    match answer {
        Ok(Done::Refused(refusal)) => {
            let _ = eprintln!(rt; "dvg: {refusal}");
        }
        Ok(Done::Undrawn(undrawn)) => {
            let _ = eprintln!(rt; "dvg: {undrawn}");
        }
        Ok(_) => {}
        Err(fault) => complain(rt, *fault),
    }
}

/// Does `job`, and prints what came of it. Returns the exit status.
fn do_job(rt: &HostRuntime, job: Job) -> u8 {
    let (answer, _) = run(rt, job, rt.stdin());
    say(rt, &answer);
    status(&answer)
}

/// Does `job`, which judges a log by `rule`, and prints what came of it. With a `base`, lines
/// `wrote` have addresses of the processor. Returns the exit status.
fn do_torn(rt: &HostRuntime, job: Job, rule: LogRule, base: Option<u16>) -> u8 {
    let (answer, kept) = run(rt, job, Kept::new(rt.alloc(), rt.stdin()));
    match &answer {
        Err(ToolFault::Text(TextFault::Syntax(number))) => {
            complain_of_log(rt, &kept, *number, rule, base);
        }
        _ => say(rt, &answer),
    }
    status(&answer)
}

/// Does `job`, which reads a sketch, and prints what came of it. The text of the sketch is kept to
/// explain a fault. Returns the exit status.
fn do_sketch(rt: &HostRuntime, job: Job) -> u8 {
    let mut input = Watched::new(rt.stdin());
    let text = match read_up_to(rt.alloc(), &mut input, MOST_TEXT_BYTES) {
        Ok(text) => text,
        Err(fault) => {
            complain(rt, fault);
            return status::<Global>(&Err(fault));
        }
    };
    let (answer, _) = run(rt, job, text.as_slice());
    match &answer {
        Err(ToolFault::Text(fault)) => complain_of_sketch(rt, text.as_slice(), *fault),
        _ => say(rt, &answer),
    }
    status(&answer)
}

/// Does what `arguments` ask for. Returns the exit status.
fn do_arguments(rt: &HostRuntime, arguments: &[String]) -> u8 {
    match asked(rt, arguments) {
        Ok(job @ (Job::Render { .. } | Job::RenderCheck | Job::Lay { .. })) => do_sketch(rt, job),
        Ok(job @ Job::Torn { rule, base }) => do_torn(rt, job, rule, base),
        Ok(job) => do_job(rt, job),
        Err(error) => answer_arguments(rt, arguments, &error),
    }
}

/// Prints why the arguments can't be read, by `error`. Returns the exit status.
fn refuse_arguments(rt: &HostRuntime, error: &io::Error) -> u8 {
    if error.kind() == io::ErrorKind::OutOfMemory {
        complain(rt, ToolFault::Memory);
        return status::<Global>(&Err(ToolFault::Memory));
    }
    let _ = eprintln!(rt; "dvg: the words are no text");
    MISUSE
}

fn main() -> ExitCode {
    let rt = HostRuntime::new();
    ExitCode::from(match arguments(&rt) {
        Ok(arguments) => do_arguments(&rt, arguments.as_slice()),
        Err(error) => refuse_arguments(&rt, &error),
    })
}
