//! The plain twin of `dvg`: the same program in plain Rust, with nothing proved, to compare speeds
//! with.
//!
//! It has the same limits, texts and statuses, as tests/program sees. The two differ only
//! - where standard input or standard output was closed by the caller, as Rust's runtime opens
//!   /dev/null in its place,
//! - for arguments that ask for help or for nothing the program can do: those it answers with one
//!   line and the status 64, and
//! - where a line of a sketch is at fault: it doesn't say what is expected there.

use std::ffi::OsString;
use std::fmt;
use std::fs::File;
use std::io::{self, BufWriter, Read, Write};
use std::os::fd::AsFd;
use std::process::ExitCode;
use twin::explain::explain;
use twin::frames::check;
use twin::lines::Line;
use twin::listing::{ListFault, write_list};
use twin::made::Made;
use twin::memory::{BYTES, Banked, Flat, ROM_END};
use twin::options::Options;
use twin::picture::{Form, is_image, write_picture, write_picture_svg};
use twin::shows::write_entries;
use twin::sketch::read_sketch;
use twin::svg::{Show, write_svgs};
use twin::texts::{MOST_TEXT_BYTES, TextFault, hex, read_draft};
use twin::torn::{LogFault, Torn, judge_moments, judge_text};
use twin::traces::read_trace;
use twin::world::{Entry, run};

/// The most bytes that `list` takes as its input.
const MOST_LIST_BYTES: usize = 8192;

/// The bytes of a ROM, which `rom` takes as its input.
const ROM_BYTES: usize = 2048;

/// The bytes of the larger ROM.
const LARGE_ROM_BYTES: usize = 4096;

/// The bytes of an image of vector memory with the larger ROM, the most that `picture` takes as its
/// input.
const MOST_IMAGE_BYTES: usize = 6144;

/// How many bytes of a ROM stand in a line.
const ROM_LINE_BYTES: usize = 16;

/// The exit status of arguments that ask for nothing the program can do.
const MISUSE: u8 = 64;

/// Why a job could not be finished.
enum Fault {
    TooLong,
    OddLength,
    Cut(usize),
    RomSize,
    DumpSize(usize),
    LongDump,
    Syntax(usize),
    Full(usize),
    Many(usize),
    Unended,
    /// A sketch is at fault, or a frame of it is refused, and this is said of it.
    Refused(String),
    Reader,
    Writer,
}

impl From<ListFault> for Fault {
    fn from(fault: ListFault) -> Fault {
        match fault {
            ListFault::Cut(place) => Fault::Cut(place),
            ListFault::Writer => Fault::Writer,
        }
    }
}

impl From<TextFault> for Fault {
    fn from(fault: TextFault) -> Fault {
        match fault {
            TextFault::TooLong => Fault::TooLong,
            TextFault::Syntax(line) => Fault::Syntax(line),
            TextFault::Full(line) => Fault::Full(line),
            TextFault::Many(line) => Fault::Many(line),
            TextFault::Unended => Fault::Unended,
        }
    }
}

impl From<LogFault> for Fault {
    fn from(fault: LogFault) -> Fault {
        match fault {
            LogFault::Syntax(line, text) => {
                Fault::Refused(format!("{}: {text}", Fault::Syntax(line)))
            }
            LogFault::Reader => Fault::Reader,
            LogFault::Writer => Fault::Writer,
        }
    }
}

impl Fault {
    /// The exit status: 1 for a fault of the input, 2 for a failing stream.
    fn status(&self) -> u8 {
        match self {
            Fault::Reader | Fault::Writer => 2,
            _ => 1,
        }
    }
}

impl fmt::Display for Fault {
    fn fmt(&self, f: &mut fmt::Formatter) -> fmt::Result {
        match self {
            Fault::TooLong => write!(f, "too long"),
            Fault::OddLength => write!(f, "odd length"),
            Fault::Cut(place) => write!(f, "cut at {place:03X}"),
            Fault::RomSize => write!(f, "rom size"),
            Fault::DumpSize(bytes) => {
                write!(f, "dump size {bytes}: wanted are 4096 or 6144 bytes")
            }
            Fault::LongDump => {
                write!(f, "dump size 6145 or more: wanted are 4096 or 6144 bytes")
            }
            Fault::Syntax(line) => write!(f, "syntax at line {line}"),
            Fault::Full(line) => write!(f, "full at line {line}"),
            Fault::Many(line) => write!(f, "too many events at line {line}"),
            Fault::Unended => write!(f, "offer without end"),
            Fault::Refused(text) => f.write_str(text),
            Fault::Reader => write!(f, "read failed"),
            Fault::Writer => write!(f, "write failed"),
        }
    }
}

/// Reads until the buffer is full or the input ends, and answers how many bytes that was.
fn read_up_to(reader: &mut impl Read, buffer: &mut [u8]) -> io::Result<usize> {
    let mut length = 0;
    while length < buffer.len() {
        match reader.read(&mut buffer[length..])? {
            0 => break,
            count => length += count,
        }
    }
    Ok(length)
}

/// Writes the line of the map of the larger ROM, and a line for each eight words.
fn write_rom(bytes: &[u8], writer: &mut impl Write) -> Result<(), Fault> {
    if bytes.len() == LARGE_ROM_BYTES {
        writer.write_all(b"map 4096\n").map_err(|_| Fault::Writer)?;
    }
    let first = ROM_END - bytes.len() / 2;
    for (row, part) in bytes.chunks(ROM_LINE_BYTES).enumerate() {
        let mut line = Line::new();
        line.text(b"rom ");
        line.hex::<3>(first + row * ROM_LINE_BYTES / 2);
        for word in part.as_chunks().0 {
            line.push(b' ');
            line.hex::<4>(usize::from(u16::from_le_bytes(*word)));
        }
        line.push(b'\n');
        line.write(writer).map_err(|_| Fault::Writer)?;
    }
    Ok(())
}

// Standard input and standard output are used as files: the handles of `std::io` have buffers of
// their own, which would only copy once more.

/// Standard input.
fn input() -> Result<File, Fault> {
    let input = io::stdin()
        .as_fd()
        .try_clone_to_owned()
        .map_err(|_| Fault::Reader)?;
    Ok(File::from(input))
}

/// Reads what standard input has, up to the buffer's length, and answers how many bytes that was.
fn read_input(buffer: &mut [u8]) -> Result<usize, Fault> {
    read_up_to(&mut input()?, buffer).map_err(|_| Fault::Reader)
}

/// Standard output.
fn output() -> Result<BufWriter<File>, Fault> {
    let output = io::stdout()
        .as_fd()
        .try_clone_to_owned()
        .map_err(|_| Fault::Writer)?;
    Ok(BufWriter::new(File::from(output)))
}

/// Lists the words that standard input holds on standard output. The first stands there.
fn list(at: usize) -> Result<ExitCode, Fault> {
    let mut buffer = [0; MOST_LIST_BYTES + 1];
    let length = read_input(&mut buffer)?;
    if length > MOST_LIST_BYTES {
        return Err(Fault::TooLong);
    }
    if length % 2 == 1 {
        return Err(Fault::OddLength);
    }
    let mut writer = output()?;
    let listed = write_list(&buffer[..length], at, &mut writer);
    writer.flush().map_err(|_| Fault::Writer)?;
    listed?;
    Ok(ExitCode::SUCCESS)
}

/// Writes the ROM that standard input holds as text on standard output.
fn rom() -> Result<(), Fault> {
    let mut buffer = [0; LARGE_ROM_BYTES + 1];
    let length = read_input(&mut buffer)?;
    if length != ROM_BYTES && length != LARGE_ROM_BYTES {
        return Err(Fault::RomSize);
    }
    let mut writer = output()?;
    write_rom(&buffer[..length], &mut writer)?;
    writer.flush().map_err(|_| Fault::Writer)
}

/// The image of vector memory that standard input holds.
fn read_image() -> Result<Vec<u8>, Fault> {
    let mut buffer = vec![0; MOST_IMAGE_BYTES + 1];
    let length = read_input(&mut buffer)?;
    if length > MOST_IMAGE_BYTES {
        return Err(Fault::LongDump);
    }
    if !is_image(length) {
        return Err(Fault::DumpSize(length));
    }
    buffer.truncate(length);
    Ok(buffer)
}

/// Writes what the image of vector memory that standard input holds draws, or why that has no end.
fn picture(form: Form) -> Result<ExitCode, Fault> {
    let image = read_image()?;
    let mut writer = output()?;
    let drew = write_picture(&image, form, &mut writer)
        .and_then(|drew| writer.flush().map(|()| drew))
        .map_err(|_| Fault::Writer)?;
    Ok(status_of(drew))
}

/// Writes what the image of vector memory that standard input holds draws as SVG.
fn picture_svg(percent: u32) -> Result<ExitCode, Fault> {
    let image = read_image()?;
    let mut writer = output()?;
    let reason = write_picture_svg(&image, percent, &mut writer)
        .and_then(|reason| writer.flush().map(|()| reason))
        .map_err(|_| Fault::Writer)?;
    if let Some(reason) = &reason {
        complain(format_args!("dvg: {reason}"));
    }
    Ok(status_of(reason.is_none()))
}

/// The status of what was asked about, by whether it is good.
fn status_of(good: bool) -> ExitCode {
    ExitCode::from(u8::from(!good))
}

/// The text that standard input holds, or a beginning that is one byte too long.
fn read_text() -> Result<Vec<u8>, Fault> {
    let mut text = Vec::new();
    input()?
        .take(MOST_TEXT_BYTES as u64 + 1)
        .read_to_end(&mut text)
        .map_err(|_| Fault::Reader)?;
    Ok(text)
}

/// Checks the draft that standard input holds as text, and writes what is said of it on standard
/// output: with its bound where that is asked for.
fn check_text(bound: bool) -> Result<ExitCode, Fault> {
    let (ops, rom) = read_draft(&read_text()?)?;
    let mut writer = output()?;
    let (line, status) = match check(&ops, &rom) {
        Ok(frame) if bound => (
            format!("ok {} words {} fetches\n", frame.words, frame.bound),
            ExitCode::SUCCESS,
        ),
        Ok(frame) => (format!("ok {} words\n", frame.words), ExitCode::SUCCESS),
        Err(fault) => (format!("fault {fault}\n"), ExitCode::from(1)),
    };
    writer
        .write_all(line.as_bytes())
        .and_then(|()| writer.flush())
        .map_err(|_| Fault::Writer)?;
    Ok(status)
}

/// What is written of a trace.
enum Shown {
    Pictures,
    All,
    Svg(Show),
}

/// Writes the pictures of all runs that finished as SVG.
fn write_pictures(entries: &[Entry], show: Show, writer: &mut impl Write) -> io::Result<()> {
    let pictures: Vec<_> = entries
        .iter()
        .filter_map(|entry| match entry {
            Entry::Done(_, _, strokes) => Some(strokes),
            _ => None,
        })
        .collect();
    write_svgs(pictures.into_iter(), show, writer)
}

/// Plays the trace that standard input holds as text, and writes of it what is asked for.
fn play(banked: bool, shown: Shown) -> Result<ExitCode, Fault> {
    let (trace, rom) = read_trace(&read_text()?)?;
    let image = [0; BYTES];
    let entries = if banked {
        run::<Banked>(&rom, &image, &trace)
    } else {
        run::<Flat>(&rom, &image, &trace)
    };
    let mut writer = output()?;
    match shown {
        Shown::Pictures => write_entries(&entries, false, &mut writer),
        Shown::All => write_entries(&entries, true, &mut writer),
        Shown::Svg(show) => write_pictures(&entries, show, &mut writer),
    }
    .and_then(|()| writer.flush())
    .map_err(|_| Fault::Writer)?;
    Ok(ExitCode::SUCCESS)
}

/// Makes that of the sketch that standard input holds.
fn make(made: &Made) -> Result<ExitCode, Fault> {
    let text = read_text()?;
    let mut small = text.clone();
    let sketch = read_sketch(&mut small).map_err(|fault| Fault::Refused(explain(fault, &text)))?;
    made.refuse(&sketch)
        .map_err(|refusal| Fault::Refused(refusal.to_string()))?;
    let mut writer = output()?;
    let good = made
        .write(&sketch, &mut writer)
        .and_then(|good| writer.flush().map(|()| good))
        .map_err(|_| Fault::Writer)?;
    Ok(status_of(good))
}

/// Judges the log that standard input holds as text, and writes what is said of it on standard
/// output.
fn torn(base: Option<u16>) -> Result<ExitCode, Fault> {
    let verdict = judge_text(&mut input()?, base)?;
    let undrawn = verdict.seen.drew == 0;
    let found = match &verdict.torn {
        Some(Torn {
            line,
            address,
            byte,
        }) => {
            format!("torn at line {line}: wrote {address:03X} {byte:02X}\nso far")
        }
        None if undrawn => "no run drew a half".to_string(),
        None => "not torn".to_string(),
    };
    let seen = &verdict.seen;
    let (runs, drew) = (seen.runs, seen.drew);
    let (halted, writes) = (seen.halted, seen.writes);
    let text =
        format!("{found}: {runs} runs, {drew} drew a half, {halted} halted, {writes} writes\n");
    write_said(&text, verdict.torn.is_none() && !undrawn)
}

/// Does the same by moments, and tells the first torn run or all.
fn torn_moments(base: Option<u16>, all: bool) -> Result<ExitCode, Fault> {
    let mut writer = output()?;
    let answer = judge_moments(&mut input()?, &mut writer, base, all);
    writer.flush().map_err(|_| Fault::Writer)?;
    Ok(status_of(answer?))
}

/// Writes what is said of a log.
fn write_said(text: &str, is_whole: bool) -> Result<ExitCode, Fault> {
    let mut writer = output()?;
    writer
        .write_all(text.as_bytes())
        .and_then(|()| writer.flush())
        .map_err(|_| Fault::Writer)?;
    Ok(status_of(is_whole))
}

/// Writes a line on standard error. The status is the same where it can't be written, and
/// `eprintln!` would panic.
fn complain(line: fmt::Arguments) {
    let _ = writeln!(io::stderr(), "{line}");
}

/// What the options `--scale` and `--rate` tell.
fn show_of(options: &Options) -> Option<Show> {
    Some(Show {
        percent: options.number("--scale", 10..=400, 100)?,
        rate: options.number("--rate", 1..=60, 30)?,
    })
}

/// What `list` is asked for.
fn list_by(arguments: &[String]) -> Option<Result<ExitCode, Fault>> {
    let options = Options::read(arguments, &[], &["--at"])?;
    let at = match options.value("--at") {
        Some(digits) => hex(digits.as_bytes(), 3)?,
        None => 0,
    };
    Some(list(usize::from(at)))
}

/// What `picture` is asked for. How large it is shown is asked of an SVG alone.
fn picture_by(arguments: &[String]) -> Option<Result<ExitCode, Fault>> {
    let alone = ["--all", "--moves", "--units", "--svg"];
    let options = Options::read(arguments, &alone, &["--scale"])?;
    let show = show_of(&options)?;
    let form = Form {
        all: options.has("--all"),
        moves: options.has("--moves"),
        units: options.has("--units"),
    };
    let counted = form.moves || form.units;
    match (options.has("--svg"), form.all) {
        (true, true) => None,
        (true, _) | (_, true) if counted => None,
        (true, false) => Some(picture_svg(show.percent)),
        (false, _) if options.has("--scale") => None,
        (false, _) => Some(picture(form)),
    }
}

/// What `play` is asked for.
fn play_by(arguments: &[String]) -> Option<Result<ExitCode, Fault>> {
    let alone = ["--all", "--banked", "--svg"];
    let options = Options::read(arguments, &alone, &["--scale", "--rate"])?;
    let show = show_of(&options)?;
    let shown = match (options.has("--svg"), options.has("--all")) {
        (true, false) => Shown::Svg(show),
        (true, true) => return None,
        (false, _) if options.count(&["--scale", "--rate"]) > 0 => return None,
        (false, true) => Shown::All,
        (false, false) => Shown::Pictures,
    };
    Some(play(options.has("--banked"), shown))
}

/// What `render` is asked for.
fn render_by(arguments: &[String]) -> Option<Result<ExitCode, Fault>> {
    let options = Options::read(arguments, &["--check"], &["--scale", "--rate"])?;
    let show = show_of(&options)?;
    Some(make(&if options.has("--check") {
        Made::Checks
    } else {
        Made::Svg(show)
    }))
}

/// What `lay` is asked for.
fn lay_by(arguments: &[String]) -> Option<Result<ExitCode, Fault>> {
    let alone = ["--table", "--rom", "--equates", "--draft"];
    let options = Options::read(arguments, &alone, &["--half"])?;
    if options.count(&["--half", "--table", "--rom", "--equates", "--draft"]) > 1 {
        return None;
    }
    let made = if options.has("--table") {
        Made::Table
    } else if options.has("--rom") {
        Made::Rom
    } else if options.has("--equates") {
        Made::Equates
    } else if options.has("--draft") {
        Made::Drafts
    } else {
        Made::Bytes(match options.value("--half") {
            None | Some("0") => 0,
            Some("1") => 1,
            Some(_) => return None,
        })
    };
    Some(make(&made))
}

/// What `torn` is asked for.
fn torn_by(arguments: &[String]) -> Option<Result<ExitCode, Fault>> {
    let options = Options::read(arguments, &["--moments", "--all"], &["--base"])?;
    let base = match options.value("--base") {
        None => None,
        Some(digits) => Some(hex(digits.as_bytes(), 4)?),
    };
    let (moments, all) = (options.has("--moments"), options.has("--all"));
    match (moments, all) {
        (false, true) => None,
        (false, false) => Some(torn(base)),
        (true, all) => Some(torn_moments(base, all)),
    }
}

/// Does what the arguments ask for. None where they ask for nothing the program can do.
fn do_job(arguments: &[String]) -> Option<Result<ExitCode, Fault>> {
    let (command, options) = arguments.split_first()?;
    match command.as_str() {
        "list" => list_by(options),
        "rom" if options.is_empty() => Some(rom().map(|()| ExitCode::SUCCESS)),
        "check" if options.is_empty() => Some(check_text(false)),
        "check" if options == ["--bound"] => Some(check_text(true)),
        "picture" => picture_by(options),
        "torn" => torn_by(options),
        "play" => play_by(options),
        "render" => render_by(options),
        "lay" => lay_by(options),
        _ => None,
    }
}

fn main() -> ExitCode {
    let arguments: Result<Vec<String>, _> = std::env::args_os()
        .skip(1)
        .map(OsString::into_string)
        .collect();
    let Ok(arguments) = arguments else {
        complain(format_args!("dvg: the words are no text"));
        return ExitCode::from(MISUSE);
    };
    let Some(done) = do_job(&arguments) else {
        complain(format_args!(
            "usage: dvg list [--at HHH]|rom|check [--bound]|play [--all] [--banked]|\
             torn [--moments [--all]] [--base HHHH]|\
             picture [--all]|render [--check]|lay [--half 0|1]"
        ));
        return ExitCode::from(MISUSE);
    };
    match done {
        Ok(status) => status,
        Err(fault) => {
            complain(format_args!("dvg: {fault}"));
            ExitCode::from(fault.status())
        }
    }
}
