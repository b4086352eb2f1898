//! Makes random sketches, good ones and ones with mistakes, and judges what comes of them. See
//! tests/sketches.
//!
//! `sketches COUNT SEED PROGRAM`

use std::fmt;
use std::io::{self, Write};
use std::ops::AddAssign;
use std::path::Path;
use std::process::ExitCode;
use std::sync::{Mutex, PoisonError};
use twin::explain::{explain, without_expected};
use twin::frames::check;
use twin::made::Made;
use twin::sketch::read_sketch;
use twin::storm::programs::{Answer, Report, ask, for_each_seed};
use twin::storm::sketches::{self, random_sketch, with_mistake};
use twin::svg::Show;

/// What is asked of each text, and what that is of the twin.
const QUESTIONS: [(&[&str], Made); 8] = [
    (&["render", "--check"], Made::Checks),
    (&["lay"], Made::Bytes(0)),
    (&["lay", "--half", "1"], Made::Bytes(1)),
    (&["lay", "--table"], Made::Table),
    (&["lay", "--rom"], Made::Rom),
    (EQUATES, Made::Equates),
    (DRAFTS, Made::Drafts),
    (&["render"], Made::Svg(SHOW)),
];
const EQUATES: &[&str] = &["lay", "--equates"];
const DRAFTS: &[&str] = &["lay", "--draft"];

/// How pictures are shown where nothing is said of it.
const SHOW: Show = Show {
    percent: 100,
    rate: 30,
};

/// The most words that the pictures of a sketch which is drawn may fetch.
const MOST_FETCHES: u64 = 1_000_000;

/// The names of faults, by which they are counted.
const FAULTS: [&str; 7] = [
    "too long",
    "syntax",
    "name given again",
    "full",
    "out of rom",
    "overlap",
    "unknown name",
];

/// What came of sketches.
#[derive(Clone, Copy, Default)]
struct Counts {
    faults: [u64; 7],
    refused: u64,
    good: u64,
    frames: u64,
    rom_names: u64,
}

impl AddAssign for Counts {
    fn add_assign(&mut self, other: Counts) {
        for (count, more) in self.faults.iter_mut().zip(other.faults) {
            *count += more;
        }
        self.refused += other.refused;
        self.good += other.good;
        self.frames += other.frames;
        self.rom_names += other.rom_names;
    }
}

impl fmt::Display for Counts {
    fn fmt(&self, f: &mut fmt::Formatter) -> fmt::Result {
        write!(
            f,
            "{} good sketches of {} frames, and {} names of their ROMs; {} sketches refused;",
            self.good, self.frames, self.rom_names, self.refused
        )?;
        for (name, count) in FAULTS.iter().zip(self.faults) {
            write!(f, " {count} {name};")?;
        }
        Ok(())
    }
}

/// What the twin finds in a text.
fn count(text: &[u8]) -> Counts {
    let mut counts = Counts::default();
    let mut small = text.to_vec();
    match read_sketch(&mut small) {
        Err(fault) => {
            let described = fault.to_string();
            for (name, count) in FAULTS.iter().zip(&mut counts.faults) {
                *count += u64::from(described.starts_with(name));
            }
        }
        Ok(sketch) if sketch.check().is_err() => counts.refused += 1,
        Ok(sketch) => {
            counts.good += 1;
            counts.frames += sketch.frames.len() as u64;
            counts.rom_names += sketch.equates.len() as u64;
        }
    }
    counts
}

/// Whether the pictures of a text are soon drawn.
fn is_soon_drawn(text: &[u8]) -> bool {
    let mut text = text.to_vec();
    let Ok(sketch) = read_sketch(&mut text) else {
        return true;
    };
    let bounds = sketch
        .frames
        .iter()
        .filter_map(|frame| check(&frame.ops, &sketch.rom).ok());
    bounds.fold(0u64, |sum, frame| sum.saturating_add(frame.bound)) <= MOST_FETCHES
}

/// What the twin answers.
fn twin_answer(made: &Made, text: &[u8]) -> io::Result<Answer> {
    let mut small = text.to_vec();
    let refused = |reason: String| Answer {
        status: Some(1),
        output: Vec::new(),
        error: format!("dvg: {reason}\n").into_bytes(),
    };
    let sketch = match read_sketch(&mut small) {
        Ok(sketch) => sketch,
        Err(fault) => return Ok(refused(explain(fault, text))),
    };
    if let Err(refusal) = made.refuse(&sketch) {
        return Ok(refused(refusal.to_string()));
    }
    let mut output = Vec::new();
    let good = made.write(&sketch, &mut output)?;
    Ok(Answer {
        status: Some(i32::from(!good)),
        output,
        error: Vec::new(),
    })
}

/// Asks the program about a text, and tells where the twin answers otherwise.
fn compare(program: &Path, text: &[u8], faults: &mut Vec<String>) -> io::Result<()> {
    let soon = is_soon_drawn(text);
    for (arguments, made) in &QUESTIONS {
        if matches!(made, Made::Svg(_)) && !soon {
            continue;
        }
        let mut answer = ask(program, arguments, text)?;
        answer.error = without_expected(&answer.error);
        if answer != twin_answer(made, text)? {
            let arguments = arguments.join(" ");
            faults.push(format!("the program and the twin differ in `{arguments}`"));
        }
    }
    Ok(())
}

/// Asks the program about a good sketch, and tells where it finds other drafts than those of which
/// the sketch was made, or, in one that isn't refused, other names of the ROM.
fn compare_made(program: &Path, made: &sketches::Made, faults: &mut Vec<String>) -> io::Result<()> {
    let drafts = ask(program, DRAFTS, &made.text)?;
    let of_rom = |line: &&[u8]| line.starts_with(b"map ") || line.starts_with(b"rom ");
    let lines = drafts.output.split_inclusive(|byte| *byte == b'\n');
    let found: Vec<u8> = lines.skip_while(of_rom).flatten().copied().collect();
    let several = made.frames.len() != 1;
    let mut wanted = String::new();
    for ops in &made.frames {
        wanted += if several { "offer\n" } else { "" };
        wanted.extend(ops.iter().map(|op| format!("{op}\n")));
        wanted += if several { "end\n" } else { "" };
    }
    if found != wanted.into_bytes() {
        faults.push(String::from("the drafts are others than it was made of"));
    }
    let names: String = made
        .equates
        .iter()
        .map(|(name, address)| format!("{name} = ${address:03X}\n"))
        .collect();
    let equates = ask(program, EQUATES, &made.text)?;
    if equates.status == Some(0) && equates.output != names.into_bytes() {
        faults.push(String::from("the names are others than it was made of"));
    }
    Ok(())
}

/// Judges the sketches of a seed: a good one, and the same with a mistake.
fn judge_seed(seed: u64, program: &Path, report: &Mutex<Report<Counts>>) -> io::Result<()> {
    let made = random_sketch(seed);
    let mistaken = with_mistake(&made.text, seed);
    let mut wrong = Vec::new();
    compare_made(program, &made, &mut wrong)?;
    for (name, text) in [("sketch", &made.text), ("mistaken sketch", &mistaken)] {
        compare(program, text, &mut wrong)?;
        let mut report = report.lock().unwrap_or_else(PoisonError::into_inner);
        report.add(&format!("the {name} of seed {seed}"), count(text), &wrong);
        wrong.clear();
    }
    Ok(())
}

fn run(count: u64, seed: u64, program: &Path) -> io::Result<Report<Counts>> {
    let report = Mutex::new(Report::default());
    for_each_seed(count, seed, |seed| judge_seed(seed, program, &report))?;
    Ok(report.into_inner().unwrap_or_else(PoisonError::into_inner))
}

/// Writes a sketch of a seed on standard output.
fn show(seed: u64, mistaken: bool) -> io::Result<()> {
    let text = random_sketch(seed).text;
    let text = if mistaken {
        with_mistake(&text, seed)
    } else {
        text
    };
    io::stdout().write_all(&text)
}

fn main() -> ExitCode {
    let arguments: Vec<String> = std::env::args().skip(1).collect();
    let arguments: Vec<&str> = arguments.iter().map(String::as_str).collect();
    if let [seed] | [seed, "mistaken"] = arguments[..]
        && let Ok(seed) = seed.parse()
    {
        return ExitCode::from(u8::from(show(seed, arguments.len() == 2).is_err()));
    }
    let (count, seed, program) = match arguments[..] {
        [count, seed, program] => (count, seed, Path::new(program)),
        _ => ("", "", Path::new("")),
    };
    let (Ok(count), Ok(seed)) = (count.parse(), seed.parse()) else {
        eprintln!("usage: sketches COUNT SEED PROGRAM, or sketches SEED [mistaken]");
        return ExitCode::from(64);
    };
    match run(count, seed, program) {
        Ok(report) => {
            println!("{}", report.counts);
            println!("{} passed, {} failed", report.passed, report.failed);
            ExitCode::from(u8::from(report.failed != 0))
        }
        Err(fault) => {
            println!("FAILED: a program could not be asked: {fault}");
            println!("0 passed, 1 failed");
            ExitCode::FAILURE
        }
    }
}
