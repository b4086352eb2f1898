//! Runs random images of vector memory on the program and on its plain twin, and compares what they
//! write. See tests/dumps.
//!
//! `dumps COUNT SEED PROGRAM TWIN`

use std::fmt;
use std::io::{self, Write};
use std::ops::AddAssign;
use std::path::Path;
use std::process::ExitCode;
use std::sync::{Mutex, PoisonError};
use twin::storm::drafts::{ROM_END, Random};
use twin::storm::programs::{Answer, Report, ask, for_each_seed};

/// The words of the RAM.
const RAM_WORDS: usize = 0x400;

/// A random image: words at the addresses 000 to BFF, of which the ROM has the last.
struct Image {
    words: Vec<u16>,
    first_rom_word: usize,
}

/// What stands in a place of an image.
#[derive(Clone, Copy)]
enum Kind {
    Vector,
    Short,
    Labs,
    Jump,
    Call,
    Return,
    Halt,
    Any,
}

impl Image {
    fn random(seed: u64) -> Image {
        let mut random = Random::new(seed);
        let first_rom_word = if random.below(2) == 0 { 0x800 } else { 0x400 };
        let mut image = Image {
            words: vec![0; ROM_END],
            first_rom_word,
        };
        // The kinds that this image prefers, so that some draw long, some call deep and some go
        // round.
        let preferred = image.kind(&mut random);
        let density = 1 + random.below(8);
        let mut place = 0;
        while place < ROM_END {
            let kind = if random.below(8) < density {
                image.kind(&mut random)
            } else {
                preferred
            };
            place = image.put(place, kind, &mut random);
        }
        if random.below(4) != 0 {
            image.words[0] = 0xE000 | image.target(&mut random);
        }
        image
    }

    fn kind(&self, random: &mut Random) -> Kind {
        let kinds = [
            Kind::Vector,
            Kind::Vector,
            Kind::Vector,
            Kind::Short,
            Kind::Short,
            Kind::Labs,
            Kind::Jump,
            Kind::Call,
            Kind::Call,
            Kind::Return,
            Kind::Return,
            Kind::Halt,
            Kind::Any,
        ];
        kinds[random.below(kinds.len())]
    }

    /// An address, mostly one of memory.
    fn target(&self, random: &mut Random) -> u16 {
        let address = match random.below(20) {
            0 => random.below(0x1000),
            1 => ROM_END - 1 - random.below(4),
            2..8 => self.first_rom_word + random.below(0x40),
            8..12 => 0x200 + random.below(0x40),
            _ => random.below(0x40),
        };
        address as u16
    }

    fn any_word(random: &mut Random) -> u16 {
        random.below(0x10000) as u16
    }

    /// A word whose sign bits and free bits are often those of a spelling that isn't canonical.
    fn first_of_vector(random: &mut Random) -> u16 {
        let opcode = random.below(10) as u16;
        let magnitude = [0, 1, 5, 512, 1023][random.below(5)];
        let free = u16::from(random.below(16) == 0) << 11;
        opcode << 12 | free | (random.below(2) as u16) << 10 | magnitude
    }

    /// Puts words at a place and answers the place after them.
    fn put(&mut self, place: usize, kind: Kind, random: &mut Random) -> usize {
        let free = random.below(0x1000) as u16 * u16::from(random.below(8) == 0);
        let first = match kind {
            Kind::Vector => Image::first_of_vector(random),
            Kind::Labs => 0xA000 | random.below(0x1000) as u16,
            Kind::Short => 0xF000 | random.below(0x1000) as u16,
            Kind::Jump => 0xE000 | self.target(random),
            Kind::Call => 0xC000 | self.target(random),
            Kind::Return => 0xD000 | free,
            Kind::Halt => 0xB000 | free,
            Kind::Any => Image::any_word(random),
        };
        self.words[place] = first;
        let wants_second = matches!(kind, Kind::Vector | Kind::Labs);
        if !wants_second || place + 1 == ROM_END {
            return place + 1;
        }
        self.words[place + 1] = match kind {
            Kind::Labs => (random.below(16) as u16) << 12 | random.below(0x1000) as u16,
            _ => Image::first_of_vector(random) ^ (random.below(16) as u16) << 12,
        };
        place + 2
    }

    /// The bytes of the RAM and of the ROM; now and then one too few or one too many.
    fn bytes(&self, seed: u64) -> Vec<u8> {
        let rom = &self.words[self.first_rom_word..];
        let words = self.words[..RAM_WORDS].iter().chain(rom);
        let mut bytes: Vec<u8> = words.flat_map(|word| word.to_le_bytes()).collect();
        match seed % 64 {
            0 => bytes.push(0),
            1 => bytes.truncate(bytes.len() - 1),
            _ => {}
        }
        bytes
    }
}

/// How many runs ended in each way, and how many lines of instructions were written.
#[derive(Clone, Copy, Default)]
struct Counts {
    pictures: u64,
    strokes: u64,
    broke: [u64; 3],
    endless: u64,
    refused: u64,
    instructions: u64,
    stars: u64,
    moves: u64,
}

impl AddAssign for Counts {
    fn add_assign(&mut self, other: Counts) {
        self.pictures += other.pictures;
        self.strokes += other.strokes;
        for (count, more) in self.broke.iter_mut().zip(other.broke) {
            *count += more;
        }
        self.endless += other.endless;
        self.refused += other.refused;
        self.instructions += other.instructions;
        self.stars += other.stars;
        self.moves += other.moves;
    }
}

impl fmt::Display for Counts {
    fn fmt(&self, f: &mut fmt::Formatter) -> fmt::Result {
        let [over, under, hole] = self.broke;
        write!(
            f,
            "{} pictures of {} strokes; {over} fifth calls, {under} returns without a call, \
             {hole} holes; {} endless; {} of a wrong size; {} instructions told, {} of them not \
             canonical; {} moves",
            self.pictures,
            self.strokes,
            self.endless,
            self.refused,
            self.instructions,
            self.stars,
            self.moves
        )
    }
}

/// How many lines an answer has.
fn lines(answer: &Answer) -> u64 {
    answer.output.iter().filter(|byte| **byte == b'\n').count() as u64
}

/// Counts what an answer with all instructions shows.
fn count(answer: &Answer) -> Counts {
    let text = String::from_utf8_lossy(&answer.output);
    let mut counts = Counts::default();
    for line in text.lines() {
        let parts: Vec<&str> = line.split(' ').collect();
        match parts[..] {
            ["picture", _, strokes] => {
                counts.pictures += 1;
                counts.strokes += strokes.parse().unwrap_or(0);
            }
            ["broke", _, "1"] => counts.broke[0] += 1,
            ["broke", _, "2"] => counts.broke[1] += 1,
            ["broke", _, _] => counts.broke[2] += 1,
            ["endless"] => counts.endless += 1,
            _ if parts.contains(&"at") => {
                counts.instructions += 1;
                counts.stars += u64::from(parts.contains(&"*"));
            }
            _ => {}
        }
    }
    counts.refused += u64::from(!answer.error.is_empty());
    counts
}

/// What is wrong with the answers to an image, and what it came to.
fn compare(program: &Path, twin: &Path, image: &[u8]) -> io::Result<(Counts, Vec<String>)> {
    let mut faults = Vec::new();
    let short = ask(program, &["picture"], image)?;
    if short != ask(twin, &["picture"], image)? {
        faults.push(String::from("the twin answers `picture` otherwise"));
    }
    let long = ask(program, &["picture", "--all"], image)?;
    if long != ask(twin, &["picture", "--all"], image)? {
        faults.push(String::from("the twin answers `picture --all` otherwise"));
    }
    if !long.output.ends_with(&short.output) || long.status != short.status {
        faults.push(String::from(
            "`picture --all` ends otherwise than `picture`",
        ));
    }
    let moves = ask(program, &["picture", "--moves"], image)?;
    if moves != ask(twin, &["picture", "--moves"], image)? {
        faults.push(String::from("the twin answers `picture --moves` otherwise"));
    }
    if !moves.output.ends_with(&short.output) || moves.status != short.status {
        faults.push(String::from(
            "`picture --moves` ends otherwise than `picture`",
        ));
    }
    let counted = ask(program, &["picture", "--moves", "--units"], image)?;
    if counted != ask(twin, &["picture", "--moves", "--units"], image)? {
        faults.push(String::from(
            "the twin answers `picture --moves --units` otherwise",
        ));
    }
    let units = ask(program, &["picture", "--units"], image)?;
    if !counted.output.ends_with(&units.output) || units.status != short.status {
        faults.push(String::from(
            "`picture --moves --units` ends otherwise than `picture --units`",
        ));
    }
    let mut counts = count(&long);
    counts.moves = lines(&moves) - lines(&short);
    Ok((counts, faults))
}

/// Runs images on all processors, each as soon as one is free.
fn run(images: u64, seed: u64, program: &Path, twin: &Path) -> io::Result<Report<Counts>> {
    let report = Mutex::new(Report::default());
    for_each_seed(images, seed, |seed| {
        let image = Image::random(seed).bytes(seed);
        let (counts, faults) = compare(program, twin, &image)?;
        let mut report = report.lock().unwrap_or_else(PoisonError::into_inner);
        report.add(&format!("the image of seed {seed}"), counts, &faults);
        Ok(())
    })?;
    Ok(report.into_inner().unwrap_or_else(PoisonError::into_inner))
}

/// Writes the image of a seed on standard output.
fn show(seed: u64) -> ExitCode {
    let image = Image::random(seed).bytes(seed);
    match io::stdout().write_all(&image) {
        Ok(()) => ExitCode::SUCCESS,
        Err(_) => ExitCode::FAILURE,
    }
}

fn main() -> ExitCode {
    let arguments: Vec<String> = std::env::args().collect();
    let numbers: Vec<u64> = arguments
        .iter()
        .skip(1)
        .take(2)
        .filter_map(|argument| argument.parse().ok())
        .collect();
    match (numbers.as_slice(), &arguments[..]) {
        ([seed], [_, _]) => show(*seed),
        ([images, seed], [_, _, _, program, twin]) => {
            match run(*images, *seed, Path::new(program), Path::new(twin)) {
                Ok(report) => {
                    println!("{}", report.counts);
                    println!("{} passed, {} failed", report.passed, report.failed);
                    ExitCode::from(u8::from(report.failed != 0))
                }
                Err(fault) => {
                    println!("FAILED: a program could not be asked: {fault}");
                    println!("0 passed, 1 failed");
                    ExitCode::FAILURE
                }
            }
        }
        _ => {
            eprintln!("usage: dumps COUNT SEED PROGRAM TWIN, or dumps SEED");
            ExitCode::from(64)
        }
    }
}
