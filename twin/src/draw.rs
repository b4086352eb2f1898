//! What `render` and `lay` make of a sketch in plain Rust, for the plain twin.

use crate::driver::encode;
use crate::frames::{Frame, FrameFault, Op, Place, Rom, check};
use crate::generator::{Generator, Stroke, Taken};
use crate::sketch::{Sketch, SketchFrame, Source};
use crate::svg::{Show, write_svgs};
use crate::times::Time;
use std::fmt;
use std::io::{self, Write};

/// The first words of the two halves.
const BASES: [u16; 2] = [0x001, 0x201];

/// How many words the RAM has, which begins at word address 0. A call or jump of the ROM to one of
/// them would lead to a word of the frame.
const RAM_WORDS: u16 = 0x400;

/// The most words that the run of a frame fetches which is drawn.
const MOST_DRAWN: u64 = 65_536;

/// Where a refused frame is at fault.
enum Blamed<'a> {
    /// A line by its number, and what it says.
    Line(usize, String),
    /// A word of the ROM, after the name that stands there or before it, if there is one.
    Word(Option<&'a str>, u16),
}

/// Why a sketch isn't drawn, or isn't laid.
pub struct Refusal<'a> {
    blamed: Blamed<'a>,
    reason: String,
}

impl fmt::Display for Refusal<'_> {
    fn fmt(&self, f: &mut fmt::Formatter) -> fmt::Result {
        match &self.blamed {
            Blamed::Line(number, said) if said.is_empty() => write!(f, "line {number}: ")?,
            Blamed::Line(number, said) => write!(f, "line {number}: {said}: ")?,
            Blamed::Word(Some(name), word) => write!(f, "rom {name} word {word:03X}: ")?,
            Blamed::Word(None, word) => write!(f, "word {word:03X}: ")?,
        }
        f.write_str(&self.reason)
    }
}

/// The place that a fault names, if it names one.
fn place_of(fault: &FrameFault) -> Option<Place> {
    match fault {
        FrameFault::Target(i) | FrameFault::RunsOff(i) => Some(Place::Op(*i)),
        FrameFault::OutOfRom(place) | FrameFault::TooDeep(place) | FrameFault::NoCaller(place) => {
            Some(*place)
        }
        FrameFault::Empty | FrameFault::NoLabs | FrameFault::TooLong | FrameFault::Loops => None,
    }
}

/// The name that stands last at a word of the ROM or before it.
fn name_before<'a>(equates: &[(&'a str, u16)], word: u16) -> Option<&'a str> {
    let before = equates.iter().filter(|(_, address)| *address <= word);
    before
        .max_by_key(|(_, address)| *address)
        .map(|(name, _)| *name)
}

impl<'a> Sketch<'a> {
    /// Tells of a fault by lines and names.
    fn refusal(&self, frame: &SketchFrame, fault: FrameFault) -> Refusal<'a> {
        let first_source = frame.sources.first().unwrap_or(&frame.begin);
        let line = |source: &Source| Blamed::Line(source.number, source.said());
        let blamed = match place_of(&fault) {
            Some(Place::Word(word)) => Blamed::Word(name_before(&self.equates, word), word),
            Some(Place::Op(i)) => line(&frame.sources[usize::from(i)]),
            None => line(first_source),
        };
        Refusal {
            blamed,
            reason: format!("fault {fault}"),
        }
    }

    /// Refuses the sketch where one of its frames is refused.
    pub fn check(&self) -> Result<(), Refusal<'a>> {
        self.frames.iter().try_for_each(|frame| {
            check(&frame.ops, &self.rom)
                .map(|_| ())
                .map_err(|fault| self.refusal(frame, fault))
        })
    }

    /// Refuses the sketch where one of its frames is refused, or has a picture that is too long.
    pub fn check_drawn(&self) -> Result<(), Refusal<'a>> {
        self.frames.iter().try_for_each(|frame| {
            let bound = check(&frame.ops, &self.rom)
                .map(|checked| checked.bound)
                .map_err(|fault| self.refusal(frame, fault))?;
            let first = &frame.sources[0];
            if bound <= MOST_DRAWN {
                return Ok(());
            }
            Err(Refusal {
                blamed: Blamed::Line(first.number, first.said()),
                reason: format!("fetches {bound} words, and at most {MOST_DRAWN} are drawn"),
            })
        })
    }

    /// Writes what is said of each frame, and answers whether all are good.
    pub fn write_checks(&self, writer: &mut impl Write) -> io::Result<bool> {
        let mut good = true;
        for frame in &self.frames {
            if let Some(name) = frame.name {
                write!(writer, "{name}: ")?;
            }
            match check(&frame.ops, &self.rom) {
                Ok(Frame { words, bound, .. }) => {
                    write!(writer, "ok {words} words {bound} fetches")?;
                    if bound <= MOST_DRAWN {
                        write!(writer, ", {}", self.run(frame).1)?;
                    }
                    writeln!(writer)?;
                }
                Err(fault) => {
                    good = false;
                    writeln!(writer, "fault {fault}")?;
                }
            }
        }
        Ok(good)
    }

    /// Writes the pictures of the frames, which are good.
    pub fn write_svg(&self, show: Show, writer: &mut impl Write) -> io::Result<()> {
        let pictures = self.frames.iter().map(|frame| self.run(frame).0);
        write_svgs(pictures, show, writer)
    }

    /// What a good frame draws, and the time of that.
    fn run(&self, frame: &SketchFrame) -> (Vec<Stroke>, Time) {
        run(&words(&frame.ops, 0), &self.rom)
    }

    /// Writes the bytes of each frame as it lies in a half.
    pub fn write_bytes(&self, half: usize, writer: &mut impl Write) -> io::Result<()> {
        self.frames
            .iter()
            .try_for_each(|frame| write_words(&words(&frame.ops, half), writer))
    }

    /// Writes the bytes of the ROM.
    pub fn write_rom(&self, writer: &mut impl Write) -> io::Result<()> {
        write_words(&self.rom.words, writer)
    }

    /// Writes the names of the ROM.
    pub fn write_equates(&self, writer: &mut impl Write) -> io::Result<()> {
        self.equates
            .iter()
            .try_for_each(|(name, address)| writeln!(writer, "{name} = ${address:03X}"))
    }

    /// Refuses a call or jump of the ROM that would be one of the frame in a table.
    pub fn check_table(&self) -> Result<(), Refusal<'a>> {
        for frame in &self.frames {
            for (op, source) in frame.ops.iter().zip(&frame.sources) {
                if let Op::CallRom(0..RAM_WORDS) | Op::JumpRom(0..RAM_WORDS) = op {
                    return Err(Refusal {
                        blamed: Blamed::Line(source.number, source.said()),
                        reason: String::from("names no word from 400 on"),
                    });
                }
            }
        }
        Ok(())
    }

    /// Writes the frames as ca65 reads them, as they lie in half 0.
    pub fn write_table(&self, writer: &mut impl Write) -> io::Result<()> {
        for (number, frame) in self.frames.iter().enumerate() {
            match frame.name {
                Some(name) => writeln!(writer, "{name}:")?,
                None => writeln!(writer, "frame_{number}:")?,
            }
            write_frame_table(frame, writer)?;
        }
        Ok(())
    }
}

/// Writes the number of a frame's words, and the words of each operation.
fn write_frame_table(frame: &SketchFrame, writer: &mut impl Write) -> io::Result<()> {
    let places = places(&frame.ops, BASES[0]);
    let count: usize = frame.ops.iter().map(|op| op.words()).sum();
    writeln!(writer, "        .word {count}")?;
    for (op, source) in frame.ops.iter().zip(&frame.sources) {
        let (words, count) = encode(*op, |i| places[usize::from(i)]);
        write!(writer, "        .word ${:04X}", words[0])?;
        if count == 2 {
            write!(writer, ", ${:04X}", words[1])?;
        }
        writeln!(writer, " ; {}", source.said())?;
    }
    Ok(())
}

/// The word address of each operation of a draft that begins there.
fn places(ops: &[Op], base: u16) -> Vec<u16> {
    let mut next = base;
    ops.iter()
        .map(|op| {
            let place = next;
            next += op.words() as u16;
            place
        })
        .collect()
}

/// The words of a good draft as it lies in a half.
fn words(ops: &[Op], half: usize) -> Vec<u16> {
    let places = places(ops, BASES[half]);
    let mut words = Vec::new();
    for op in ops {
        let (encoded, count) = encode(*op, |i| places[usize::from(i)]);
        words.extend(&encoded[..count]);
    }
    words
}

/// Writes words, the low byte of each first.
fn write_words(words: &[u16], writer: &mut impl Write) -> io::Result<()> {
    let bytes: Vec<u8> = words.iter().flat_map(|word| word.to_le_bytes()).collect();
    writer.write_all(&bytes)
}

/// What a good frame of these words, which lies in half 0, draws over a ROM, and the time of that.
fn run(words: &[u16], rom: &Rom) -> (Vec<Stroke>, Time) {
    let mut generator = Generator::new();
    let mut time = Time::default();
    generator.start();
    while let Some(address) = generator.wants() {
        let word = match address {
            0 => Some(0xE000 | BASES[0]),
            _ if rom.has(address) => Some(rom.word(address)),
            _ => words.get(usize::from(address - BASES[0])).copied(),
        };
        // A good frame comes to no hole.
        let Some(word) = word else {
            break;
        };
        let [low, high] = word.to_le_bytes();
        time.take(word);
        generator.take_byte(Some(low));
        if let Taken::Done(strokes) = generator.take_byte(Some(high)) {
            return (strokes, time);
        }
    }
    (Vec::new(), time)
}
