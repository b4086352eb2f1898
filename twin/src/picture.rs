//! One run over an image of vector memory in plain Rust, for the plain twin: what it draws, or why
//! that has no end.

use crate::counters::Counters;
use crate::generator::{Beam, GenFault, Generator, Stroke, Taken};
use crate::lines::Line;
use crate::memory::ROM_END;
use crate::shows::write_strokes;
use crate::svg::write_svg;
use std::io::{self, Write};

/// The bytes of the RAM, at the front of an image.
const RAM_BYTES: usize = 2048;

/// The most words that are fetched.
const MOST_WORDS: u32 = 65_536;

/// An instruction that was run: its address, its words, the beam before and after it, and its
/// stroke.
struct Ran {
    address: u16,
    first: u16,
    second: u16,
    before: Beam,
    beam: Beam,
    stroke: Option<Stroke>,
}

/// What is written of a run beside how it ends.
#[derive(Clone, Copy)]
pub struct Form {
    pub all: bool,
    pub moves: bool,
    pub units: bool,
}

/// How a run ends.
enum Ending {
    Finished(u32, Vec<Stroke>),
    /// With the strokes up to there.
    Broke(u16, GenFault, Vec<Stroke>),
    Endless(Vec<Stroke>),
}

/// The word at an address; none in a hole.
fn word_at(image: &[u8], address: u16) -> Option<u16> {
    let address = usize::from(address);
    let first = ROM_END - (image.len() - RAM_BYTES) / 2;
    let place = if address < RAM_BYTES / 2 {
        2 * address
    } else if (first..ROM_END).contains(&address) {
        RAM_BYTES + 2 * (address - first)
    } else {
        return None;
    };
    Some(u16::from_le_bytes([image[place], image[place + 1]]))
}

/// Lets the generator take a word, byte by byte, or a hole.
fn take_word(generator: &mut Generator, word: Option<u16>) -> Taken {
    let Some(word) = word else {
        return generator.take_byte(None);
    };
    let [low, high] = word.to_le_bytes();
    generator.take_byte(Some(low));
    generator.take_byte(Some(high))
}

/// Runs a generator over an image, with the instructions that were run where they are asked for.
fn run(image: &[u8], traces: bool) -> (Vec<Ran>, Ending) {
    let mut generator = Generator::new();
    let mut ran = Vec::new();
    // The address and the first word of an instruction that wants a second one.
    let mut held: Option<(u16, u16)> = None;
    generator.start();
    for words in 0..MOST_WORDS {
        let Some(address) = generator.wants() else {
            break;
        };
        let word = word_at(image, address);
        let strokes = generator.strokes().len();
        let before = generator.beam();
        let taken = take_word(&mut generator, word);
        if traces && let Some(word) = word {
            if held.is_none() && word < 0xB000 {
                held = Some((address, word));
            } else {
                let (address, first) = held.take().unwrap_or((address, word));
                ran.push(Ran {
                    address,
                    first,
                    second: word,
                    before,
                    beam: generator.beam(),
                    stroke: generator.strokes().get(strokes).copied(),
                });
            }
        }
        match taken {
            Taken::Low | Taken::Word => {}
            Taken::Done(strokes) => return (ran, Ending::Finished(words + 1, strokes)),
            Taken::Broke(fault) => {
                let strokes = generator.strokes().to_vec();
                return (ran, Ending::Broke(address, fault, strokes));
            }
        }
    }
    (ran, Ending::Endless(generator.strokes().to_vec()))
}

/// Writes the line of an instruction that was run, and that of its stroke.
fn write_ran(ran: &Ran, writer: &mut impl Write) -> io::Result<()> {
    let mut line = Line::new();
    line.listed(usize::from(ran.address), ran.first, ran.second);
    line.text(b" at ");
    line.decimal(ran.beam.x);
    line.push(b' ');
    line.decimal(ran.beam.y);
    line.push(b' ');
    line.decimal(u32::from(ran.beam.scale));
    line.push(b'\n');
    line.write(writer)?;
    write_strokes(ran.stroke.as_slice(), writer)
}

/// The intensity of the move that an instruction makes, by its words. None where it makes none.
fn intensity(ran: &Ran) -> Option<u8> {
    match ran.first >> 12 {
        0..=9 => Some((ran.second >> 12) as u8),
        0xA => Some(0),
        0xF => Some((ran.first >> 4 & 15) as u8),
        _ => None,
    }
}

/// Each move of these instructions, with its address: from where to where, and its intensity.
fn moves(trace: &[Ran], units: bool) -> Vec<(u16, Stroke)> {
    let mut counters = Counters::new();
    let mut moves = Vec::new();
    for ran in trace {
        let from = counters;
        counters.step(ran.before.scale, ran.first, ran.second);
        let Some(z) = intensity(ran) else {
            continue;
        };
        let (x0, y0, x1, y1) = if units {
            (from.x, from.y, counters.x, counters.y)
        } else {
            (ran.before.x, ran.before.y, ran.beam.x, ran.beam.y)
        };
        moves.push((ran.address, Stroke { x0, y0, x1, y1, z }));
    }
    moves
}

/// Writes the line of a move.
fn write_move(address: u16, made: &Stroke, writer: &mut impl Write) -> io::Result<()> {
    let mut line = Line::new();
    line.hex::<3>(usize::from(address));
    for number in [made.x0, made.y0, made.x1, made.y1, u32::from(made.z)] {
        line.push(b' ');
        line.decimal(number);
    }
    line.push(b'\n');
    line.write(writer)
}

/// Writes how a run ends, with these strokes in place of its own where there are some.
fn write_ending(
    ending: &Ending,
    counted: Option<Vec<Stroke>>,
    writer: &mut impl Write,
) -> io::Result<()> {
    let mut line = Line::new();
    match ending {
        Ending::Finished(words, strokes) => {
            line.text(b"picture ");
            line.decimal(*words);
            line.push(b' ');
            line.decimal(strokes.len() as u32);
            line.push(b'\n');
            line.write(writer)?;
            write_strokes(counted.as_ref().unwrap_or(strokes), writer)
        }
        Ending::Broke(address, fault, _) => {
            line.text(b"broke ");
            line.hex::<3>(usize::from(*address));
            line.push(b' ');
            line.decimal(fault.number());
            line.push(b'\n');
            line.write(writer)
        }
        Ending::Endless(_) => writer.write_all(b"endless\n"),
    }
}

/// Runs a generator over an image, and writes what that draws as SVG, with this many percent of its
/// size. Why it draws no picture, if it doesn't, is the title, and is answered.
pub fn write_picture_svg(
    image: &[u8],
    percent: u32,
    writer: &mut impl Write,
) -> io::Result<Option<String>> {
    let (_, ending) = run(image, false);
    let (strokes, reason) = match ending {
        Ending::Finished(_, strokes) => (strokes, None),
        Ending::Broke(address, fault, strokes) => {
            let reason = format!("broke {address:03X} {}", fault.number());
            (strokes, Some(reason))
        }
        Ending::Endless(strokes) => (strokes, Some(String::from("endless"))),
    };
    write_svg(reason.as_deref(), &strokes, percent, writer)?;
    Ok(reason)
}

/// Whether an image has as many bytes as one can have.
pub fn is_image(bytes: usize) -> bool {
    bytes == 4096 || bytes == 6144
}

/// Runs a generator over an image, writes what the form asks for and how it ends, and answers
/// whether it drew a picture.
pub fn write_picture(image: &[u8], form: Form, writer: &mut impl Write) -> io::Result<bool> {
    let (ran, ending) = run(image, form.all || form.moves || form.units);
    if form.all {
        for ran in &ran {
            write_ran(ran, writer)?;
        }
    }
    let moves = moves(&ran, form.units);
    if form.moves {
        for (address, made) in &moves {
            write_move(*address, made, writer)?;
        }
    }
    let seen = moves.into_iter().map(|(_, made)| made);
    let counted = form.units.then(|| seen.filter(|made| made.z > 0).collect());
    write_ending(&ending, counted, writer)?;
    Ok(matches!(ending, Ending::Finished(..)))
}
