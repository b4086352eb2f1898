//! What a dump of vector memory draws, or why that has no end: the run of the generator over a RAM
//! and a ROM that don't change.
//!
//! The run is that of a new generator, which is started once. It ends at HALT or at a fault, and
//! isn't followed past 65,536 words (this project's own choice). A memory that doesn't change has
//! exactly one such end, as the law `one_end` says.
#![no_std]

extern crate plain_std as std;

mod dump {
//! Dumps of vector memory.
use dvg_mem::{Flat, Image, LARGE_ROM_BYTES, MEMORY_BYTES, Rom, Store};
use std::alloc::{Allocator, Global};
use thiserror::Error;

/// The bytes of a dump with the smaller ROM.
pub const SMALL_DUMP_BYTES: usize = 2 * MEMORY_BYTES;

/// The bytes of a dump with the larger ROM.
pub const LARGE_DUMP_BYTES: usize = MEMORY_BYTES + LARGE_ROM_BYTES;

/// Why a dump was not taken.
#[derive(Clone, Copy, Debug, PartialEq, Eq, Error, Hash)]
pub enum DumpFault {
    /// There are neither 4,096 bytes nor 6,144.
    #[error("there are neither 4,096 bytes nor 6,144")]
    Size,
    /// An allocation failed.
    #[error("out of memory")]
    OutOfMemory,
}

/// A dump of vector memory: the 2,048 bytes of the RAM, and after them the 2,048 or 4,096 bytes of
/// the ROM.
#[derive(Clone, Debug)]
pub struct Dump<A: Allocator = Global> {
    pub(crate) alloc: A,
    pub(crate) ram: Flat<A>,
    pub(crate) rom: Rom<A>,
}

impl<A: Allocator + Copy> Dump<A> {
    /// Returns the dump of `ram` and `rom`. A run takes its memory from `alloc` later.
    pub fn of(alloc: A, ram: Flat<A>, rom: Rom<A>) -> Dump<A> {
        Dump { alloc, ram, rom }
    }

    /// Returns the dump of `bytes`: the RAM's from address 000 on, and then the ROM's. They are
    /// copied into memory of `alloc`; a run takes its memory from it later, too. Returns `Size`
    /// exactly where the length of `bytes` is neither 4,096 nor 6,144, and `OutOfMemory` where an
    /// allocation fails.
    pub fn new(alloc: A, bytes: &[u8]) -> Result<Dump<A>, DumpFault> {
        if bytes.len() != SMALL_DUMP_BYTES && bytes.len() != LARGE_DUMP_BYTES {
            return Err(DumpFault::Size);
        }
        let (ram, rom) = bytes.split_at(MEMORY_BYTES);
        let Ok(image) = Image::new(alloc, ram) else {
            return Err(DumpFault::OutOfMemory);
        };
        let Ok(ram) = Flat::make(alloc, &image) else {
            return Err(DumpFault::OutOfMemory);
        };
        let Ok(rom) = Rom::new(alloc, rom) else {
            return Err(DumpFault::OutOfMemory);
        };
        // An image is one of 2,048 bytes, and a ROM has 2,048 or 4,096, as their types say.
        let _ = image.bytes();
        let _ = rom.len_words();
        Ok(Dump { alloc, ram, rom })
    }
}
}
mod ending {
//! How a run ends.
use std::prelude::*;

use dvg_gen::{GenFault, Stroke};
use std::alloc::{Allocator, Global};

/// How the run over a dump ends.
#[derive(Debug)]
#[derive(Clone)]
pub enum Ending<A: Allocator = Global> {
    /// A HALT ended it.
    Finished {
        /// The number of words that were fetched, HALT and word zero included: 1 to 65,536.
        words: u32,
        /// The strokes, in the order drawn.
        strokes: Vec<Stroke, A>,
    },
    /// It broke.
    Broke {
        /// The word address of the fetch at which it did.
        address: u16,
        /// Why.
        fault: GenFault,
    },
    /// There was neither within 65,536 words.
    Endless,
}

/// How a run ends, by name alone.
#[derive(Clone, Copy, Debug, PartialEq, Eq, Hash)]
pub enum Outcome {
    /// A HALT ended it: there is a picture.
    Picture,
    /// It broke.
    Broke,
    /// It isn't known to end.
    Endless,
}

impl<A: Allocator> Ending<A> {
    /// Returns how the run ends, by name alone.
    pub fn outcome(&self) -> Outcome {
        match self {
            Ending::Finished { .. } => Outcome::Picture,
            Ending::Broke { .. } => Outcome::Broke,
            Ending::Endless => Outcome::Endless,
        }
    }
}
}
mod follower {
//! Moves of instructions that were run.
use crate::ran::Ran;
use dvg_gen::{Beam, Counters, Move};

/// Goes along the instructions of a run, and tells their moves: in 1/512 of a screen unit, or in
/// whole units, as the counters of `dvg_gen` have them.
#[derive(Debug)]
pub struct Follower {
    units: bool,
    beam: Beam,
    counters: Counters,
}

impl Follower {
    /// Returns one that stands before the first instruction of a new generator. With `units` it
    /// tells moves in whole units.
    pub fn new(units: bool) -> Follower {
        Follower {
            units,
            beam: Beam::place(0, 0, 0),
            counters: Counters { x: 0, y: 0 },
        }
    }

    /// Goes past `ran`, the next instruction, and returns its move. `None` means that it leaves the
    /// beam as it is.
    pub fn follow(&mut self, ran: &Ran) -> Option<Move> {
        let made = Move::of(&self.beam, &ran.code, ran.address);
        self.beam = ran.beam;
        match made {
            Some(made) => Some(self.told(&made)),
            None => None,
        }
    }

    // Lets the counters follow `made`, and returns it in the unit that is asked for.
    fn told(&mut self, made: &Move) -> Move {
        let before = self.counters;
        self.counters.follow(made);
        if !self.units {
            return *made;
        }
        Move {
            x0: u32::from(before.x),
            y0: u32::from(before.y),
            x1: u32::from(self.counters.x),
            y1: u32::from(self.counters.y),
            z: made.z,
            placed: made.placed,
            address: made.address,
        }
    }
}
}
mod ran {
//! Instructions that were run.
use dvg_code::Code;
use dvg_gen::{Beam, Stroke};

/// An instruction that was run.
#[derive(Clone, Copy, Debug, PartialEq, Eq, Hash)]
pub struct Ran {
    /// The word address of its first word.
    pub address: u16,
    /// The instruction.
    pub code: Code,
    /// Whether its words in memory are those that `encode` writes of it.
    pub canonical: bool,
    /// The beam after it.
    pub beam: Beam,
    /// What it drew, if anything.
    pub stroke: Option<Stroke>,
}
}
mod runs {
//! Runs over dumps.
use std::prelude::*;

use crate::dump::Dump;
use crate::ending::Ending;
use crate::ran::Ran;
use crate::tracer::Tracer;
use dvg_code::OutOfMemory;
use dvg_gen::{Generator, Step};
use dvg_mem::fetch;
use std::alloc::{Allocator, Global};

/// The most words that a run is followed (this project's own choice): all that an address of 12
/// bits names, sixteen times.
pub const MOST_WORDS: u32 = 65_536;

/// A run: its instructions, and how it ends.
#[derive(Debug)]
#[derive(Clone)]
pub struct Traced<A: Allocator = Global> {
    /// The instructions, in the order in which they were run. One that broke the run is the last.
    pub ran: Vec<Ran, A>,
    /// How the run ends.
    pub ending: Ending<A>,
}

// Hands `word` to `generator`, its low byte first, where `None` is a hole. Returns what it led to,
// or `OutOfMemory` where an allocation fails.
fn take_word<A: Allocator + Copy>(
    generator: &mut Generator<A>,
    word: Option<u16>,
) -> Result<Step, OutOfMemory> {
    let Some(word) = word else {
        return generator.feed(None);
    };
    let [low, high] = word.to_le_bytes();
    let Step::Low = generator.feed(Some(low))? else {
        unreachable!()
    };
    generator.feed(Some(high))
}

impl<A: Allocator + Copy> Dump<A> {
    /// Runs a new generator over this memory, and returns how the run ends.
    ///
    /// Returns `OutOfMemory` where an allocation fails. The strokes take memory, one by one; a run
    /// that draws none never fails.
    pub fn run(&self) -> Result<Ending<A>, OutOfMemory> {
        Ok(self.run_telling(false)?.ending)
    }

    /// Runs as `run` does. Returns also the instructions that were run, which take memory, too.
    pub fn run_traced(&self) -> Result<Traced<A>, OutOfMemory> {
        self.run_telling(true)
    }

    /// Runs as `run` does. Where `traces` is true, returns also the instructions that were run,
    /// otherwise none.
    pub fn run_telling(&self, traces: bool) -> Result<Traced<A>, OutOfMemory> {
        let mut tracer = Tracer::new(self.alloc, traces);
        let ending = self.run_beside(&mut tracer)?;
        Ok(Traced {
            ran: tracer.into_ran(),
            ending,
        })
    }

    // Runs to the end, reports each word to `tracer`, and returns how the run ended.
    fn run_beside(&self, tracer: &mut Tracer<A>) -> Result<Ending<A>, OutOfMemory> {
        let mut generator = Generator::new(self.alloc);
        generator.start();
        for words in 0..MOST_WORDS {
            let Some(address) = generator.wants() else {
                unreachable!()
            };
            match self.step(address, &mut generator, tracer)? {
                Step::Low | Step::Word => {}
                Step::Done => {
                    return Ok(Ending::Finished {
                        words: words + 1,
                        strokes: generator.take_picture(),
                    });
                }
                Step::Broke(fault) => return Ok(Ending::Broke { address, fault }),
            }
        }
        Ok(Ending::Endless)
    }

    // Lets `generator` take the word at `address`, and reports it to `tracer`.
    fn step(
        &self,
        address: u16,
        generator: &mut Generator<A>,
        tracer: &mut Tracer<A>,
    ) -> Result<Step, OutOfMemory> {
        let word = fetch(&self.ram, &self.rom, address);
        tracer.take(address, word)?;
        take_word(generator, word)
    }
}
}
mod tracer {
//! What follows a generator from word to word and records its instructions.
use std::prelude::*;

use crate::ran::Ran;
use dvg_code::{Code, OutOfMemory, decode, encode};
use dvg_gen::Beam;
use std::alloc::Allocator;

/// Follows a run beside its generator, and keeps what is recorded of its instructions, if that is
/// asked for.
pub(crate) struct Tracer<A: Allocator> {
    traces: bool,
    /// The first word of an instruction that needs a second one.
    held: Option<u16>,
    /// The address where the newest instruction began.
    address: u16,
    beam: Beam,
    ran: Vec<Ran, A>,
}

// An instruction that was read, and whether its words are canonical.
#[derive(Clone, Copy)]
struct Spelled {
    code: Code,
    canonical: bool,
}

// Returns what `words` spell, or `None` where they are one that needs a second one.
#[inline(always)]
fn read(words: &[u16]) -> Option<Spelled> {
    match decode(words) {
        Ok(found) => Some(Spelled {
            code: found.0,
            canonical: encode(&found.0).as_slice() == words,
        }),
        Err(_) => None,
    }
}

// Returns what `word` completes, after `held`, the first word, if there is one. Returns `None`
// where `word` needs a second one.
#[inline(always)]
fn completed(held: Option<u16>, word: u16) -> Option<Spelled> {
    match held {
        Some(first) => read(&[first, word]),
        None => read(&[word]),
    }
}

impl<A: Allocator> Tracer<A> {
    /// Returns a tracer of a run that begins. Where `traces` is true, it keeps the instructions, in
    /// memory of `alloc`.
    pub(crate) fn new(alloc: A, traces: bool) -> Tracer<A> {
        Tracer {
            traces,
            held: None,
            address: 0,
            beam: Beam::place(0, 0, 0),
            ran: Vec::new(alloc),
        }
    }

    /// Returns what was recorded.
    pub(crate) fn into_ran(self) -> Vec<Ran, A> {
        self.ran
    }

    /// Notes that the run fetched `word` at `address`, or met a hole there. Returns `OutOfMemory`
    /// where an allocation fails.
    pub(crate) fn take(&mut self, address: u16, word: Option<u16>) -> Result<(), OutOfMemory> {
        let Some(word) = word else {
            return Ok(());
        };
        if !self.traces {
            return Ok(());
        }
        self.take_word(address, word)
    }

    // Notes that the run fetched `word` at `address`.
    #[inline(always)]
    fn take_word(&mut self, address: u16, word: u16) -> Result<(), OutOfMemory> {
        self.address = self.began(address);
        match completed(self.held, word) {
            Some(read) => self.tell(read),
            None => {
                self.held = Some(word);
                Ok(())
            }
        }
    }

    // Returns where the instruction began to which the word at `address` belongs.
    fn began(&self, address: u16) -> u16 {
        match self.held {
            Some(_) => self.address,
            None => address,
        }
    }

    // Records the instruction `read`, which was run.
    #[inline(always)]
    fn tell(&mut self, read: Spelled) -> Result<(), OutOfMemory> {
        let stroke = self.beam.step(&read.code);
        self.held = None;
        self.ran.push(Ran {
            address: self.address,
            code: read.code,
            canonical: read.canonical,
            beam: self.beam,
            stroke,
        })?;
        Ok(())
    }
}
}

pub use dump::{Dump, DumpFault, LARGE_DUMP_BYTES, SMALL_DUMP_BYTES};
pub use ending::{Ending, Outcome};
pub use follower::Follower;
pub use ran::Ran;
pub use runs::{MOST_WORDS, Traced};
