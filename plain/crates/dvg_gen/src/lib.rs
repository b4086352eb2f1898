//! The beam and the generator of the Digital Vector Generator.
//!
//! A `Beam` says what one instruction does to the beam and what it draws. A `Generator` is the
//! machine that fetches words: it is handed one byte a call, the low one of a word and then the
//! high one, keeps its place, its return addresses and its strokes, and hands the strokes out where
//! a run ends. A `WrappingGenerator` is one whose stack wraps, as hardware goes on after a fifth
//! call and after a return without one. Instructions, the stack of four and the HALT flag are those
//! of Atari's DVG documentation and of Margolin's *The Secret Life of Vector Generators*; what is
//! this project's own choice is marked so. Memory is taken only where a high byte completes a
//! vector with an intensity of at least 1.
#![no_std]

extern crate plain_std as std;

mod beam {
//! The beam, and what an instruction does to it.
use crate::stroke::Stroke;
use dvg_code::{Code, Instr};

// The number of positions along x, and along y: 4,096 screen units of 512 each.
pub(crate) const CIRCLE: u32 = 2_097_152;

/// Where the beam stands, in 1/512 of a screen unit, and the global scale.
///
/// Positions are exact, and go round: past the edge at 4,096 units the beam comes in at the other
/// one. Nothing is rounded or clipped (this project's own choice).
#[derive(Clone, Copy, Debug, PartialEq, Eq, Hash)]
#[cfg_attr(feature = "serde", derive(serde::Serialize, serde::Deserialize))]
#[cfg_attr(feature = "serde", serde(try_from = "crate::rust::BeamForm"))]
pub struct Beam {
    /// The position along x, below 2,097,152.
    pub x: u32,
    /// The position along y, below 2,097,152.
    pub y: u32,
    /// The global scale, 0 to 15.
    pub scale: u8,
}

impl Beam {
    /// Returns the beam that LABS leaves: at `x` and `y` in screen units, 0 to 4095, with the
    /// global scale `scale`, 0 to 15.
    pub fn place(x: u16, y: u16, scale: u8) -> Beam {
        Beam {
            x: 512 * u32::from(x),
            y: 512 * u32::from(y),
            scale,
        }
    }

    /// Moves the beam as `code` says, and returns the stroke that it draws, if any.
    ///
    /// The effective scale is the sum of the global and the local scale, modulo 16. At 0 to 9 it
    /// doubles a move that many times; at 10 to 15 the beam doesn't move (this project's own
    /// choice). A vector of intensity 1 to 15 draws one stroke, even where it doesn't move the
    /// beam. Instructions other than LABS, VCTR and SVEC leave the beam as it is.
    #[inline(always)]
    pub fn step(&mut self, code: &Code) -> Option<Stroke> {
        match code.instr() {
            Instr::Vctr { scale, dx, dy, z } => self.slide(dx, dy, unit(self.scale, scale), z),
            Instr::Svec { scale, dx, dy, z } => {
                let unit = 256 * unit(self.scale, scale);
                self.slide(i16::from(dx), i16::from(dy), unit, z)
            }
            Instr::Labs { x, y, scale } => {
                *self = Beam::place(x, y, scale);
                None
            }
            Instr::Halt | Instr::Jsrl(_) | Instr::Rtsl | Instr::Jmpl(_) => None,
        }
    }

    // Moves the beam by `dx` and `dy` times `unit`. Returns the stroke of intensity `z`, or `None`
    // where `z` is 0.
    fn slide(&mut self, dx: i16, dy: i16, unit: u32, z: u8) -> Option<Stroke> {
        let (x0, y0) = (self.x, self.y);
        self.x = shifted(x0, dx, unit);
        self.y = shifted(y0, dy, unit);
        if z == 0 {
            return None;
        }
        Some(Stroke {
            x0,
            y0,
            x1: self.x,
            y1: self.y,
            z,
        })
    }
}

// Returns how far a magnitude of 1 moves the beam, at the scales `global` and `local`, in 1/512 of
// a screen unit.
fn unit(global: u8, local: u8) -> u32 {
    let effective = (global + local) % 16;
    if effective <= 9 { 1 << effective } else { 0 }
}

// Returns the position `from`, moved by `by` times `unit` round the circle.
fn shifted(from: u32, by: i16, unit: u32) -> u32 {
    let moved = i64::from(from) + i64::from(by) * i64::from(unit);
    moved.rem_euclid(i64::from(CIRCLE)) as u32
}
}
mod counters {
//! Positions in whole screen units.
use crate::beam::CIRCLE;
use crate::moving::Move;

/// The beam's position in whole screen units, as counters of twelve bits have it: LABS loads them,
/// and a vector counts them on by its move, which the rate multipliers round to whole units, a half
/// away from zero. So they can differ from the exact position.
#[derive(Clone, Copy, Debug, PartialEq, Eq, Hash)]
#[cfg_attr(feature = "serde", derive(serde::Serialize, serde::Deserialize))]
#[cfg_attr(feature = "serde", serde(try_from = "crate::rust::CountersForm"))]
pub struct Counters {
    /// The position along x, below 4,096.
    pub x: u16,
    /// The position along y, below 4,096.
    pub y: u16,
}

impl Counters {
    /// Lets the counters follow the move `made`.
    pub fn follow(&mut self, made: &Move) {
        if made.placed {
            self.x = (made.x1 / 512 % 4096) as u16;
            self.y = (made.y1 / 512 % 4096) as u16;
        } else {
            self.x = counted(self.x, made.dx());
            self.y = counted(self.y, made.dy());
        }
    }
}

impl Move {
    /// Returns the move along x in whole screen units, a half rounded away from zero. This means
    /// the shorter way round the circle, which is that of a vector.
    pub fn dx(&self) -> i16 {
        whole_way(self.x0, self.x1)
    }

    /// Returns the move along y, like `dx`.
    pub fn dy(&self) -> i16 {
        whole_way(self.y0, self.y1)
    }
}

// Returns the way from `from` to `to` in whole screen units, the shorter one round the circle.
fn whole_way(from: u32, to: u32) -> i16 {
    let ahead = ahead(from, to);
    if ahead < CIRCLE / 2 {
        whole(ahead) as i16
    } else {
        -(whole(CIRCLE - ahead) as i16)
    }
}

// Returns how far ahead of `from` round the circle `to` is.
fn ahead(from: u32, to: u32) -> u32 {
    ((u64::from(to) + u64::from(CIRCLE - from % CIRCLE)) % u64::from(CIRCLE)) as u32
}

// Returns `magnitude`, in 1/512 of a screen unit, in whole units.
fn whole(magnitude: u32) -> u16 {
    ((magnitude + 256) / 512) as u16
}

// Returns the counter `from`, `by` units on.
fn counted(from: u16, by: i16) -> u16 {
    (i32::from(from) + i32::from(by)).rem_euclid(4096) as u16
}
}
mod generator {
//! The generator.
use std::prelude::*;

use crate::STACK_DEPTH;
use crate::beam::Beam;
use crate::moving::Move;
use crate::state::{GeneratorRefused, GeneratorState};
use crate::stroke::Stroke;
use crate::taken::{GenFault, Step, Taken};
use arrayvec::ArrayVec;
use dvg_code::{Code, Instr, OutOfMemory, decode};
use std::alloc::{Allocator, Global};
use std::mem;

/// The vector generator, which is handed one byte a call: the low byte of a word, and then its high
/// byte (this project's own choice).
///
/// A new one is halted, with the beam at 0, 0 and the global scale 0. Beam and scale are kept from
/// run to run (this project's own choice).
#[derive(Clone, Debug)]
pub struct Generator<A: Allocator = Global> {
    alloc: A,
    is_open: bool,
    // Neither this nor the address lies at a multiple of four bytes. There the processor would have
    // to wait for them, as each fetch reads what the one before has written. So this isn't part of
    // an `Option`.
    has_low: bool,
    // The address of the next word.
    at: u16,
    held: Option<u16>,
    // The low byte of the next word, where `has_low`.
    low: u8,
    stack: ArrayVec<u16, STACK_DEPTH>,
    beam: Beam,
    strokes: Vec<Stroke, A>,
    // The strokes of the newest run that came to a HALT, until they are taken. At a HALT the two
    // lists change places, so the memory of each is used again.
    picture: Vec<Stroke, A>,
}

impl<A: Allocator + Copy> Generator<A> {
    /// Returns a new generator, which is halted and has no picture. Its strokes will be in memory
    /// of `alloc`.
    pub fn new(alloc: A) -> Generator<A> {
        Generator {
            alloc,
            at: 0,
            held: None,
            has_low: false,
            low: 0,
            stack: ArrayVec::new(),
            beam: Beam::place(0, 0, 0),
            strokes: Vec::new(alloc),
            picture: Vec::new(alloc),
            is_open: false,
        }
    }

    /// Begins a run at word zero, with no return address and no stroke. A run that was open is
    /// abandoned with its strokes and its low byte (this project's own choice). The picture of the
    /// newest run that came to a HALT stays until it is taken.
    pub fn start(&mut self) {
        self.reset();
        self.at = 0;
        self.held = None;
        self.stack.clear();
        self.is_open = true;
    }

    /// Halts the generator. A run that was open is abandoned with its strokes and its low byte; the
    /// beam stays, and so does the picture of the newest run that came to a HALT.
    pub fn reset(&mut self) {
        self.strokes.clear();
        self.has_low = false; // The high byte never comes.
        self.is_open = false;
    }

    /// Returns whether no run is open.
    pub fn halted(&self) -> bool {
        !self.is_open
    }

    /// Returns the address of the next word, below 4,096, or `None` where the generator is halted.
    #[must_use]
    pub fn wants(&self) -> Option<u16> {
        (!self.halted()).then_some(self.at)
    }

    /// Returns whether the next byte is the high one of its word: the last fetch of the open run
    /// was of the low byte.
    pub fn wants_high(&self) -> bool {
        self.low_byte().is_some()
    }

    /// Returns the low byte of the next word, if it was fetched and the high byte comes next.
    #[inline(always)]
    #[must_use]
    pub fn low_byte(&self) -> Option<u8> {
        self.has_low.then_some(self.low)
    }

    /// Returns the first word of an instruction whose second word comes next, in an open run. Once
    /// the run is over it means nothing.
    #[must_use]
    pub fn first_word(&self) -> Option<u16> {
        self.held
    }

    /// Returns the beam.
    pub fn beam(&self) -> Beam {
        self.beam
    }

    /// Returns the return addresses, at most four, the newest last. In an open run these are the
    /// addresses past the calls that are still open. Once the run is over they mean nothing.
    pub fn return_addresses(&self) -> &[u16] {
        self.stack.as_slice()
    }

    /// Returns the strokes that the open run drew so far, in the order drawn. There are none after
    /// a HALT, which makes the picture of them.
    pub fn strokes(&self) -> &[Stroke] {
        self.strokes.as_slice()
    }

    /// Takes out the strokes that the open run drew so far, and leaves none: its picture is made of
    /// those that it draws from now on. So a run without an end takes no more memory.
    pub fn take_strokes(&mut self) -> Vec<Stroke, A> {
        mem::replace(&mut self.strokes, Vec::new(self.alloc))
    }

    /// Returns the move that `byte`, the next one, completes, before it is taken: so who takes one
    /// pays nothing for its move. The generator stays as it is. `None` means that no run is open or
    /// that the byte moves no beam: a low byte or a first word, a word of another instruction than
    /// VCTR, SVEC and LABS, or no memory.
    #[must_use]
    pub fn move_by(&self, byte: Option<u8>) -> Option<Move> {
        if self.halted() {
            return None;
        }
        let Some(high) = byte else {
            return None;
        };
        let Some(low) = self.low_byte() else {
            return None;
        };
        self.move_of(u16::from_le_bytes([low, high]))
    }

    /// Returns the picture: the strokes of the newest run that came to a HALT, in the order drawn.
    /// There are none before the first HALT, and after the picture was taken.
    pub fn picture(&self) -> &[Stroke] {
        self.picture.as_slice()
    }

    /// Takes the picture out, and leaves an empty one. The next strokes need new memory then.
    #[inline(always)]
    pub fn take_picture(&mut self) -> Vec<Stroke, A> {
        mem::replace(&mut self.picture, Vec::new(self.alloc))
    }

    /// Takes `byte`, and returns what it led to. `byte` is the low byte of the word at the address
    /// that `wants` returns, or its high byte where `wants_high` is true. `None` means that no
    /// memory answers there; it may come after a low byte, too, which is then dropped, as only the
    /// generator knows of it. A run must be open. After `Done` or `Broke` the generator is halted;
    /// `Done` makes the picture of the run's strokes, and every other step leaves it as it was. The
    /// return addresses change only where a call or a return is completed.
    ///
    /// Returns `OutOfMemory` where an allocation fails, and then nothing has changed. That comes
    /// only where a high byte completes a vector with an intensity of at least 1.
    #[inline(always)]
    pub fn feed(&mut self, byte: Option<u8>) -> Result<Step, OutOfMemory> {
        let Some(byte) = byte else {
            return Ok(self.break_off(GenFault::Hole));
        };
        let Some(low) = self.low_byte() else {
            self.low = byte;
            self.has_low = true;
            return Ok(Step::Low);
        };
        self.take(u16::from_le_bytes([low, byte]))
    }

    /// Takes `byte` as `feed` does, and the picture, too, where it is `Done`.
    #[inline(always)]
    pub fn take_byte(&mut self, byte: Option<u8>) -> Result<Taken<A>, OutOfMemory> {
        match self.feed(byte) {
            Ok(Step::Low) => Ok(Taken::Low),
            Ok(Step::Word) => Ok(Taken::Word),
            Ok(Step::Done) => Ok(Taken::Done(self.take_picture())),
            Ok(Step::Broke(fault)) => Ok(Taken::Broke(fault)),
            Err(refused) => Err(refused),
        }
    }

    /// Returns all that the generator keeps but its strokes and its picture.
    pub fn state(&self) -> GeneratorState {
        let Beam { x, y, scale } = self.beam;
        GeneratorState {
            is_open: self.is_open,
            at: self.at,
            held: self.held,
            low: self.low_byte(),
            return_addresses: copied(self.stack.as_slice()),
            x,
            y,
            scale,
        }
    }

    /// Brings the generator into `state`, with `strokes` as what its run drew so far. So it goes on
    /// as the one whose `state` and `strokes` these were. No claim is made about a run that goes on
    /// with other strokes. The picture stays as it was. If `fault_with` finds a fault, it returns
    /// that with the strokes, and nothing has changed: so never with those of a generator.
    pub fn resume(
        &mut self,
        state: &GeneratorState,
        strokes: Vec<Stroke, A>,
    ) -> Result<(), GeneratorRefused<A>> {
        if let Some(fault) = state.fault_with(strokes.as_slice()) {
            return Err(GeneratorRefused { fault, strokes });
        }
        self.go_on(state, strokes);
        Ok(())
    }

    // Does what `resume` does, where `fault_with` finds no fault.
    pub(crate) fn go_on(&mut self, state: &GeneratorState, strokes: Vec<Stroke, A>) {
        self.is_open = state.is_open;
        self.at = state.at;
        self.held = state.held;
        self.has_low = state.low.is_some();
        self.low = state.low.unwrap_or(0);
        self.stack = copied(state.return_addresses.as_slice());
        self.beam = Beam {
            x: state.x,
            y: state.y,
            scale: state.scale,
        };
        self.strokes = strokes;
    }

    // Returns the move of the instruction that the whole word `word` completes.
    fn move_of(&self, word: u16) -> Option<Move> {
        if let Some(first) = self.held {
            let code = of_two(first, word);
            return Move::of(&self.beam, &code, before(self.at));
        }
        if word < 0xB000 {
            return None;
        }
        let code = of_one(word);
        Move::of(&self.beam, &code, self.at)
    }

    // Takes the whole word `word`, as `feed` takes a high byte.
    #[inline(always)]
    fn take(&mut self, word: u16) -> Result<Step, OutOfMemory> {
        // The opcode says which instruction it is. To look at the decoded ones once more would take
        // time.
        if let Some(first) = self.held {
            return if first < 0xA000 {
                self.draw(of_two(first, word))
            } else {
                Ok(self.place(of_two(first, word)))
            };
        }
        if word < 0xB000 {
            self.at = after(self.at);
            self.held = Some(word);
            self.has_low = false;
            return Ok(Step::Word);
        }
        match word >> 12 {
            0xB => Ok(self.finish()),
            0xC => Ok(self.call(word % 4096)),
            0xD => Ok(self.come_back()),
            0xE => Ok(self.jump(word % 4096)),
            _ => self.draw(of_one(word)),
        }
    }

    // Places the beam by `code`, which is a LABS.
    #[inline(always)]
    fn place(&mut self, code: Code) -> Step {
        let Instr::Labs { x, y, scale } = code.instr() else {
            unreachable!()
        };
        self.beam = Beam::place(x, y, scale);
        self.jump(after(self.at))
    }

    // Draws the vector `code`. Returns `OutOfMemory` where an allocation fails, and then nothing
    // has changed.
    #[inline(always)]
    fn draw(&mut self, code: Code) -> Result<Step, OutOfMemory> {
        // Field by field: a copy of the whole would move its unused bytes too.
        let Beam { x, y, scale } = self.beam;
        let mut beam = Beam { x, y, scale };
        if let Some(stroke) = beam.step(&code) {
            self.strokes.push(stroke)?;
        }
        self.beam = beam;
        Ok(self.jump(after(self.at)))
    }

    // Saves the address of the next word, and goes to `address`. Where four addresses are saved,
    // the run breaks.
    fn call(&mut self, address: u16) -> Step {
        if self.stack.is_full() {
            return self.break_off(GenFault::StackOver);
        }
        self.stack.push(after(self.at));
        self.jump(address)
    }

    // Goes to the address that was saved last. Where none is saved, the run breaks.
    fn come_back(&mut self) -> Step {
        match self.stack.pop() {
            Some(address) => self.jump(address),
            None => self.break_off(GenFault::StackUnder),
        }
    }

    // Returns the address after that of the next word.
    pub(crate) fn next_address(&self) -> u16 {
        after(self.at)
    }

    // Goes to `address`, where the next instruction begins.
    pub(crate) fn jump(&mut self, address: u16) -> Step {
        self.at = address;
        self.held = None;
        self.has_low = false;
        Step::Word
    }

    // Ends the run, and makes the picture of its strokes.
    fn finish(&mut self) -> Step {
        self.has_low = false;
        self.is_open = false;
        mem::swap(&mut self.strokes, &mut self.picture);
        self.strokes.clear(); // Its memory is used again.
        Step::Done
    }

    // Breaks the run with `fault`.
    fn break_off(&mut self, fault: GenFault) -> Step {
        self.has_low = false;
        self.is_open = false;
        Step::Broke(fault)
    }
}

// Returns the address one word after `address`, where 000 comes after FFF.
fn after(address: u16) -> u16 {
    (address + 1) % 4096
}

// Returns a copy of `addresses`, which are at most four.
pub(crate) fn copied(addresses: &[u16]) -> ArrayVec<u16, STACK_DEPTH> {
    let mut copies = ArrayVec::new();
    match copies.try_extend_from_slice(addresses) {
        Ok(()) => copies,
        Err(_) => unreachable!(),
    }
}

// Returns the address one word before `address`, where FFF comes before 000.
fn before(address: u16) -> u16 {
    (address + 4095) % 4096
}

// Returns the instruction of `word`, which has an opcode of B to F.
#[inline(always)]
fn of_one(word: u16) -> Code {
    match decode(&[word]) {
        Ok(read) => read.0,
        Err(_) => unreachable!(),
    }
}

// Returns the instruction of `first`, which has an opcode of 0 to A, and `word`.
#[inline(always)]
fn of_two(first: u16, word: u16) -> Code {
    match decode(&[first, word]) {
        Ok(read) => read.0,
        Err(_) => unreachable!(),
    }
}
}
mod moving {
//! What an instruction did to the beam. A LABS is a move of intensity 0 with a mark, as it loads
//! counters of whole units, and a blank vector moves them.
use crate::beam::Beam;
use dvg_code::{Code, Instr};

/// What an instruction did to the beam, also where nothing is seen: a VCTR or an SVEC moved it, or
/// a LABS placed it. Positions are in 1/512 of a screen unit, below 2,097,152.
#[derive(Clone, Copy, Debug, PartialEq, Eq, Hash)]
#[cfg_attr(feature = "serde", derive(serde::Serialize, serde::Deserialize))]
#[cfg_attr(feature = "serde", serde(try_from = "crate::rust::MoveForm"))]
pub struct Move {
    /// Where it begins along x.
    pub x0: u32,
    /// Where it begins along y.
    pub y0: u32,
    /// Where it ends along x.
    pub x1: u32,
    /// Where it ends along y.
    pub y1: u32,
    /// Its intensity, 0 (blank) to 15. That of a LABS is 0.
    pub z: u8,
    /// Whether a LABS placed the beam there.
    pub placed: bool,
    /// The address of the instruction's first word, below 4,096.
    pub address: u16,
}

impl Move {
    /// Returns what `code`, whose first word is at `address`, does to `beam`. `None` means that it
    /// is a HALT, JSRL, RTSL or JMPL, which leaves the beam as it is.
    #[must_use]
    pub fn of(beam: &Beam, code: &Code, address: u16) -> Option<Move> {
        match code.instr() {
            Instr::Vctr { z, .. } | Instr::Svec { z, .. } => {
                Some(going(beam, code, z, false, address))
            }
            Instr::Labs { .. } => Some(going(beam, code, 0, true, address)),
            Instr::Halt | Instr::Jsrl(_) | Instr::Rtsl | Instr::Jmpl(_) => None,
        }
    }
}

// Returns the move of intensity `z` that `code`, whose first word is at `address`, makes from
// `beam`; `placed` says whether it is a LABS.
fn going(beam: &Beam, code: &Code, z: u8, placed: bool, address: u16) -> Move {
    let Beam { x, y, scale } = *beam;
    let mut after = Beam { x, y, scale };
    after.step(code);
    Move {
        x0: x,
        y0: y,
        x1: after.x,
        y1: after.y,
        z,
        placed,
        address,
    }
}
}
mod state {
//! A generator's state as a plain value. A generator is saved without its strokes, and resumed with
//! them: so each clause goes on after the same history.
use std::prelude::*;

use crate::STACK_DEPTH;
use crate::stroke::Stroke;
use arrayvec::ArrayVec;
use std::alloc::{Allocator, Global};
use thiserror::Error;

/// All that a generator keeps but its strokes, as a value that can be stored anywhere. Its fields
/// may hold anything: `is_valid` tells whether a generator can be in it. A `WrappingGenerator` can
/// where there are four return addresses, too: its registers.
#[derive(Debug)]
#[derive(Clone)]
pub struct GeneratorState {
    /// Whether a run is open.
    pub is_open: bool,
    /// The address of the next word, below 4,096.
    pub at: u16,
    /// The first word of the next word's instruction, if it was fetched. Its opcode is 0 to A.
    pub held: Option<u16>,
    /// The low byte of the next word, if it was fetched. `None` where no run is open.
    pub low: Option<u8>,
    /// The return addresses, the newest last, below 4,096 each.
    pub return_addresses: ArrayVec<u16, STACK_DEPTH>,
    /// The beam's position along x, in 1/512 of a screen unit, below 2,097,152.
    pub x: u32,
    /// The beam's position along y, below 2,097,152.
    pub y: u32,
    /// The global scale, 0 to 15.
    pub scale: u8,
}

impl GeneratorState {
    /// Returns whether a generator can be in this state: each field is in the range that stands at
    /// it.
    pub fn is_valid(&self) -> bool {
        self.at < 4096
            && self.held.is_none_or(|word| word < 0xB000)
            && (self.low.is_none() || self.is_open)
            && self.return_addresses.iter().all(|address| *address < 4096)
            && self.x < 2_097_152
            && self.y < 2_097_152
            && self.scale < 16
    }

    /// Returns why no generator goes on in this state, with `strokes` as what its run drew so far:
    /// `Fields` exactly where the state isn't valid, otherwise `Stroke` exactly where one of
    /// `strokes` isn't. `None` means that one can.
    #[must_use]
    pub fn fault_with(&self, strokes: &[Stroke]) -> Option<GeneratorStateFault> {
        if !self.is_valid() {
            return Some(GeneratorStateFault::Fields);
        }
        if !strokes.iter().all(|stroke| stroke.is_valid()) {
            return Some(GeneratorStateFault::Stroke);
        }
        None
    }
}

/// Why a generator isn't resumed.
#[derive(Clone, Copy, Debug, PartialEq, Eq, Error, Hash)]
#[cfg_attr(feature = "serde", derive(serde::Serialize, serde::Deserialize))]
#[non_exhaustive]
pub enum GeneratorStateFault {
    /// No generator of this kind can be in that state.
    #[error("no generator can be in that state")]
    Fields,
    /// One of the strokes is none: a place isn't below 2,097,152, or the intensity isn't 1 to 15.
    #[error("a stroke that no generator draws")]
    Stroke,
}

/// A generator wasn't resumed: why, and the strokes that it was to go on with.
#[derive(Debug)]
#[derive(Clone)]
pub struct GeneratorRefused<A: Allocator = Global> {
    /// Why it wasn't resumed.
    pub fault: GeneratorStateFault,
    /// What its run was to have drawn so far.
    pub strokes: Vec<Stroke, A>,
}
}
mod stroke {
//! What is seen.
use crate::beam::CIRCLE;

/// A line that was drawn. Positions are in 1/512 of a screen unit, below 2,097,152.
#[derive(Clone, Copy, Debug, PartialEq, Eq, Hash)]
#[cfg_attr(feature = "serde", derive(serde::Serialize, serde::Deserialize))]
#[cfg_attr(feature = "serde", serde(try_from = "crate::rust::StrokeForm"))]
pub struct Stroke {
    /// Where it begins along x.
    pub x0: u32,
    /// Where it begins along y.
    pub y0: u32,
    /// Where it ends along x.
    pub x1: u32,
    /// Where it ends along y.
    pub y1: u32,
    /// Its intensity, 1 to 15.
    pub z: u8,
}

impl Stroke {
    /// Returns whether a generator can draw this stroke: each field is in the range that stands at
    /// it.
    pub fn is_valid(&self) -> bool {
        let Stroke { x0, y0, x1, y1, z } = *self;
        is_inside(x0) && is_inside(y0) && is_inside(x1) && is_inside(y1) && matches!(z, 1..=15)
    }
}

// Returns whether the beam can be at `place`, along an axis.
fn is_inside(place: u32) -> bool {
    place < CIRCLE
}
}
mod taken {
//! What the generator returns.
use std::prelude::*;

use crate::stroke::Stroke;
use std::alloc::{Allocator, Global};
use thiserror::Error;

/// Why a run broke. That each of these stops the run is this project's own choice.
#[derive(Clone, Copy, Debug, PartialEq, Eq, Error, Hash)]
#[cfg_attr(feature = "serde", derive(serde::Serialize, serde::Deserialize))]
pub enum GenFault {
    /// A call with four return addresses saved.
    #[error("a call with four return addresses saved")]
    StackOver,
    /// A return with no return address saved.
    #[error("a return with no return address saved")]
    StackUnder,
    /// A fetch where no memory answers.
    #[error("a fetch where no memory answers")]
    Hole,
}

impl GenFault {
    /// Returns the number of the fault in texts and replies: 1 to 3, in the order in which the
    /// faults are declared (this project's own choice).
    pub fn number(self) -> u8 {
        match self {
            GenFault::StackOver => 1,
            GenFault::StackUnder => 2,
            GenFault::Hole => 3,
        }
    }
}

/// What a fetch led to. The strokes of a finished run are the generator's picture.
#[derive(Clone, Copy, Debug, PartialEq, Eq, Hash)]
pub enum Step {
    /// That was the low byte of a word, whose high byte comes next.
    Low,
    /// The word is complete, and the run goes on.
    Word,
    /// A HALT ended the run.
    Done,
    /// The run broke.
    Broke(GenFault),
}

/// What a fetch led to, with the strokes of a finished run.
#[derive(Debug)]
#[derive(Clone)]
pub enum Taken<A: Allocator = Global> {
    /// That was the low byte of a word, whose high byte comes next.
    Low,
    /// The word is complete, and the run goes on.
    Word,
    /// A HALT ended the run. These are its strokes, in the order drawn.
    Done(Vec<Stroke, A>),
    /// The run broke.
    Broke(GenFault),
}
}
mod wrapping {
//! A generator whose stack wraps.
use std::prelude::*;

use crate::STACK_DEPTH;
use crate::generator::{Generator, copied};
use crate::state::{GeneratorRefused, GeneratorState, GeneratorStateFault};
use crate::stroke::Stroke;
use crate::taken::Step;
use arrayvec::ArrayVec;
use dvg_code::OutOfMemory;
use std::alloc::{Allocator, Global};

/// A generator whose stack wraps, for whoever compares with hardware or an emulator that goes on: a
/// fifth call overwrites the oldest return address, and a return without a call goes to whatever a
/// register holds. All else is as with `Generator`, whose rules the rest of this project has.
///
/// The stack is four registers in a circle, round which a counter of two bits goes. A call writes
/// the address of the next word into the oldest one, and a return goes to the newest one, which is
/// the oldest then. That the stack wraps silently is how a common arcade emulator has it; that the
/// registers are 0 at first, and stay at a start and at a reset, is this project's own choice.
#[derive(Clone, Debug)]
pub struct WrappingGenerator<A: Allocator = Global> {
    // It jumps for each call and each return, so no address is on its own stack.
    generator: Generator<A>,
    // The newest first.
    registers: [u16; STACK_DEPTH],
}

impl<A: Allocator + Copy> WrappingGenerator<A> {
    /// Returns a new generator, which is halted and has no picture. Its strokes will be in memory
    /// of `alloc`.
    pub fn new(alloc: A) -> WrappingGenerator<A> {
        WrappingGenerator {
            generator: Generator::new(alloc),
            registers: [0; STACK_DEPTH],
        }
    }

    /// Begins a run at word zero, as `Generator::start` does. The registers stay, and so does the
    /// picture.
    pub fn start(&mut self) {
        self.generator.start();
    }

    /// Halts the generator, as `Generator::reset` does. The registers stay, and so does the
    /// picture.
    pub fn reset(&mut self) {
        self.generator.reset();
    }

    /// Returns the generator in it, which tells what is wanted, where the beam is, what the next
    /// byte moves, and the strokes and the picture. It jumps for each call and each return; their
    /// addresses are in `registers`.
    #[inline(always)]
    pub fn generator(&self) -> &Generator<A> {
        &self.generator
    }

    /// Returns the registers, the newest return address first.
    pub fn registers(&self) -> &[u16; STACK_DEPTH] {
        &self.registers
    }

    /// Takes the picture out, as `Generator::take_picture` does.
    #[inline(always)]
    pub fn take_picture(&mut self) -> Vec<Stroke, A> {
        self.generator.take_picture()
    }

    /// Takes out the strokes that the open run drew so far, as `Generator::take_strokes` does.
    pub fn take_strokes(&mut self) -> Vec<Stroke, A> {
        self.generator.take_strokes()
    }

    /// Returns all that the generator keeps but its strokes and its picture. The return addresses
    /// are the four registers, the newest last.
    pub fn state(&self) -> GeneratorState {
        let mut state = self.generator.state();
        state.return_addresses = oldest_first(&self.registers);
        state
    }

    /// Brings the generator into `state`, with `strokes` as what its run drew so far. So it goes on
    /// as the one whose `state` and `strokes` these were. No claim is made about a run that goes on
    /// with other strokes. The picture stays as it was. Returns the strokes with `Fields` exactly
    /// where `state` isn't valid or hasn't four return addresses, otherwise with `Stroke` exactly
    /// where one of `strokes` isn't valid; then nothing has changed.
    pub fn resume(
        &mut self,
        state: &GeneratorState,
        strokes: Vec<Stroke, A>,
    ) -> Result<(), GeneratorRefused<A>> {
        if !state.return_addresses.is_full() {
            return Err(GeneratorRefused {
                fault: GeneratorStateFault::Fields,
                strokes,
            });
        }
        if let Some(fault) = state.fault_with(strokes.as_slice()) {
            return Err(GeneratorRefused { fault, strokes });
        }
        self.registers = newest_first(&state.return_addresses);
        self.generator.go_on(&without_addresses(state), strokes);
        Ok(())
    }

    /// Takes `byte`, as `Generator::feed` does, and returns what it led to. A run must be open. No
    /// call and no return breaks it.
    #[inline(always)]
    pub fn feed(&mut self, byte: Option<u8>) -> Result<Step, OutOfMemory> {
        match self.turn_by(byte) {
            Some(word) => Ok(self.turn(word)),
            None => self.generator.feed(byte),
        }
    }

    // Returns the call or the return that `byte` completes.
    #[inline(always)]
    fn turn_by(&self, byte: Option<u8>) -> Option<u16> {
        let high = byte?;
        let low = self.generator.low_byte()?;
        let word = u16::from_le_bytes([low, high]);
        let is_turn = 0xC000 <= word && word < 0xE000 && self.generator.first_word().is_none();
        is_turn.then_some(word)
    }

    // Executes `word`, a JSRL or an RTSL: jumps, and rotates the registers. Returns `Word`.
    fn turn(&mut self, word: u16) -> Step {
        if word < 0xD000 {
            self.registers.rotate_right(1);
            self.registers[0] = self.generator.next_address();
            self.generator.jump(word % 4096)
        } else {
            let back = self.registers[0];
            self.registers.rotate_left(1);
            self.generator.jump(back)
        }
    }
}

// Returns the addresses of `registers`, the oldest first.
fn oldest_first(registers: &[u16; STACK_DEPTH]) -> ArrayVec<u16, STACK_DEPTH> {
    let mut addresses = *registers;
    addresses.reverse();
    copied(&addresses)
}

// Returns the registers with these `addresses`, of which there are four, the oldest first.
fn newest_first(addresses: &ArrayVec<u16, STACK_DEPTH>) -> [u16; STACK_DEPTH] {
    let mut registers = [0; STACK_DEPTH];
    registers.copy_from_slice(addresses.as_slice());
    registers.reverse();
    registers
}

// Returns `state` without its return addresses.
fn without_addresses(state: &GeneratorState) -> GeneratorState {
    GeneratorState {
        is_open: state.is_open,
        at: state.at,
        held: state.held,
        low: state.low,
        return_addresses: ArrayVec::new(),
        x: state.x,
        y: state.y,
        scale: state.scale,
    }
}
}

pub use beam::Beam;
pub use counters::Counters;
pub use generator::Generator;
pub use moving::Move;
pub use state::{GeneratorRefused, GeneratorState, GeneratorStateFault};
pub use stroke::Stroke;
pub use taken::{GenFault, Step, Taken};
pub use wrapping::WrappingGenerator;

/// The most return addresses that are kept: Atari's stack has four registers.
pub const STACK_DEPTH: usize = 4;

#[path = "../rust.rs"]
mod rust;
pub use rust::*;
