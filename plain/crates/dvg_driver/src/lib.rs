//! The driver: what the processor does to show one picture after another without tearing.
//!
//! The processor builds a frame in one half of the vector RAM while the generator may be drawing
//! the other one, the current half. Word zero of the RAM, where each run of the generator begins,
//! is a jump to the current half. The driver writes an accepted frame into the free half, one byte
//! a tick, and then one byte into word zero: the flip, which publishes the frame and makes its half
//! the current one. Only then does it wait until the HALT flag shows that the generator has
//! stopped, and sends the start strobe. So a generator that is started late, or once more, never
//! draws a half that is being written.
//!
//! The order of these steps is this project's own. The HALT flag, the start strobe and the jump in
//! word zero are those of Asteroids (Atari's schematics and DVG documentation). No call of this
//! crate takes memory.
#![no_std]

extern crate plain_std as std;

mod action {
//! What the driver does in a tick.
/// What the driver did in a tick. Whoever calls `tick` has done the reads beforehand, and does the
/// write or sends the strobe afterwards.
#[derive(Clone, Copy, Debug, PartialEq, Eq, Hash)]
#[cfg_attr(feature = "serde", derive(serde::Serialize, serde::Deserialize))]
#[cfg_attr(feature = "serde", serde(try_from = "crate::rust::ActionForm"))]
pub enum Action {
    /// It looked at byte 001 of the RAM, which names the current half.
    Peek,
    /// It writes this byte at this byte address of the RAM, 000 to 7FF.
    Wrote(u16, u8),
    /// It read the HALT flag: true where the generator is halted.
    Read(bool),
    /// It sends the start strobe to the generator.
    Sent,
    /// It had nothing to do.
    Idle,
}
}
mod driver {
//! The driver.
use crate::action::Action;
use crate::fault::{DriverFault, DriverStateFault};
use crate::state::{DriverState, Phase};
use dvg_frame::{Checked, Checker, Cursor, Draft, Frame};
use dvg_mem::{Half, Rom};
use std::alloc::Allocator;

/// The driver of the vector generator, from one reset to the next and beyond. It keeps at most one
/// frame: the one that it writes.
#[derive(Clone, Debug)]
pub struct Driver {
    phase: Phase,
    /// Gives the bytes of the newest frame. It counts only while the driver writes.
    cursor: Option<Cursor>,
    /// The current half, once the driver has looked at byte 001.
    half: Half,
    /// Whether it has flipped since its reset.
    flipped: bool,
}

impl Driver {
    /// Returns a driver that was just reset.
    pub fn new() -> Driver {
        Driver {
            phase: Phase::Start,
            cursor: None,
            half: Half::H0,
            flipped: false,
        }
    }

    /// Resets the driver: it forgets everything, even a frame that is being written.
    pub fn reset(&mut self) {
        // The half and the cursor no longer count: the peek and the next frame set them.
        self.phase = Phase::Start;
        self.flipped = false;
    }

    /// Returns whether the driver is idle, and so would take a frame.
    pub fn is_idle(&self) -> bool {
        match self.phase {
            Phase::Resting => true,
            _ => false,
        }
    }

    /// Takes `frame`, as `offer_checked` takes a checked draft; either way it is dropped. Returns
    /// `Busy` exactly where the driver isn't idle, and then nothing else has changed.
    pub fn offer(&mut self, frame: Frame) -> Result<(), DriverFault> {
        self.offer_checked(&frame.as_checked())
    }

    /// Takes `checked`, which the next ticks write into the free half and publish. Its operations
    /// are copied only where it is taken, into the memory that the driver has. Returns `Busy`
    /// exactly where the driver isn't idle, and then nothing has changed.
    pub fn offer_checked(&mut self, checked: &Checked) -> Result<(), DriverFault> {
        match self.phase {
            Phase::Resting => {
                begin(&mut self.cursor, checked, self.half.other());
                self.phase = Phase::Writing;
                Ok(())
            }
            _ => Err(DriverFault::Busy),
        }
    }

    /// Asks for the published frame once more. Returns `NothingPublished` exactly where the driver
    /// hasn't flipped since its reset, otherwise `Busy` exactly where it isn't idle. After an error
    /// nothing has changed.
    pub fn redraw(&mut self) -> Result<(), DriverFault> {
        if !self.flipped {
            return Err(DriverFault::NothingPublished);
        }
        match self.phase {
            Phase::Resting => {
                self.phase = Phase::Waiting;
                Ok(())
            }
            _ => Err(DriverFault::Busy),
        }
    }

    /// Does the next action of the script, and returns it. `halted` is the HALT flag, and `byte1`
    /// is byte 001 of the RAM; what isn't read has no effect. The caller does the write of a
    /// `Wrote`, and sends the strobe of a `Sent`.
    #[inline(always)]
    pub fn tick(&mut self, halted: bool, byte1: u8) -> Action {
        match self.next_byte() {
            Some((address, byte)) => Action::Wrote(address, byte),
            None => self.act(halted, byte1),
        }
    }

    /// Returns all that the driver keeps, as a value that `resume` takes over each ROM over which
    /// the check accepts the frame that is being written. That is copied.
    pub fn state(&self) -> DriverState {
        let written = match (self.phase, &self.cursor) {
            (Phase::Writing, Some(cursor)) => written_by(cursor),
            _ => (Draft::new(), self.half.other(), 0),
        };
        DriverState {
            phase: self.phase,
            half: self.half,
            flipped: self.flipped,
            frame: written.0,
            frame_half: written.1,
            left: written.2,
        }
    }

    /// Brings the driver into `state`: it goes on as the one whose state this is. A frame that is
    /// being written is checked by `checker`, over `rom`. Returns why the parts of `state` don't
    /// fit together over that ROM exactly where they don't, and then nothing has changed.
    pub fn resume<A: Allocator>(
        &mut self,
        state: &DriverState,
        checker: &mut Checker,
        rom: &Rom<A>,
    ) -> Result<(), DriverStateFault> {
        match state.phase {
            Phase::Start | Phase::Booting | Phase::Flipping if state.flipped => {
                return Err(DriverStateFault::Flipped);
            }
            Phase::Waiting | Phase::Sending if !state.flipped => {
                return Err(DriverStateFault::Flipped);
            }
            Phase::Writing => match cursor_of(state, checker, rom) {
                Ok(cursor) => self.cursor = Some(cursor),
                Err(fault) => return Err(fault),
            },
            _ => {}
        }
        self.phase = state.phase;
        self.half = state.half;
        self.flipped = state.flipped;
        Ok(())
    }

    // Returns the next byte of a frame that the driver writes, with its address before it: it is
    // written now. Returns `None` where no byte of a frame comes next, and then nothing has
    // changed.
    #[inline(always)]
    fn next_byte(&mut self) -> Option<(u16, u8)> {
        match self.phase {
            Phase::Writing => next_of(&mut self.cursor),
            _ => None,
        }
    }

    // Does the next action where no byte of a frame comes next, and returns it. `halted` and
    // `byte1` are those of `tick`. It isn't inlined, as most ticks write such a byte.
    #[inline(never)]
    fn act(&mut self, halted: bool, byte1: u8) -> Action {
        match self.phase {
            Phase::Start => {
                self.half = Half::of_high(byte1);
                self.phase = Phase::Booting;
                Action::Peek
            }
            Phase::Booting => {
                if halted {
                    self.phase = Phase::Resting;
                }
                Action::Read(halted)
            }
            Phase::Resting => Action::Idle,
            Phase::Writing => self.end_frame(),
            Phase::Flipping => self.flip(),
            Phase::Waiting => {
                if halted {
                    self.phase = Phase::Sending;
                }
                Action::Read(halted)
            }
            Phase::Sending => {
                self.phase = Phase::Resting;
                Action::Sent
            }
        }
    }

    // Goes on after the last byte of a frame, and returns what it did: it writes byte 000 where it
    // hasn't flipped since its reset, and otherwise it flips.
    fn end_frame(&mut self) -> Action {
        if self.flipped {
            return self.flip();
        }
        self.phase = Phase::Flipping;
        Action::Wrote(0, 0x01)
    }

    // Publishes the frame in the free half, which is the current one from now on.
    fn flip(&mut self) -> Action {
        self.half = self.half.other();
        self.flipped = true;
        self.phase = Phase::Waiting;
        Action::Wrote(1, self.half.high())
    }
}

// Returns the draft whose bytes `cursor` gives, the half that it is laid out for, and how many of
// them are still to come.
fn written_by(cursor: &Cursor) -> (Draft, Half, u16) {
    let source = cursor.source();
    (source.0.copy(), source.1, cursor.left())
}

// Returns a cursor over those bytes of the frame in `state` that are still to come. Returns a fault
// exactly where the check by `checker` over `rom` refuses that frame, it isn't laid out for the
// half that is free, or it has fewer bytes: the first of these.
fn cursor_of<A: Allocator>(
    state: &DriverState,
    checker: &mut Checker,
    rom: &Rom<A>,
) -> Result<Cursor, DriverStateFault> {
    let checked = match checker.check(state.frame.ops(), rom) {
        Ok(checked) => checked,
        Err(fault) => return Err(DriverStateFault::Frame(fault)),
    };
    if state.frame_half != state.half.other() {
        return Err(DriverStateFault::Half);
    }
    if state.left > 2 * checked.len_words() {
        return Err(DriverStateFault::Left);
    }
    Ok(Cursor::with_left(&checked, state.frame_half, state.left))
}

// Makes `cursor` begin with the bytes of `checked`, laid out for `half`.
fn begin(cursor: &mut Option<Cursor>, checked: &Checked, half: Half) {
    match cursor {
        Some(cursor) => cursor.restart(checked, half),
        None => begin_first(cursor, checked, half),
    }
}

// Does what `begin` does, for a `cursor` that is `None`. It isn't inlined: otherwise the room for a
// new cursor would be cleared for each frame.
#[inline(never)]
fn begin_first(cursor: &mut Option<Cursor>, checked: &Checked, half: Half) {
    *cursor = Some(Cursor::of(checked, half));
}

// Returns the next byte of `cursor`, which there must be, with its address before it, if one is
// still to come.
#[inline(always)]
fn next_of(cursor: &mut Option<Cursor>) -> Option<(u16, u8)> {
    match cursor {
        Some(cursor) => cursor.next(),
        None => unreachable!(), // While the driver writes there is a frame.
    }
}
}
mod fault {
//! Why the driver refuses.
use dvg_frame::FrameFault;
use thiserror::Error;

/// Why the driver refuses a frame or a redraw. Nothing has changed then.
#[derive(Clone, Copy, Debug, PartialEq, Eq, Error, Hash)]
#[cfg_attr(feature = "serde", derive(serde::Serialize, serde::Deserialize))]
pub enum DriverFault {
    /// It isn't idle: it still boots, or a frame or a redraw is under way.
    #[error("the driver isn't idle")]
    Busy,
    /// It was asked for a redraw, and hasn't published a frame since its reset.
    #[error("no frame was published since the reset")]
    NothingPublished,
}

/// Why a driver isn't resumed: which parts of the state don't fit together, over its ROM.
#[derive(Clone, Copy, Debug, PartialEq, Eq, Error, Hash)]
#[cfg_attr(feature = "serde", derive(serde::Serialize, serde::Deserialize))]
#[non_exhaustive]
pub enum DriverStateFault {
    /// It has flipped and can't have in its phase, or the other way round.
    #[error("whether the driver has flipped doesn't fit what it does")]
    Flipped,
    /// The check refuses the frame that is being written.
    #[error("the frame is refused: {0}")]
    Frame(FrameFault),
    /// The frame isn't laid out for the half that is free.
    #[error("the frame isn't laid out for the free half")]
    Half,
    /// More bytes of the frame are still to be written than it has.
    #[error("the frame has fewer bytes than are left of it")]
    Left,
}
}
mod state {
//! A driver's state as a plain value.
use dvg_frame::Draft;
use dvg_mem::Half;

/// How far a driver is in its script. What it writes of a frame stands beside it, so that a change
/// of the phase moves no frame.
#[derive(Clone, Copy, Debug, PartialEq, Eq, Hash)]
pub enum Phase {
    /// It has done nothing since its reset.
    Start,
    /// It waits for the first time until the generator is halted.
    Booting,
    /// It is idle.
    Resting,
    /// It writes a frame into the free half, and then word zero.
    Writing,
    /// It has written byte 000, and flips next.
    Flipping,
    /// It waits until the generator is halted.
    Waiting,
    /// It sends the strobe next.
    Sending,
}

/// All that a driver keeps, as a value that can be stored anywhere. Its fields may hold anything:
/// `Driver::resume` tells whether they fit together.
#[derive(Clone, Debug, PartialEq, Eq, Hash)]
pub struct DriverState {
    /// How far it is.
    pub phase: Phase,
    /// The current half, which byte 001 names. It is unknown, and doesn't count, in `Start`.
    pub half: Half,
    /// Whether it has flipped since its reset: never in `Start`, `Booting` and `Flipping`, and
    /// always in `Waiting` and `Sending`.
    pub flipped: bool,
    /// The frame that it writes. It counts only in `Writing`, and the check has to accept it.
    pub frame: Draft,
    /// The half that the frame is laid out for: in `Writing` the one that isn't the current one.
    pub frame_half: Half,
    /// How many bytes of the frame are still to be written: at most twice its words.
    pub left: u16,
}
}

pub use action::Action;
pub use driver::Driver;
pub use fault::{DriverFault, DriverStateFault};
pub use state::{DriverState, Phase};

#[path = "../rust.rs"]
mod rust;
