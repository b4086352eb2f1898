//! Consistent runs, of any system: what they are, what they draw, and a judge of any log. A run is
//! consistent if there is one moment at which memory held all that it read, and none of it changed
//! between that moment and its reading; else it is mixed. This crate needs nothing of a world:
//! `dvg_world` is in the middle of the longest chain of crates.
#![no_std]

extern crate plain_std as std;

pub mod examples {
//! Worked logs of a system that has one buffer, a display list in words 1 and 2: what the contracts
//! of the judge say of them, to who calls it.
use crate::judge::MomentJudge;

/// Both words are written between their readings, which is torn.
pub fn tears() -> bool {
    let mut judge = MomentJudge::new();
    judge.started();
    judge.fetched(1, 0x0101);
    judge.wrote(2, 0x05);
    judge.wrote(5, 0x07);
    judge.fetched(2, 0x0701);
    judge.is_torn()
}

/// A word is written after its reading, which is not.
pub fn is_written_late() -> bool {
    let mut judge = MomentJudge::new();
    judge.started();
    judge.fetched(1, 0x0101);
    judge.wrote(2, 0x05);
    judge.done(2, 0xB000)
}

/// What is read isn't what was written, so somebody else writes, too.
pub fn contradicts() -> bool {
    let mut judge = MomentJudge::new();
    judge.started();
    judge.wrote(2, 0x05);
    judge.contradicts_word(1, 0x0101)
}
}
mod judge {
//! A judge of logs, whoever made them: is each run consistent? It has a call for each kind of line.
//! Whoever has lines in another form chooses the call by one match: `take` here by event and entry,
//! dvg_logs by texts, in which a HALT has no word, and dvg_device by numbers. One type of line for
//! all three would be one match more for each.
use dvg_driver::Action;
use dvg_log::{Entry, Event, OwnEntry, OwnEvent};
use dvg_mem::MEMORY_BYTES;
use std::alloc::Allocator;

// The byte addresses of the words that have an address of 12 bits.
const TOLD_BYTES: usize = 0x2000;

// How the open run stands.
#[derive(Clone, Copy, Debug, PartialEq, Eq, Hash)]
enum Phase {
    // No run is open.
    Closed,
    // No byte changed since the run read it: the moment is now.
    Whole,
    // One did, and none of those that changed since was read: the moment was before that.
    Past,
    // There is no moment.
    Torn,
}

/// A judge of one log, whoever made it: of an emulator, of a core in a simulator, of a logic
/// analyser. It is told the log's lines in order, and whether a run is torn: whether there is no
/// moment of it at which all that it reads stands in memory, since of what it reads a byte changes
/// between any moment and its reading.
///
/// A byte changes where one is written that isn't what the log told of it last. So a byte that
/// comes back to what it was has changed twice. Of a byte that nothing was told of, each write is a
/// change: if just that was there already, a run may be called torn that is consistent.
///
/// It takes no memory, and counts nothing, so a log may be of any length. A call takes constant
/// time.
#[derive(Clone, Copy, Debug)]
pub struct MomentJudge {
    // What the log told of each byte that is at an address.
    told: [Option<u8>; TOLD_BYTES],
    // Which bytes of the RAM the newest run has read.
    read: [bool; MEMORY_BYTES],
    // Which of them changed since the moment, where that is past.
    changed: [bool; MEMORY_BYTES],
    // The low byte that waits for its high byte, after its word address.
    low: Option<(u16, u8)>,
    phase: Phase,
}

impl MomentJudge {
    /// Returns a judge that was told no line.
    pub fn new() -> MomentJudge {
        MomentJudge {
            told: [None; TOLD_BYTES],
            read: [false; MEMORY_BYTES],
            changed: [false; MEMORY_BYTES],
            low: None,
            phase: Phase::Closed,
        }
    }

    // Returns what was told of the byte at the byte address `at`. `None` from 2000 on, too.
    fn known(&self, at: usize) -> Option<u8> {
        if at < TOLD_BYTES { self.told[at] } else { None }
    }

    // Returns whether the low byte of the word at `address` waits for its high byte.
    fn waits(&self, address: u16) -> bool {
        match self.low {
            Some(low) => low.0 == address,
            None => false,
        }
    }

    // Returns whether the low byte of the word at `address` waits, and isn't `byte`.
    fn waits_as_another(&self, address: u16, byte: u8) -> bool {
        match self.low {
            Some(low) => low.0 == address && low.1 != byte,
            None => false,
        }
    }

    // Keeps that `byte` stood at the byte address `at`, and marks it as read, if it is of the RAM.
    // From 2000 on nothing changes.
    fn read_byte(&mut self, at: usize, byte: u8) {
        if at >= TOLD_BYTES {
            return;
        }
        self.told[at] = Some(byte);
        if at >= MEMORY_BYTES {
            return;
        }
        if self.phase == Phase::Past && self.changed[at] {
            self.phase = Phase::Torn;
        }
        self.read[at] = true;
    }

    // Reads the high byte of `word`, at the word address `address`, and the low one, if that
    // doesn't wait.
    fn read_word(&mut self, address: u16, word: u16) {
        let low = 2 * usize::from(address);
        if !self.waits(address) {
            self.read_byte(low, (word % 0x100) as u8);
        }
        self.read_byte(low + 1, (word / 0x100) as u8);
    }

    // Has the byte of the RAM at `at` change.
    fn change(&mut self, at: usize) {
        match self.phase {
            Phase::Whole if self.read[at] => {
                self.phase = Phase::Past;
                self.changed = [false; MEMORY_BYTES];
                self.changed[at] = true;
            }
            Phase::Past => self.changed[at] = true,
            _ => {}
        }
    }

    // Writes `byte` in the RAM at `at`: a change, unless just that was told of it.
    fn write_byte(&mut self, at: usize, byte: u8) {
        match self.known(at) {
            Some(known) if known == byte => {}
            _ => self.change(at),
        }
        self.told[at] = Some(byte);
    }

    // Ends the run.
    fn end(&mut self) {
        self.phase = Phase::Closed;
        self.low = None;
    }

    // Makes void what was told.
    fn forget(&mut self) {
        self.told = [None; TOLD_BYTES];
    }

    // Returns whether the run is known to be mixed.
    fn has_no_moment(&self) -> bool {
        self.phase == Phase::Torn
    }

    // Returns whether no run is open.
    fn has_no_run(&self) -> bool {
        self.phase == Phase::Closed
    }

    /// Returns whether a run is open.
    pub fn is_open(&self) -> bool {
        !self.has_no_run()
    }

    /// Returns whether a run is open that is mixed.
    pub fn is_torn(&self) -> bool {
        self.has_no_moment()
    }

    /// Takes a line that says that a strobe began a run.
    pub fn started(&mut self) {
        self.read = [false; MEMORY_BYTES];
        self.low = None;
        self.phase = Phase::Whole;
    }

    /// Takes a line that says that a fetch brought `byte`, the low byte of the word at the word
    /// address `address`.
    pub fn low(&mut self, address: u16, byte: u8) {
        self.read_byte(2 * usize::from(address), byte);
        self.low = Some((address, byte));
    }

    /// Takes a line that says that a fetch completed `word`, at the word address `address`, and the
    /// run goes on. Its low byte was read by that fetch, too, unless it was told before.
    pub fn fetched(&mut self, address: u16, word: u16) {
        self.read_word(address, word);
        self.low = None;
    }

    /// Takes a line that says that a fetch completed `word`, at the word address `address`, a HALT
    /// that ended the run. Returns whether that run is mixed.
    pub fn done(&mut self, address: u16, word: u16) -> bool {
        self.read_word(address, word);
        let torn = self.has_no_moment();
        self.end();
        torn
    }

    /// Takes a line that says no more than that the run ended: by a HALT whose word isn't told, by
    /// a fault, or by a reset of the generator. Ask `is_torn` before.
    pub fn ended(&mut self) {
        self.end();
    }

    /// Takes a line that says that `byte` was written at the byte address `address`. Outside the
    /// RAM, from 800 on, it changes nothing.
    pub fn wrote(&mut self, address: u16, byte: u8) {
        let at = usize::from(address);
        if at < MEMORY_BYTES {
            self.write_byte(at, byte);
        }
    }

    /// Takes a line that says that the whole system was reset. What was told of memory is void.
    pub fn reset(&mut self) {
        self.forget();
        self.end();
    }

    /// Takes a line that says nothing of memory or of a run.
    pub fn passed(&self) {}

    /// Returns whether the log told of the byte at the byte address `address`. `false` outside the
    /// RAM. Where it didn't, a write is a change, whatever stood there.
    pub fn is_told(&self, address: u16) -> bool {
        let at = usize::from(address);
        if at >= MEMORY_BYTES {
            return false;
        }
        match self.known(at) {
            Some(_) => true,
            None => false,
        }
    }

    // Ends the run, unless `starts`: then a new one began.
    fn reset_run(&mut self, starts: bool) {
        if !starts {
            self.end();
        }
    }

    // Takes the event of a line whose entry was taken as that of a tick. `starts` is whether the
    // entry is that of a run's beginning.
    fn take_event<A: Allocator>(&mut self, event: &OwnEvent<A>, starts: bool) {
        match event {
            Event::ResetGen => self.reset_run(starts),
            Event::ResetAll(_) => {
                self.forget();
                self.reset_run(starts);
            }
            _ => {}
        }
    }

    // Takes what the driver did.
    fn take_action(&mut self, action: Action) {
        if let Action::Wrote(address, byte) = action {
            self.wrote(address, byte);
        }
    }

    // Takes `entry` as that of a tick. Returns whether it ends a run that is mixed.
    fn take_entry<A: Allocator>(&mut self, entry: &OwnEntry<A>) -> bool {
        match entry {
            Entry::Started => {
                self.started();
                false
            }
            Entry::Low(address, byte) => {
                self.low(*address, *byte);
                false
            }
            Entry::Fetched(address, word) => {
                self.fetched(*address, *word);
                false
            }
            Entry::Done(address, word, _) => self.done(*address, *word),
            Entry::Broke(..) => {
                self.end();
                false
            }
            Entry::Acted(action) => {
                self.take_action(*action);
                false
            }
            _ => false,
        }
    }

    /// Takes one more line, by its `event` and its `entry`. Returns whether it is the HALT of a run
    /// that is mixed.
    pub fn take<A: Allocator>(&mut self, event: &OwnEvent<A>, entry: &OwnEntry<A>) -> bool {
        let torn = self.take_entry(entry);
        self.take_event(event, matches!(entry, Entry::Started));
        torn
    }

    // Returns whether another byte than `byte` was told at the byte address `at`.
    fn is_told_as_another(&self, at: usize, byte: u8) -> bool {
        match self.known(at) {
            Some(other) => other != byte,
            None => false,
        }
    }

    /// Returns whether a fetch that brings `byte`, the low byte of the word at the word address
    /// `address`, contradicts what was told of that byte last, be it of the RAM or of the ROM: then
    /// something unlogged wrote that byte, or the log is wrong. `false` from the word address 1000
    /// on, which no word has.
    pub fn contradicts_low(&self, address: u16, byte: u8) -> bool {
        self.is_told_as_another(2 * usize::from(address), byte)
    }

    /// Like `contradicts_low`, for a fetch that completes `word`, at the word address `address`,
    /// whether or not it ends the run. If the low byte was told before, by `low`, it is that one
    /// which the word has to have, also where another was written since: a generator keeps what it
    /// fetched.
    pub fn contradicts_word(&self, address: u16, word: u16) -> bool {
        let low = (word % 0x100) as u8;
        if self.waits_as_another(address, low) {
            return true;
        }
        let at = 2 * usize::from(address);
        if !self.waits(address) && self.is_told_as_another(at, low) {
            return true;
        }
        self.is_told_as_another(at + 1, (word / 0x100) as u8)
    }
}
}

pub use judge::MomentJudge;

#[path = "../rust.rs"]
mod rust;
