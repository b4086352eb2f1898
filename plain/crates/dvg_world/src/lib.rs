//! Both ends of the vector RAM together: the driver that writes frames, and the generator that
//! draws them.
//!
//! What happens is a list of events, in any order and number. `run` lets them happen to a new
//! `World`, one after the other, and returns its log, which has one entry for each of them. The
//! crate `dvg_log` has the events, the entries, and the definitions of the logs that the rules
//! allow: `run` returns no other log. The laws, of the crate `dvg_theorem`, say what holds of every
//! such log, and what is drawn of a checked frame that nobody writes to.
#![no_std]

extern crate plain_std as std;

mod desk {
//! A driver at its desk. Others call it a checked driver.
use std::prelude::*;

use dvg_code::OutOfMemory;
use dvg_driver::{Action, Driver, DriverFault, DriverState, DriverStateFault};
use dvg_frame::{Checker, Op};
use dvg_log::Entry;
use dvg_mem::{MemFault, Rom};
use std::alloc::{Allocator, Global};

/// A driver with the ROM over which its drafts are checked, and what they are checked by. It knows
/// no RAM: what it returns says what it does.
#[derive(Clone, Debug)]
pub struct Desk<A: Allocator = Global> {
    rom: Rom<A>,
    driver: Driver,
    checker: Box<Checker, A>,
}

impl<A: Allocator> Desk<A> {
    /// Returns a driver that was just reset, over `rom`. It takes some 67 KB from `alloc`, for the
    /// tables of the check. Returns `OutOfMemory` where an allocation fails.
    pub fn new(alloc: A, rom: Rom<A>) -> Result<Desk<A>, OutOfMemory> {
        Ok(Desk {
            rom,
            driver: Driver::new(),
            checker: Box::new(alloc, Checker::new())?,
        })
    }

    /// Resets the driver, over a ROM of the bytes `rom`. Memory is taken, from `alloc`, only for a
    /// ROM of another size. Returns `Size` exactly where the length of `rom` is neither 2,048 nor
    /// 4,096, and `OutOfMemory` where an allocation fails. After an error all is as it was.
    pub fn begin_anew(&mut self, alloc: A, rom: &[u8]) -> Result<(), MemFault> {
        match self.rom.copy_from(alloc, rom) {
            Ok(()) => {
                self.driver.reset();
                Ok(())
            }
            Err(fault) => Err(fault),
        }
    }

    /// Returns the ROM.
    pub fn rom(&self) -> &Rom<A> {
        &self.rom
    }

    /// Returns whether the driver is idle, and so would take a draft that the check accepts.
    pub(crate) fn is_idle(&self) -> bool {
        self.driver.is_idle()
    }

    /// Hands the draft of the operations `ops` to the driver to show, if the check accepts it.
    /// Returns the entry.
    pub fn offer(&mut self, ops: &[Op]) -> Entry<()> {
        let checked = match self.checker.check(ops, &self.rom) {
            Ok(checked) => checked,
            Err(fault) => return Entry::Refused(fault),
        };
        match self.driver.offer_checked(&checked) {
            Ok(()) => Entry::Offered,
            Err(_) => Entry::Busy,
        }
    }

    /// Asks the driver to have the published frame drawn again. Returns the entry.
    pub fn redraw(&mut self) -> Entry<()> {
        match self.driver.redraw() {
            Ok(()) => Entry::Asked,
            Err(DriverFault::NothingPublished) => Entry::NothingPublished,
            Err(DriverFault::Busy) => Entry::Busy,
        }
    }

    /// Lets the driver do one action, and returns it. `halted` says whether the generator is
    /// halted, and `byte1` is the byte at 001 of the RAM.
    #[inline(always)]
    pub fn tick(&mut self, halted: bool, byte1: u8) -> Action {
        self.driver.tick(halted, byte1)
    }

    /// Returns all that the driver keeps, as a value that `resume` takes over the same ROM.
    pub fn state(&self) -> DriverState {
        self.driver.state()
    }

    /// Brings the driver into `state`: it goes on as the one whose state this is. Returns why the
    /// parts of `state` don't fit together over this ROM exactly where they don't, and then nothing
    /// has changed.
    pub fn resume(&mut self, state: &DriverState) -> Result<(), DriverStateFault> {
        match self.driver.resume(state, &mut self.checker, &self.rom) {
            Ok(()) => Ok(()),
            Err(fault) => Err(fault),
        }
    }

    /// Resets the driver.
    pub fn reset(&mut self) {
        self.driver.reset();
    }
}
}
mod entries {
//! The entries of events, in little room. Others call this a run-length encoding.
use std::prelude::*;

use dvg_gen::Stroke;
use dvg_log::Entry;
use std::alloc::{Allocator, Global};

/// A run-length encoded entry: `entry`, `again + 1` times in a row. It has eight bytes.
#[derive(Clone, Copy)]
#[derive(Debug)]
pub(crate) struct Alike {
    pub(crate) entry: Entry<()>,
    pub(crate) again: u16,
}

/// The entries of events, in little room: equal ones may be kept as one, and the strokes of all
/// pictures lie in a list of their own. The nth entry that finished a run has the nth of these.
#[derive(Clone, Debug)]
pub struct Entries<A: Allocator = Global> {
    pub(crate) kept: Vec<Alike, A>,
    pub(crate) drawn: Vec<Vec<Stroke, A>, A>,
}

impl<A: Allocator> Entries<A> {
    /// Returns an iterator over the entries, as runs of equal ones. There are as many entries as a
    /// trace has events, or fewer.
    pub fn runs(&self) -> EntryRuns<'_, A> {
        EntryRuns {
            kept: self.kept.as_slice(),
            drawn: self.drawn.as_slice(),
        }
    }
}

/// An entry, and how many times in a row it comes: a run of equal entries.
#[derive(Clone, Copy)]
#[derive(Debug)]
pub struct EntryRun<'a> {
    /// The entry, without its strokes.
    pub entry: &'a Entry<()>,
    /// The number of times that it comes in a row.
    pub times: usize,
    /// What the generator's run drew, if the entry finished one; otherwise nothing.
    pub strokes: &'a [Stroke],
}

/// An iterator over entries, as runs of equal ones. The entries of two runs in a row may be equal.
#[derive(Clone, Debug)]
pub struct EntryRuns<'a, A: Allocator = Global> {
    kept: &'a [Alike],
    drawn: &'a [Vec<Stroke, A>],
}

impl<'a, A: Allocator> Iterator for EntryRuns<'a, A> {
    type Item = EntryRun<'a>;

    #[inline(always)]
    fn next(&mut self) -> Option<EntryRun<'a>> {
        let kept = self.kept;
        if kept.is_empty() {
            return None;
        }
        let entry = &kept[0].entry;
        let times = usize::from(kept[0].again) + 1;
        self.kept = &kept[1..];
        let drawn = self.drawn;
        let mut strokes: &'a [Stroke] = &[];
        if let Entry::Done(..) = entry {
            strokes = drawn[0].as_slice();
            self.drawn = &drawn[1..];
        }
        Some(EntryRun {
            entry,
            times,
            strokes,
        })
    }
}
}
mod judge {
//! A judge of logs, whoever made them.
use dvg_driver::Action;
use dvg_log::{Entry, Event, OwnEntry, OwnEvent};
use dvg_mem::Half;
use std::alloc::Allocator;

// What the open run of a log draws.
#[derive(Clone, Copy, Debug, PartialEq, Eq, Hash)]
enum Drawing {
    // No half: there is no open run, or it began with no jump to one.
    Nothing,
    // Nothing yet: the run is about to fetch word zero.
    Begun,
    // This half.
    Within(Half),
}

impl Drawing {
    // Returns what a run draws whose first word is `word`, at `address`.
    fn from_first(address: u16, word: u16) -> Drawing {
        if address != 0 || word / 0x1000 != 0xE {
            return Drawing::Nothing;
        }
        let Some(half) = Half::of_word(word % 0x1000) else {
            return Drawing::Nothing;
        };
        Drawing::Within(half)
    }

    // Returns what is drawn once `event` has happened, before its entry counts.
    fn after_event<A: Allocator>(self, event: &OwnEvent<A>) -> Drawing {
        match event {
            Event::ResetGen | Event::ResetAll(_) => Drawing::Nothing,
            _ => self,
        }
    }

    // Returns what is drawn after the fetch of `word` at `address`.
    fn after_fetch(self, address: u16, word: u16) -> Drawing {
        match self {
            Drawing::Begun => Drawing::from_first(address, word),
            _ => self,
        }
    }

    // Returns what is drawn after `entry`.
    fn after_entry<A: Allocator>(self, entry: &OwnEntry<A>) -> Drawing {
        match entry {
            Entry::Started => Drawing::Begun,
            Entry::Fetched(address, word) => self.after_fetch(*address, *word),
            Entry::Done(..) | Entry::Broke(..) => Drawing::Nothing,
            _ => self,
        }
    }

    // Returns whether the byte at `address` of the RAM lies in the half that is drawn, so that
    // writing it tears the picture.
    fn is_torn_at(self, address: u16) -> bool {
        let Drawing::Within(half) = self else {
            return false;
        };
        Half::of_word(address / 2) == Some(half)
    }

    // Returns whether `entry`, after which this is drawn, tears the picture.
    fn is_torn_by<A: Allocator>(self, entry: &OwnEntry<A>) -> bool {
        match entry {
            Entry::Acted(Action::Wrote(address, _)) => self.is_torn_at(*address),
            _ => false,
        }
    }
}

/// A judge of one log, whoever made it. It is handed the log's lines in order: each by its event
/// and its entry, or by what it shows. It keeps no more than which half the open run draws, and
/// takes no memory.
#[derive(Clone, Copy, Debug, PartialEq, Eq, Hash)]
pub struct Judge {
    drawing: Drawing,
}

impl Judge {
    /// Returns a judge that stands before the first line.
    pub fn new() -> Judge {
        Judge {
            drawing: Drawing::Nothing,
        }
    }

    /// Takes one more line, of `event` and `entry`. Returns whether that line tears a picture.
    pub fn take<A: Allocator>(&mut self, event: &OwnEvent<A>, entry: &OwnEntry<A>) -> bool {
        self.drawing = self.drawing.after_event(event).after_entry(entry);
        self.drawing.is_torn_by(entry)
    }

    /// Notes that a strobe began a run.
    pub fn started(&mut self) {
        self.drawing = Drawing::Begun;
    }

    /// Notes that a fetch completed the word `word` at the word address `address`, and the run goes
    /// on.
    #[inline(always)]
    pub fn fetched(&mut self, address: u16, word: u16) {
        self.drawing = self.drawing.after_fetch(address, word);
    }

    /// Notes that a fetch ended the run by a HALT, whatever its word address, its word and what it
    /// drew. The caller notes a run that broke in the same way.
    pub fn halted(&mut self) {
        self.drawing = Drawing::Nothing;
    }

    /// Notes a reset of the generator.
    pub fn reset(&mut self) {
        self.drawing = Drawing::Nothing;
    }

    /// Returns whether the open run draws a half: its first word was that at 000, a jump to one.
    #[inline(always)]
    pub fn is_drawing(&self) -> bool {
        matches!(self.drawing, Drawing::Within(_))
    }

    /// Returns whether a byte that the driver wrote at the byte address `address` of the RAM tears
    /// a picture.
    pub fn wrote(&self, address: u16) -> bool {
        self.drawing.is_torn_at(address)
    }
}

/// Returns the number of the first of `entries` that tears a picture: a byte written in the half
/// that the open run draws. Returns `None` exactly where there is none. `events` has the event of
/// each entry. The log may be any one, legal or not, such as that of another driver or of a test
/// program. Where one list is longer than the other, the rest of it is passed over.
///
/// A strobe that began a run opens it, and a HALT, a fault, and a reset of the generator or of the
/// whole system end it; such a reset ends it before its own entry counts. It draws a half where the
/// first word that it fetched is the one at 000, a jump to a word of that half: from that entry on.
/// No memory is taken, and each entry is looked at once.
#[must_use]
pub fn first_torn<A: Allocator>(events: &[OwnEvent<A>], entries: &[OwnEntry<A>]) -> Option<usize> {
    let mut judge = Judge::new();
    for number in 0..events.len().min(entries.len()) {
        if judge.take(&events[number], &entries[number]) {
            return Some(number);
        }
    }
    None
}
}
mod keeping {
//! Traces that happen to a world, and what is kept of them. One loop lets a trace happen, and a
//! `Keeper` has what is kept of it. It is lent the world, as a contract can't speak of what was
//! moved into a method of a trait.
use crate::world::World;
use dvg_code::OutOfMemory;
use dvg_driver::Action;
use dvg_log::{Entry, Trace, TraceEvent};
use dvg_mem::Store;

// What is kept of the lines of a log, in their order.
pub(crate) trait Keeper<S: Store> {
    // Returns whether `event` may be passed over where the driver isn't idle: it is an offer, and
    // the keeper keeps nothing of one that isn't taken.
    fn passes_over(&self, event: TraceEvent<'_, S::Alloc>) -> bool;

    // Records line `number` of the log: `entry`, which `world` just returned. The picture may be
    // taken out. There must be room.
    fn keep(&mut self, number: usize, entry: Entry<()>, world: &mut World<S>);

    // Keeps the next `times` lines, which are all of `entry`, where no run is finished. There must
    // be room.
    fn keep_alike(&mut self, entry: Entry<()>, times: usize);
}

// Returns whether `entry` is one that changes nothing, so that the same event has it again.
#[inline(always)]
fn changes_nothing(entry: Entry<()>) -> bool {
    matches!(
        entry,
        Entry::Still
            | Entry::Acted(Action::Idle)
            | Entry::Refused(_)
            | Entry::Busy
            | Entry::NothingPublished
            | Entry::NoStrobe
    )
}

// Lets `event` happen to `world` `times` times, the first time as event number `number`, and has
// `keeper` keep the lines. The rest is kept at once after an entry that changes nothing, and passed
// over where the keeper says so.
#[inline(always)]
fn happen_times<S: Store, K: Keeper<S>>(
    event: TraceEvent<'_, S::Alloc>,
    number: usize,
    times: usize,
    keeper: &mut K,
    world: &mut World<S>,
) -> Result<(), OutOfMemory> {
    if keeper.passes_over(event) && !world.is_idle() {
        return Ok(());
    }
    for done in 0..times {
        match world.happen(event) {
            Ok(entry) => {
                if changes_nothing(entry) {
                    keeper.keep_alike(entry, times - done);
                    return Ok(());
                }
                keeper.keep(number + done, entry, world);
            }
            Err(refused) => return Err(refused),
        }
    }
    Ok(())
}

// Does what `happen_times` does. Ticks and fetches come most often: by this they have a loop of
// their own.
#[inline(always)]
fn happen_run<'a, S: Store, K: Keeper<S>>(
    event: TraceEvent<'a, S::Alloc>,
    number: usize,
    times: usize,
    keeper: &mut K,
    world: &mut World<S>,
) -> Result<(), OutOfMemory> {
    let tick: TraceEvent<'a, S::Alloc> = TraceEvent::Tick;
    let fetch: TraceEvent<'a, S::Alloc> = TraceEvent::Fetch;
    match event {
        TraceEvent::Tick => happen_times(tick, number, times, keeper, world),
        TraceEvent::Fetch => happen_times(fetch, number, times, keeper, world),
        _ => happen_times(event, number, times, keeper, world),
    }
}

// Lets the events of `trace` happen to `world`, and has `keeper` keep the lines, for which there
// must be room. Returns whether all happened: it stops where an allocation fails.
pub(crate) fn happen_all<S: Store, K: Keeper<S>>(
    trace: &Trace<S::Alloc>,
    keeper: &mut K,
    world: &mut World<S>,
) -> bool {
    let mut number = 0;
    for run in trace.runs() {
        let times = run.1;
        match happen_run(run.0, number, times, keeper, world) {
            Ok(()) => number += times,
            Err(_) => return false,
        }
    }
    true
}
}
mod logging {
//! The entries of a trace.
use std::prelude::*;

use crate::entries::{Alike, Entries};
use crate::keeping::{Keeper, happen_all};
use crate::world::World;
use dvg_gen::Stroke;
use dvg_log::{Entry, Trace, TraceEvent};
use dvg_mem::{Image, Rom, Store};
use std::alloc::{Allocator, Global};

/// The entries of the events that happened.
#[derive(Clone, Debug)]
pub struct Logged<A: Allocator = Global> {
    /// The entries, in the order of their events.
    pub entries: Entries<A>,
    /// Whether all events happened. Where not, an allocation failed (which is tested).
    pub is_whole: bool,
}

impl<A: Allocator + Copy> Logged<A> {
    /// Returns what is kept of a run that stopped before its first event: empty lists, with the
    /// allocator `alloc`.
    pub fn unstarted(alloc: A) -> Logged<A> {
        Logged {
            entries: Entries {
                kept: Vec::new(alloc),
                drawn: Vec::new(alloc),
            },
            is_whole: false,
        }
    }
}

// What is kept where all entries are.
struct EntriesKept<A: Allocator> {
    kept: Vec<Alike, A>,
    drawn: Vec<Vec<Stroke, A>, A>,
}

impl<A: Allocator> EntriesKept<A> {
    // Keeps `entry`, `times` times in a row. `drew` has the strokes, if its run finished.
    #[inline(always)]
    fn add(&mut self, entry: Entry<()>, drew: Option<Vec<Stroke, A>>, times: usize) {
        if let Some(strokes) = drew {
            self.drawn.push_reserved(strokes);
        }
        let again = (times - 1) as u16;
        self.kept.push_reserved(Alike { entry, again });
    }

    // Returns what is kept. `is_whole` says whether all events happened.
    fn logged(self, is_whole: bool) -> Logged<A> {
        Logged {
            entries: Entries {
                kept: self.kept,
                drawn: self.drawn,
            },
            is_whole,
        }
    }
}

impl<S: Store> Keeper<S> for EntriesKept<S::Alloc> {
    #[inline(always)]
    fn passes_over(&self, _event: TraceEvent<'_, S::Alloc>) -> bool {
        false
    }

    #[inline(always)]
    fn keep(&mut self, _number: usize, entry: Entry<()>, world: &mut World<S>) {
        self.add(entry, world.take_drawn(entry), 1);
    }

    #[inline(always)]
    fn keep_alike(&mut self, entry: Entry<()>, times: usize) {
        self.add(entry, None, times);
    }
}

/// Lets the events of `trace` happen to a new world of `rom` and `image`, as `run_trace` does.
/// Keeps their entries in little room, in memory of `alloc`: those of the one legal log of these
/// events, of which each line keeps the headline.
///
/// It stops where an allocation fails, as `run_trace` does: before the first event, or at a fetch
/// that completes a vector with an intensity of at least 1. The entries are then those of the
/// events before. That an allocation really failed, and that a failure at such a fetch keeps what
/// came before, is tested: by its contract alone this might always stop at once, with nothing kept.
///
/// The lists are grown once, for as many as there are events, before the first happens.
pub fn log_trace<S: Store>(
    alloc: S::Alloc,
    rom: Rom<S::Alloc>,
    image: &Image<S::Alloc>,
    trace: &Trace<S::Alloc>,
) -> Logged<S::Alloc> {
    let Ok(mut world) = World::<S>::new(alloc, rom, image) else {
        return Logged::unstarted(alloc);
    };
    let Ok(kept) = Vec::with_capacity(alloc, trace.len()) else {
        return Logged::unstarted(alloc);
    };
    let Ok(drawn) = Vec::with_capacity(alloc, trace.len()) else {
        return Logged::unstarted(alloc);
    };
    let mut entries = EntriesKept { kept, drawn };
    let is_whole = happen_all(trace, &mut entries, &mut world);
    entries.logged(is_whole)
}
}
mod pictures {
//! The pictures of a trace.
use std::prelude::*;

use crate::keeping::{Keeper, happen_all};
use crate::world::World;
use dvg_gen::Stroke;
use dvg_log::{Entry, Trace, TraceEvent};
use dvg_mem::{Image, Rom, Store};
use std::alloc::{Allocator, Global};

/// A picture: what a finished run drew.
#[derive(Clone, Debug)]
pub struct Picture<A: Allocator = Global> {
    /// The number of the event that finished the run, counted from 0.
    pub event: usize,
    /// The strokes, in the order drawn.
    pub strokes: Vec<Stroke, A>,
}

/// The pictures of the events that happened.
#[derive(Clone, Debug)]
pub struct Drawn<A: Allocator = Global> {
    /// The pictures, in the order in which they were finished.
    pub pictures: Vec<Picture<A>, A>,
    /// Whether all events happened. Where not, an allocation failed (which is tested).
    pub is_whole: bool,
}

impl<A: Allocator> Drawn<A> {
    /// Returns what is kept of a run that stopped before its first event: an empty list, with the
    /// allocator `alloc`.
    pub fn unstarted(alloc: A) -> Drawn<A> {
        Drawn {
            pictures: Vec::new(alloc),
            is_whole: false,
        }
    }
}

// What is kept where pictures alone are.
struct PicturesKept<A: Allocator> {
    pictures: Vec<Picture<A>, A>,
}

impl<S: Store> Keeper<S> for PicturesKept<S::Alloc> {
    #[inline(always)]
    fn passes_over(&self, event: TraceEvent<'_, S::Alloc>) -> bool {
        matches!(event, TraceEvent::Offer(_))
    }

    #[inline(always)]
    fn keep(&mut self, number: usize, entry: Entry<()>, world: &mut World<S>) {
        let Some(strokes) = world.take_drawn(entry) else {
            return;
        };
        let event = number;
        self.pictures.push_reserved(Picture { event, strokes });
    }

    #[inline(always)]
    fn keep_alike(&mut self, _entry: Entry<()>, _times: usize) {}
}

/// Lets the events of `trace` happen to a new world of `rom` and `image`, as `run_trace` does.
/// Keeps the pictures alone, in memory of `alloc`: those of the one legal log of these events, of
/// which each line keeps the headline.
///
/// It stops where an allocation fails, as `run_trace` does: before the first event, or at a fetch
/// that completes a vector with an intensity of at least 1. The pictures are then those of the
/// events before. That an allocation really failed, and that a failure at such a fetch keeps what
/// came before, is tested: by its contract alone this might always stop at once, with nothing kept.
///
/// The list of pictures is grown once, for as many as there are events, before the first happens.
///
/// A draft is checked only where the driver is idle. Where the driver is busy or refuses it, an
/// offer changes nothing.
pub fn draw_trace<S: Store>(
    alloc: S::Alloc,
    rom: Rom<S::Alloc>,
    image: &Image<S::Alloc>,
    trace: &Trace<S::Alloc>,
) -> Drawn<S::Alloc> {
    let Ok(mut world) = World::<S>::new(alloc, rom, image) else {
        return Drawn::unstarted(alloc);
    };
    let Ok(pictures) = Vec::with_capacity(alloc, trace.len()) else {
        return Drawn::unstarted(alloc);
    };
    let mut kept = PicturesKept { pictures };
    let is_whole = happen_all(trace, &mut kept, &mut world);
    Drawn {
        pictures: kept.pictures,
        is_whole,
    }
}
}
mod runs {
//! Whole runs.
use std::prelude::*;

use crate::keeping::{Keeper, happen_all};
use crate::stopped::Stopped;
use crate::world::World;
use dvg_log::{Entry, OwnEntry, OwnEvent, Trace, TraceEvent};
use dvg_mem::{Image, Rom, Store};
use std::alloc::Allocator;

/// Lets `events` happen to a new world of `rom` and `image`, one after the other, and returns the
/// entry of each, in their order. Memory is taken from `alloc`.
///
/// For every ROM, first image of the RAM and list of events, whatever they are, each line of the
/// log keeps the headline (`KeepsHeadline`, of which each part has a name): no byte is written in
/// the half being drawn, the generator never faults, and every run that reaches HALT drew exactly
/// the picture of the frame newest published when it fetched word zero, so no picture is older than
/// the one before. What a run shows has a picture: the run is finished at the picture's last fetch,
/// and fetches at most two bytes for each word of the frame's bound. A run that has fetched word
/// zero is drawing a half, and the half holds the frame that the run shows. The log has one entry
/// for each event, and each entry is the one that its event gets over the log before it: the log is
/// legal, so driver and generator really act.
///
/// This rests on three premises. The log ends early only where an allocation fails: before the
/// first event, or at a fetch that completes a vector with an intensity of at least 1. `Stopped`
/// then has the entries of the events before, and all this holds of their log. A strobe arrives
/// only after the driver sent one since the last reset of the whole system, or the beginning; it
/// may arrive never, once or often. One access of memory is whole: one byte written, or one byte
/// fetched.
///
/// That an allocation really failed, and that a failure at such a fetch keeps what came before, is
/// tested: by its contract alone this might always stop at once, with nothing kept.
///
/// It isn't said that a strobe, a tick or a fetch ever comes, that a picture is ever drawn, or that
/// a frame that was accepted is: a later one may replace it. Nothing is said of real hardware.
///
/// The log is grown once, for all events, before the first happens.
pub fn run<S: Store>(
    alloc: S::Alloc,
    rom: Rom<S::Alloc>,
    image: &Image<S::Alloc>,
    events: &[OwnEvent<S::Alloc>],
) -> Result<Vec<OwnEntry<S::Alloc>, S::Alloc>, Stopped<S::Alloc>> {
    let Ok(mut world) = World::<S>::new(alloc, rom, image) else {
        return Err(unstarted(alloc));
    };
    let Ok(mut entries) = Vec::with_capacity(alloc, events.len()) else {
        return Err(unstarted(alloc));
    };
    for number in 0..events.len() {
        match world.apply(&events[number]) {
            Ok(entry) => entries.push_reserved(entry),
            Err(_) => {
                return Err(Stopped {
                    entries,
                    event: number,
                });
            }
        }
    }
    Ok(entries)
}

/// Lets the events of `trace` happen to a new world of `rom` and `image`, as `run` does with a list
/// of them: each line of the log keeps the headline, and the log is the one legal log of these
/// events. Memory is taken from `alloc`. The clauses are those of `run`.
pub fn run_trace<S: Store>(
    alloc: S::Alloc,
    rom: Rom<S::Alloc>,
    image: &Image<S::Alloc>,
    trace: &Trace<S::Alloc>,
) -> Result<Vec<OwnEntry<S::Alloc>, S::Alloc>, Stopped<S::Alloc>> {
    let Ok(mut world) = World::<S>::new(alloc, rom, image) else {
        return Err(unstarted(alloc));
    };
    let Ok(entries) = Vec::with_capacity(alloc, trace.len()) else {
        return Err(unstarted(alloc));
    };
    let mut kept = OwnEntries { alloc, entries };
    if happen_all(trace, &mut kept, &mut world) {
        return Ok(kept.entries);
    }
    let event = kept.entries.len();
    Err(Stopped {
        entries: kept.entries,
        event,
    })
}

// The entries of a log, each of which owns its strokes.
struct OwnEntries<A: Allocator> {
    alloc: A,
    entries: Vec<OwnEntry<A>, A>,
}

impl<S: Store> Keeper<S> for OwnEntries<S::Alloc> {
    fn passes_over(&self, _event: TraceEvent<'_, S::Alloc>) -> bool {
        false
    }

    fn keep(&mut self, _number: usize, entry: Entry<()>, world: &mut World<S>) {
        self.entries.push_reserved(world.own(entry));
    }

    fn keep_alike(&mut self, entry: Entry<()>, times: usize) {
        for _again in 0..times {
            self.entries.push_reserved(entry.with(Vec::new(self.alloc)));
        }
    }
}

// Returns a run that stopped before its first event. Its list is empty, with the allocator `alloc`.
fn unstarted<A: Allocator + Copy>(alloc: A) -> Stopped<A> {
    Stopped {
        entries: Vec::new(alloc),
        event: 0,
    }
}
}
mod state {
//! A world's state as a plain value.
use std::prelude::*;

use dvg_driver::{DriverState, DriverStateFault};
use dvg_gen::{GeneratorState, GeneratorStateFault, Stroke};
use dvg_mem::Image;
use std::alloc::{Allocator, Global};
use thiserror::Error;

/// All that a world keeps but its ROM and its picture, as a value that can be stored anywhere. Its
/// fields may hold anything: `World::resume` tells whether they fit.
#[derive(Debug)]
#[derive(Clone)]
pub struct WorldState<A: Allocator = Global> {
    /// What the RAM holds.
    pub ram: Image<A>,
    /// All that the generator keeps but its strokes.
    pub generator: GeneratorState,
    /// What the open run has drawn so far.
    pub strokes: Vec<Stroke, A>,
    /// All that the driver keeps.
    pub driver: DriverState,
    /// Whether a strobe is under way.
    pub strobe_sent: bool,
}

/// Why a world isn't resumed: which parts of the state don't fit, over its ROM.
#[derive(Clone, Copy, Debug, PartialEq, Eq, Error, Hash)]
#[cfg_attr(feature = "serde", derive(serde::Serialize, serde::Deserialize))]
#[non_exhaustive]
pub enum WorldStateFault {
    /// No generator goes on in its state, with the strokes.
    #[error("the generator isn't resumed: {0}")]
    Generator(GeneratorStateFault),
    /// The parts of the driver's state don't fit together: of another ROM, for example.
    #[error("the driver isn't resumed: {0}")]
    Driver(DriverStateFault),
}

/// A world wasn't resumed: why, and the state that it was to go on in.
#[derive(Debug)]
#[derive(Clone)]
pub struct WorldRefused<A: Allocator = Global> {
    /// Why it wasn't resumed.
    pub fault: WorldStateFault,
    /// The state, as it was handed over.
    pub state: WorldState<A>,
}
}
mod stopped {
//! Runs that stop early.
use std::prelude::*;

use dvg_log::OwnEntry;
use std::alloc::{Allocator, Global};
use thiserror::Error;

/// A run that stopped because an allocation failed, and for no other cause (which is tested).
#[derive(Error)]
#[derive(Debug, PartialEq, Eq, Hash)]
#[error("memory was refused at event {event}")]
#[derive(Clone)]
pub struct Stopped<A: Allocator = Global> {
    /// The entries of the events before the one at which the run stopped.
    pub entries: Vec<OwnEntry<A>, A>,
    /// The number of the event at which the run stopped, counted from 0. It has no entry.
    pub event: usize,
}
}
mod world {
//! The world: both ends of the vector RAM, one event at a time. It keeps the picture, and its
//! entries have none: so memory is used again. Who needs the strokes takes them out, as `apply`
//! does.
use std::prelude::*;

use crate::desk::Desk;
use crate::state::{WorldRefused, WorldState, WorldStateFault};
use dvg_code::OutOfMemory;
use dvg_driver::{Action, DriverState};
use dvg_frame::{Draft, Op};
use dvg_gen::{Beam, Generator, Stroke};
use dvg_log::{Entry, Event, OwnEntry, OwnEvent, TraceEvent};
use dvg_mem::{Image, MEMORY_BYTES, MemFault, Rom, Store, fetch_byte};

/// Both ends of the vector RAM: the driver that writes frames into it, and the generator that draws
/// out of it and out of the ROM.
///
/// `apply` lets any event happen, and the calls beside it one each. If the world stands after a
/// legal log, each returns the entry that its event gets over that log. The world then stands after
/// the log with this line (`stands`), and the line keeps the headline (`headline`).
///
/// A strobe that the driver has sent is under way until the next reset of the whole system, and may
/// arrive never, once or often (this project's own choice, as a strobe that the hardware passes
/// over is one that never arrives).
#[derive(Clone, Debug)]
pub struct World<S: Store> {
    desk: Desk<S::Alloc>,
    store: S,
    generator: Generator<S::Alloc>,
    strobe_sent: bool,
    // What the strokes of an entry lie in, where it has none.
    alloc: S::Alloc,
}

impl<S: Store> World<S> {
    /// Returns a world at its beginning, over `rom`: the RAM holds `image`, the generator is halted
    /// with the beam at 0, 0 and scale 0, the driver boots, and no strobe is under way.
    ///
    /// The world takes its memory from `alloc`: that of its store, and then some 67 KB for the
    /// tables of the check. Returns `OutOfMemory` where an allocation fails. A fetch takes memory
    /// later on, for the list of a run's strokes, and nothing else does.
    pub fn new(
        alloc: S::Alloc,
        rom: Rom<S::Alloc>,
        image: &Image<S::Alloc>,
    ) -> Result<World<S>, OutOfMemory> {
        // An image is one of 2,048 bytes, as its type says.
        let _ = image.bytes();
        let store = S::make(alloc, image)?;
        let desk = Desk::new(alloc, rom)?;
        Ok(World {
            desk,
            store,
            generator: Generator::new(alloc),
            strobe_sent: false,
            alloc,
        })
    }

    /// Begins anew, as the world that `new` makes of `image` and a ROM of the bytes `rom`, in the
    /// memory that it has. This is for callers that open one world after another. Memory is taken,
    /// from `alloc`, only for a ROM of another size.
    ///
    /// Returns `Size` exactly where the length of `rom` is neither 2,048 nor 4,096, and
    /// `OutOfMemory` where an allocation fails. After an error the world is as it was.
    pub fn begin_anew(
        &mut self,
        alloc: S::Alloc,
        rom: &[u8],
        image: &Image<S::Alloc>,
    ) -> Result<(), MemFault> {
        match self.desk.begin_anew(alloc, rom) {
            Ok(()) => {
                self.power_up(alloc, image);
                Ok(())
            }
            Err(fault) => Err(fault),
        }
    }

    // Makes all but the ROM as in a new world, whose RAM holds `image` and whose strokes will be in
    // memory of `alloc`.
    fn power_up(&mut self, alloc: S::Alloc, image: &Image<S::Alloc>) {
        // An image is one of 2,048 bytes, and a ROM has 2,048 or 4,096, as their types say.
        let _ = image.bytes();
        let _ = self.desk.rom().len_words();
        self.store.load(image);
        self.generator = Generator::new(alloc);
        self.desk.reset();
        self.strobe_sent = false;
        self.alloc = alloc;
    }

    /// Lets `event` happen, by the call that does it, and returns its entry. The strokes of a run
    /// that it finishes are taken out of the world.
    ///
    /// Returns `OutOfMemory` where an allocation fails, and then the world is as it was. That comes
    /// only for a fetch that completes a vector with an intensity of at least 1.
    pub fn apply(&mut self, event: &OwnEvent<S::Alloc>) -> Result<OwnEntry<S::Alloc>, OutOfMemory> {
        match self.happen(event.lent()) {
            Ok(entry) => Ok(self.own(entry)),
            Err(refused) => Err(refused),
        }
    }

    // Lets `event` happen, by the call that does it, and returns its entry. Returns `OutOfMemory`
    // where an allocation fails, and then the world is as it was.
    #[inline(always)]
    pub(crate) fn happen(
        &mut self,
        event: TraceEvent<'_, S::Alloc>,
    ) -> Result<Entry<()>, OutOfMemory> {
        match event {
            Event::Offer(ops) => Ok(self.offer_ops(ops)),
            Event::Redraw => Ok(self.redraw()),
            Event::Tick => Ok(self.tick()),
            Event::Strobe => Ok(self.strobe()),
            Event::Fetch => self.fetch(),
            Event::ResetGen => Ok(self.reset_generator()),
            Event::ResetCpu => Ok(self.reset_processor()),
            Event::ResetAll(image) => Ok(self.reset_all(image)),
        }
    }

    // Returns `entry`, the newest one, with the strokes of the run that it finished, if it did.
    // They are taken out of the world.
    pub(crate) fn own(&mut self, entry: Entry<()>) -> OwnEntry<S::Alloc> {
        let Some(drew) = self.take_drawn(entry) else {
            return entry.with(Vec::new(self.alloc));
        };
        entry.with(drew)
    }

    // Returns whether the driver is idle, and so would take a draft that the check accepts.
    pub(crate) fn is_idle(&self) -> bool {
        self.desk.is_idle()
    }

    /// Hands `draft` to the driver to show, as by `Event::Offer`. Returns the entry.
    #[inline(always)]
    pub fn offer(&mut self, draft: &Draft) -> Entry<()> {
        self.offer_ops(draft.ops())
    }

    // Hands the draft of the operations `ops` to the driver to show, as `offer` does. Returns the
    // entry.
    #[inline(always)]
    pub(crate) fn offer_ops(&mut self, ops: &[Op]) -> Entry<()> {
        self.desk.offer(ops)
    }

    /// Asks the driver to have the published frame drawn again, as by `Event::Redraw`. Returns the
    /// entry.
    #[inline(always)]
    pub fn redraw(&mut self) -> Entry<()> {
        self.desk.redraw()
    }

    /// Lets the driver do one action, as by `Event::Tick`. Returns the entry.
    #[inline(always)]
    pub fn tick(&mut self) -> Entry<()> {
        Entry::Acted(self.act())
    }

    /// Lets the driver do one action, as `tick` does, and returns the action. Where it is idle,
    /// nothing changes.
    #[inline(always)]
    pub fn act(&mut self) -> Action {
        let byte1 = self.store.read(1);
        let action = self.desk.tick(self.generator.halted(), byte1);
        self.perform(action);
        action
    }

    // Does the write of `action` in the store, or puts its strobe under way.
    #[inline(always)]
    fn perform(&mut self, action: Action) {
        match action {
            Action::Wrote(a, byte) => self.store.write(a, byte),
            Action::Sent => self.strobe_sent = true,
            Action::Peek | Action::Read(_) | Action::Idle => {}
        }
    }

    /// Lets a strobe reach the generator, if the driver has sent one, as by `Event::Strobe`.
    /// Returns the entry.
    #[inline(always)]
    pub fn strobe(&mut self) -> Entry<()> {
        if !self.strobe_sent {
            return Entry::NoStrobe;
        }
        self.generator.start();
        Entry::Started
    }

    /// Lets the generator fetch one byte, as by `Event::Fetch`. Returns the entry. Where it is
    /// `Done`, the run's strokes are the new picture; otherwise the picture stays as it was.
    ///
    /// This is the one event that takes memory, for the stroke of a vector with an intensity of at
    /// least 1. Returns `OutOfMemory` where an allocation fails, and then the world is as it was.
    #[inline(always)]
    pub fn fetch(&mut self) -> Result<Entry<()>, OutOfMemory> {
        let Some(address) = self.generator.wants() else {
            return Ok(Entry::Still);
        };
        let low = self.generator.low_byte();
        let byte = fetch_byte(&self.store, self.desk.rom(), address, low.is_some());
        let step = self.generator.feed(byte)?;
        Ok(Entry::of_fetch(address, low, byte, step, ()))
    }

    /// Returns whether the next byte that the generator fetches is the high one of its word: the
    /// last fetch of the open run was of the low byte.
    #[inline(always)]
    pub fn wants_high(&self) -> bool {
        self.generator.low_byte().is_some()
    }

    /// Returns the byte of the RAM at `address`, a byte address below 2,048.
    pub fn byte(&self, address: u16) -> u8 {
        self.store.read(address)
    }

    /// Returns all bytes of the RAM, from address 000 on.
    pub fn ram(&self) -> [u8; MEMORY_BYTES] {
        bytes_in(&self.store)
    }

    /// Returns the beam: where the instructions of all runs so far have left it, with the global
    /// scale.
    pub fn beam(&self) -> Beam {
        self.generator.beam()
    }

    /// Returns the generator, to be asked what it holds.
    pub fn generator(&self) -> &Generator<S::Alloc> {
        &self.generator
    }

    /// Returns all that the driver keeps, as a driver over the same ROM takes it.
    pub fn driver(&self) -> DriverState {
        self.desk.state()
    }

    /// Returns whether a strobe is under way: the driver has sent one since the newest reset of the
    /// whole system.
    pub fn strobe_sent(&self) -> bool {
        self.strobe_sent
    }

    /// Returns the picture: the strokes of the newest run that came to a HALT, in the order drawn.
    /// There are none before the first HALT, and after the picture was taken.
    pub fn picture(&self) -> &[Stroke] {
        self.generator.picture()
    }

    /// Takes the picture out, and leaves an empty one. No event happens, so the log stays as it is.
    #[inline(always)]
    pub fn take_picture(&mut self) -> Vec<Stroke, S::Alloc> {
        self.generator.take_picture()
    }

    // Takes the picture out, if `entry`, the newest one, finished the run that drew it.
    #[inline(always)]
    pub(crate) fn take_drawn(&mut self, entry: Entry<()>) -> Option<Vec<Stroke, S::Alloc>> {
        match entry {
            Entry::Done(..) => Some(self.take_picture()),
            _ => None,
        }
    }

    /// Returns all that the world keeps but its ROM and its picture, as a value that `resume` takes
    /// over the same ROM (`taken`). It is copied into memory of the world's allocator. Returns
    /// `OutOfMemory` where an allocation fails.
    pub fn state(&self) -> Result<WorldState<S::Alloc>, OutOfMemory> {
        let mut strokes = Vec::new(self.alloc);
        strokes.extend_from_slice(self.generator.strokes())?;
        Ok(WorldState {
            ram: self.image()?,
            generator: self.generator.state(),
            strokes,
            driver: self.desk.state(),
            strobe_sent: self.strobe_sent,
        })
    }

    // Returns a copy of the RAM. Returns `OutOfMemory` where an allocation fails.
    fn image(&self) -> Result<Image<S::Alloc>, OutOfMemory> {
        let Ok(image) = Image::new(self.alloc, &self.ram()) else {
            return Err(OutOfMemory);
        };
        Ok(image)
    }

    /// Brings the world into `state`: it goes on as each world over this ROM that was in `state`
    /// (`stands`). The ROM stays, and so does the picture. Returns `state`, and why its parts don't
    /// fit, exactly where no generator goes on in its state with the strokes, or else the driver's
    /// parts don't fit together; then nothing has changed. So it takes all that `state` returned
    /// over this ROM. No claim is made about parts that fit, and that no world had at once.
    pub fn resume(&mut self, state: WorldState<S::Alloc>) -> Result<(), WorldRefused<S::Alloc>> {
        if let Some(fault) = state.generator.fault_with(state.strokes.as_slice()) {
            let fault = WorldStateFault::Generator(fault);
            return Err(WorldRefused { fault, state });
        }
        if let Err(fault) = self.desk.resume(&state.driver) {
            let fault = WorldStateFault::Driver(fault);
            return Err(WorldRefused { fault, state });
        }
        let WorldState {
            ram,
            generator,
            strokes,
            driver: _,
            strobe_sent,
        } = state;
        let Ok(()) = self.generator.resume(&generator, strokes) else {
            unreachable!()
        };
        self.store.load(&ram);
        self.strobe_sent = strobe_sent;
        Ok(())
    }

    /// Resets the generator, as by `Event::ResetGen`. Returns the entry.
    #[inline(always)]
    pub fn reset_generator(&mut self) -> Entry<()> {
        self.generator.reset(); // The open run is over.
        Entry::Cleared
    }

    /// Resets the driver, as by `Event::ResetCpu`. Returns the entry.
    #[inline(always)]
    pub fn reset_processor(&mut self) -> Entry<()> {
        self.desk.reset();
        Entry::Cleared
    }

    /// Resets the whole system, after which the RAM holds `image`, as by `Event::ResetAll`. Returns
    /// the entry.
    #[inline(always)]
    pub fn reset_all(&mut self, image: &Image<S::Alloc>) -> Entry<()> {
        self.store.load(image);
        self.generator.reset();
        self.desk.reset();
        self.strobe_sent = false; // No strobe is under way any more.
        Entry::Cleared
    }
}

// Returns the bytes that `store` holds, from address 000 on.
fn bytes_in<S: Store>(store: &S) -> [u8; MEMORY_BYTES] {
    let mut bytes = [store.read(0); MEMORY_BYTES];
    for a in 0..MEMORY_BYTES {
        bytes[a] = store.read(a as u16);
    }
    bytes
}
}

pub use desk::Desk;
pub use dvg_log::{Entry, Event, MOST_EVENTS, OwnEntry, OwnEvent, Trace, TraceEvent};
pub use entries::{Entries, EntryRun, EntryRuns};
pub use judge::{Judge, first_torn};
pub use logging::{Logged, log_trace};
pub use pictures::{Drawn, Picture, draw_trace};
pub use runs::{run, run_trace};
pub use state::{WorldRefused, WorldState, WorldStateFault};
pub use stopped::Stopped;
pub use world::World;

#[path = "../rust.rs"]
mod rust;
