//! What happens to the vector RAM, and what it leads to: events, entries, and the logs of both.
//!
//! Its `specs/` say which logs the rules allow, which lines tear a picture, and what the headline
//! says of a line. Nothing here makes a log.
#![no_std]

extern crate plain_std as std;

mod entry {
//! What a log shows of an event.
use std::prelude::*;

use dvg_driver::Action;
use dvg_frame::FrameFault;
use dvg_gen::{GenFault, Step, Stroke};
use std::alloc::Global;

/// What an event led to. Each event has exactly one entry.
///
/// `S` is what a finished run drew.
#[derive(Clone, Copy, Debug, PartialEq, Eq, Hash)]
#[cfg_attr(feature = "serde", derive(serde::Serialize, serde::Deserialize))]
#[cfg_attr(feature = "serde", serde(try_from = "crate::rust::EntryForm<S>"))]
pub enum Entry<S = Vec<Stroke>> {
    /// The draft was checked, and the driver took its frame.
    Offered,
    /// The check refused the draft.
    Refused(FrameFault),
    /// The driver isn't idle. The frame was dropped, or there is no redraw.
    Busy,
    /// The driver took the redraw.
    Asked,
    /// There is no redraw, as the driver hasn't published a frame since its reset.
    NothingPublished,
    /// The driver did this action. A byte that it wrote stands in the RAM.
    Acted(Action),
    /// The strobe began a run, at word zero. A run that was open is abandoned.
    Started,
    /// The strobe had no effect: the driver hasn't sent one since the last reset of the whole
    /// system, or the beginning.
    NoStrobe,
    /// The generator fetched the low byte of the word at this word address.
    Low(u16, u8),
    /// The generator fetched the high byte at this word address. This is the word, and its run goes
    /// on.
    Fetched(u16, u16),
    /// The generator fetched the high byte at this word address. This is the word, a HALT. Its run
    /// is finished, and drew these strokes, in this order.
    Done(u16, u16, S),
    /// The fetch at this word address broke the run.
    Broke(u16, GenFault),
    /// Nothing was fetched, as no run is open.
    Still,
    /// A reset was done.
    Cleared,
}

/// An entry that owns its strokes.
pub type OwnEntry<A = Global> = Entry<Vec<Stroke, A>>;

impl<S: Drop> Entry<S> {
    /// Returns the entry of a fetch at the word address `address`. `byte` is the byte that was
    /// fetched, or `None` for a hole, and `low` is the low byte that was fetched before it, if
    /// `byte` is a high one. `step` is what the generator returned, and `drew` what the run drew.
    /// That counts only where the run is finished.
    #[inline(always)]
    pub fn of_fetch(
        address: u16,
        low: Option<u8>,
        byte: Option<u8>,
        step: Step,
        drew: S,
    ) -> Entry<S> {
        let Some(byte) = byte else {
            return Entry::Broke(address, GenFault::Hole);
        };
        let Some(low) = low else {
            return Entry::Low(address, byte);
        };
        let word = u16::from_le_bytes([low, byte]);
        match step {
            Step::Low | Step::Word => Entry::Fetched(address, word),
            Step::Done => Entry::Done(address, word, drew),
            Step::Broke(fault) => Entry::Broke(address, fault),
        }
    }
}

impl Entry<()> {
    /// Returns this entry with `drew` as what its run drew, if it finished one.
    #[inline(always)]
    pub fn with<T: Drop>(self, drew: T) -> Entry<T> {
        match self {
            Entry::Offered => Entry::Offered,
            Entry::Refused(fault) => Entry::Refused(fault),
            Entry::Busy => Entry::Busy,
            Entry::Asked => Entry::Asked,
            Entry::NothingPublished => Entry::NothingPublished,
            Entry::Acted(action) => Entry::Acted(action),
            Entry::Started => Entry::Started,
            Entry::NoStrobe => Entry::NoStrobe,
            Entry::Low(address, byte) => Entry::Low(address, byte),
            Entry::Fetched(address, word) => Entry::Fetched(address, word),
            Entry::Done(address, word, ()) => Entry::Done(address, word, drew),
            Entry::Broke(address, fault) => Entry::Broke(address, fault),
            Entry::Still => Entry::Still,
            Entry::Cleared => Entry::Cleared,
        }
    }
}
}
mod event {
//! What can happen to a world. Events have no `map`: its closures would borrow from `self`.
use std::prelude::*;

use dvg_frame::{Draft, Op};
use dvg_mem::Image;
use std::alloc::{Allocator, Global};
use std::convert::Infallible;

/// One thing that happens. Events come in any order and number: a strobe that is sent and never
/// given as an event is a lost one, and one that is given again is a repeated one.
///
/// `D` is what an offer brings, and `I` what a reset of the whole system does.
#[derive(Clone, Copy, Debug, PartialEq, Eq, Hash)]
#[cfg_attr(feature = "serde", derive(serde::Serialize, serde::Deserialize))]
pub enum Event<D = Box<Draft>, I = Image> {
    /// The driver is handed a draft to show.
    Offer(D),
    /// The driver is asked to have the published frame drawn again.
    Redraw,
    /// The driver does one action.
    Tick,
    /// A start strobe reaches the generator. It has no effect unless the driver sent one since the
    /// last reset of the whole system, or the beginning.
    Strobe,
    /// The generator fetches one byte: the low byte of a word, or the high byte of the word whose
    /// low byte it fetched before (this project's own choice).
    Fetch,
    /// A reset of the generator alone: its run is abandoned.
    ResetGen,
    /// A reset of the processor alone: the driver forgets everything. RAM, generator and strobes
    /// under way stay as they are.
    ResetCpu,
    /// A reset of the whole system: both of them, strobes under way end, and the RAM holds these
    /// bytes.
    ResetAll(I),
}

/// An event that owns what it brings.
pub type OwnEvent<A = Global> = Event<Box<Draft, A>, Image<A>>;

/// An event that a line of text spells by itself. It isn't an offer. A reset of the whole system
/// has the value that each byte of the RAM has after it.
pub type SpelledEvent = Event<Infallible, u8>;

/// An event whose operations and bytes lie elsewhere.
pub type TraceEvent<'a, A = Global> = Event<&'a [Op], &'a Image<A>>;

impl<A: Allocator> Event<Box<Draft, A>, Image<A>> {
    /// Returns the event, with what it brings as it lies in this one.
    #[inline(always)]
    pub fn lent(&self) -> TraceEvent<'_, A> {
        match self {
            Event::Offer(draft) => Event::Offer(draft.ops()),
            Event::Redraw => Event::Redraw,
            Event::Tick => Event::Tick,
            Event::Strobe => Event::Strobe,
            Event::Fetch => Event::Fetch,
            Event::ResetGen => Event::ResetGen,
            Event::ResetCpu => Event::ResetCpu,
            Event::ResetAll(image) => Event::ResetAll(image),
        }
    }
}
}
mod runs {
//! Runs of equal events in a trace. Others call this a run-length encoding.
use crate::event::{Event, TraceEvent};
use dvg_frame::Op;
use dvg_mem::Image;
use std::alloc::{Allocator, Global};

/// An event of a trace: an offer has its number among all offers, and a reset of the whole system
/// that of its image among all.
pub(crate) type Step = Event<u16, u16>;

/// An event of a trace, `times` times in a row, in six bytes.
#[derive(Clone, Copy)]
#[derive(Debug)]
pub(crate) struct Run {
    pub(crate) step: Step,
    pub(crate) times: u16,
}

/// An iterator over the events of a trace, as runs of equal ones: an event, and how many times in a
/// row it comes. The operations of an offer are those of a draft.
#[derive(Clone, Debug)]
pub struct Runs<'a, A: Allocator = Global> {
    runs: &'a [Run],
    offers: &'a [(u32, u16)],
    ops: &'a [Op],
    images: &'a [Image<A>],
}

impl<'a, A: Allocator> Runs<'a, A> {
    // Returns an iterator over the events of `runs`. `offers`, `ops` and `images` are the lists
    // that a trace keeps beside them.
    pub(crate) fn of(
        runs: &'a [Run],
        offers: &'a [(u32, u16)],
        ops: &'a [Op],
        images: &'a [Image<A>],
    ) -> Runs<'a, A> {
        Runs {
            runs,
            offers,
            ops,
            images,
        }
    }
}

impl<'a, A: Allocator> Iterator for Runs<'a, A> {
    type Item = (TraceEvent<'a, A>, usize);

    #[inline(always)]
    fn next(&mut self) -> Option<(TraceEvent<'a, A>, usize)> {
        let runs = self.runs;
        if runs.is_empty() {
            return None;
        }
        let run = runs[0];
        self.runs = &runs[1..];
        let event = event_of(self.offers, self.ops, self.images, run.step);
        Some((event, usize::from(run.times)))
    }
}

// Returns the event of `step`, by the lists `offers`, `ops` and `images` of its trace.
#[inline(always)]
fn event_of<'a, A: Allocator>(
    offers: &'a [(u32, u16)],
    ops: &'a [Op],
    images: &'a [Image<A>],
    step: Step,
) -> TraceEvent<'a, A> {
    match step {
        Step::Offer(offer) => {
            let (first, count) = offers[usize::from(offer)];
            let first = first as usize;
            TraceEvent::Offer(&ops[first..first + usize::from(count)])
        }
        Step::Redraw => TraceEvent::Redraw,
        Step::Tick => TraceEvent::Tick,
        Step::Strobe => TraceEvent::Strobe,
        Step::Fetch => TraceEvent::Fetch,
        Step::ResetGen => TraceEvent::ResetGen,
        Step::ResetCpu => TraceEvent::ResetCpu,
        Step::ResetAll(image) => TraceEvent::ResetAll(&images[usize::from(image)]),
    }
}
}
mod trace {
//! Lists of events that take little room.
use std::prelude::*;

use crate::event::{Event, OwnEvent, SpelledEvent};
use crate::runs::{Run, Runs, Step};
use dvg_code::OutOfMemory;
use dvg_frame::{Draft, Op};
use dvg_mem::{Image, MEMORY_BYTES};
use std::alloc::{Allocator, Global};

/// The most events of a trace (this project's own choice).
pub const MOST_EVENTS: usize = 65_536;

/// Events in order, at most 65,536 of them, in little room. What `push_times` adds is kept once,
/// with its number. Ticks, strobes and fetches join those of their kind before them. The operations
/// of all offers lie in one list, so an offer takes only what its own operations need, where a
/// `Draft` has room for 511. The images of resets lie in another.
pub struct Trace<A: Allocator = Global> {
    runs: Vec<Run, A>,
    /// The number of events.
    count: usize,
    /// Where the operations of each offer begin among those of all, and how many they are.
    offers: Vec<(u32, u16), A>,
    /// The operations of all offers.
    ops: Vec<Op, A>,
    /// The images of the resets of the whole system.
    images: Vec<Image<A>, A>,
    /// For each byte the number of the image that has it everywhere, if one was made.
    filled: [Option<u16>; 256],
}

impl<A: Allocator + Copy> Trace<A> {
    /// Returns a trace without events. It will keep them in memory of `alloc`.
    pub fn new(alloc: A) -> Trace<A> {
        Trace {
            runs: Vec::new(alloc),
            count: 0,
            offers: Vec::new(alloc),
            ops: Vec::new(alloc),
            images: Vec::new(alloc),
            filled: [None; 256],
        }
    }

    /// Adds `event` at the end, `times` times in a row. `times` is at least 1, and the trace must
    /// have room for them. Of equal resets of the whole system the image is made only once. Returns
    /// `OutOfMemory` where an allocation fails, and then nothing has changed.
    #[inline(always)]
    pub fn push_times(&mut self, event: SpelledEvent, times: u16) -> Result<(), OutOfMemory> {
        match event {
            Event::ResetAll(byte) => self.push_filled(byte, times),
            _ => self.push_step(step_of(&event), times),
        }
    }

    // Adds a reset of the whole system, after which each byte is `byte`, `times` times. The image
    // is made only for the first such reset.
    fn push_filled(&mut self, byte: u8, times: u16) -> Result<(), OutOfMemory> {
        if let Some(number) = self.filled[usize::from(byte)] {
            let step = Step::ResetAll(number);
            self.runs.push(Run { step, times })?;
            self.count += usize::from(times);
            return Ok(());
        }
        let alloc = *self.images.allocator();
        let Ok(image) = Image::new(alloc, &[byte; MEMORY_BYTES]) else {
            return Err(OutOfMemory);
        };
        let number = add_image(&mut self.images, &mut self.runs, image, times)?;
        self.count += usize::from(times);
        self.filled[usize::from(byte)] = Some(number);
        Ok(())
    }
}

impl<A: Allocator> Trace<A> {
    /// Returns the number of events, at most 65,536.
    pub fn len(&self) -> usize {
        self.count
    }

    /// Returns whether there is no event.
    pub fn is_empty(&self) -> bool {
        self.count == 0
    }

    /// Returns an iterator over the events, from the first on, as runs of equal ones.
    pub fn runs(&self) -> Runs<'_, A> {
        Runs::of(
            self.runs.as_slice(),
            self.offers.as_slice(),
            self.ops.as_slice(),
            self.images.as_slice(),
        )
    }

    /// Adds `event` at the end. There must be fewer than 65,536 events. Returns `OutOfMemory` where
    /// an allocation fails, and then nothing has changed.
    pub fn push(&mut self, event: OwnEvent<A>) -> Result<(), OutOfMemory> {
        match event {
            Event::Offer(draft) => self.push_offer(&draft),
            Event::ResetAll(image) => self.push_image(image),
            _ => self.push_step(step_of(&event), 1),
        }
    }

    /// Adds an offer of `draft`, which is copied, at the end. There must be fewer than 65,536
    /// events. Returns `OutOfMemory` where an allocation fails, and then nothing has changed.
    pub fn push_offer(&mut self, draft: &Draft) -> Result<(), OutOfMemory> {
        let first = self.ops.len() as u32;
        let count = draft.len();
        let number = self.offers.len() as u16;
        self.ops.reserve(count)?;
        self.offers.reserve(1)?;
        self.runs.reserve(1)?;
        self.ops.extend_from_slice(draft.ops()).unwrap();
        self.offers.push_reserved((first, count as u16));
        let step = Step::Offer(number);
        self.runs.push_reserved(Run { step, times: 1 });
        self.count += 1;
        Ok(())
    }

    // Adds `step`, which brings nothing, `times` times. It joins the last run where that is of the
    // same event.
    #[inline(always)]
    fn push_step(&mut self, step: Step, times: u16) -> Result<(), OutOfMemory> {
        if lengthen(&mut self.runs, step, times) {
            self.count += usize::from(times);
            return Ok(());
        }
        self.runs.push(Run { step, times })?;
        self.count += usize::from(times);
        Ok(())
    }

    // Adds a reset of the whole system to `image`, which is kept.
    fn push_image(&mut self, image: Image<A>) -> Result<(), OutOfMemory> {
        add_image(&mut self.images, &mut self.runs, image, 1)?;
        self.count += 1;
        Ok(())
    }
}

// Returns the step of `event`, which brings neither a draft nor an image.
#[inline(always)]
fn step_of<D, I>(event: &Event<D, I>) -> Step {
    match event {
        Event::Redraw => Step::Redraw,
        Event::Tick => Step::Tick,
        Event::Strobe => Step::Strobe,
        Event::Fetch => Step::Fetch,
        Event::ResetGen => Step::ResetGen,
        Event::ResetCpu => Step::ResetCpu,
        Event::Offer(_) | Event::ResetAll(_) => unreachable!(),
    }
}

// Adds `image` to `images`, and `times` resets with it to `runs`. Returns the number of the image.
// Returns `OutOfMemory` where an allocation fails, and then nothing is added.
fn add_image<A: Allocator>(
    images: &mut Vec<Image<A>, A>,
    runs: &mut Vec<Run, A>,
    image: Image<A>,
    times: u16,
) -> Result<u16, OutOfMemory> {
    let number = images.len() as u16;
    images.reserve(1)?;
    runs.reserve(1)?;
    images.push_reserved(image);
    let step = Step::ResetAll(number);
    runs.push_reserved(Run { step, times });
    Ok(number)
}

// Returns whether `step` joins `last`: they are the same event, which comes often.
#[inline(always)]
fn joins(last: Step, step: Step) -> bool {
    match last {
        Step::Tick => matches!(step, Step::Tick),
        Step::Strobe => matches!(step, Step::Strobe),
        Step::Fetch => matches!(step, Step::Fetch),
        _ => false,
    }
}

// Makes the last of `runs` longer by `times`, if `step` joins it and there is room for the number.
// Returns whether it did.
#[inline(always)]
fn lengthen<A: Allocator>(runs: &mut Vec<Run, A>, step: Step, times: u16) -> bool {
    let count = runs.len();
    if count == 0 {
        return false;
    }
    let last = runs[count - 1];
    if !joins(last.step, step) || last.times > u16::MAX - times {
        return false;
    }
    runs[count - 1] = Run {
        step,
        times: last.times + times,
    };
    true
}
}

pub use entry::{Entry, OwnEntry};
pub use event::{Event, OwnEvent, SpelledEvent, TraceEvent};
pub use runs::Runs;
pub use trace::{MOST_EVENTS, Trace};

#[path = "../rust.rs"]
mod rust;
