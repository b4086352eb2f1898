//! Four examples of how a program of one's own uses the crates. Each is a module, and runs by its
//! name: `example world`, `driver`, `judge` or `dump`. Without a word all four run in turn.
extern crate plain_std as std;

use std::prelude::*;

use std::{eprintln, println};

mod driver {
//! The driver alone, against a memory and a flag of one's own.
use std::prelude::*;

use std::println;

use dvg_code::{Code, Instr};
use dvg_driver::{Action, Driver};
use dvg_frame::{Draft, Frame, Op, OpKind, check};
use dvg_mem::{MEMORY_BYTES, Rom};

/// Returns a frame that puts the beam somewhere and draws nothing, checked over a ROM of zeros,
/// which lies in memory of `rt`.
fn frame(rt: &HostRuntime) -> Option<Frame> {
    let labs = Instr::Labs {
        x: 512,
        y: 400,
        scale: 0,
    };
    let mut draft = Draft::new();
    draft.push(Op::new(OpKind::Draw(Code::new(labs)?))?).ok()?;
    draft.push(Op::new(OpKind::Halt)?).ok()?;
    let rom = Rom::new(rt.alloc(), &[0; MEMORY_BYTES]).ok()?;
    check(&draft, &rom).ok()
}

/// Ticks a driver until it sends its strobe, does each action that `tick` returns, and prints it
/// through `rt`. Returns `None` where an allocation fails, or a line can't be printed.
#[must_use]
pub fn drive(rt: &HostRuntime) -> Option<()> {
    let mut memory = [0; MEMORY_BYTES];
    let mut driver = Driver::new();
    let mut next = Some(frame(rt)?);
    for _tick in 0..20 {
        // The generator of this example is always halted.
        let action = driver.tick(true, memory[1]);
        println!(rt; "{action:?}").ok()?;
        match action {
            // The address is below 2,048, as the contract of `tick` says, so this needs no check.
            Action::Wrote(address, byte) => memory[usize::from(address)] = byte,
            Action::Sent => return Some(()),
            Action::Peek | Action::Idle => {}
            Action::Read(_) => {
                if let Some(frame) = next.take() {
                    driver.offer(frame).ok()?;
                }
            }
        }
    }
    None
}
}
mod dump {
//! An emulator's author asks what the vector memory draws, and looks at each instruction that is
//! run.
use std::prelude::*;

use std::println;

use dvg_dump::{Dump, Ending, SMALL_DUMP_BYTES};

/// The first words of the memory: a jump to 001, LABS 512 400 0, VCTR 9 -100 100 7, and HALT.
const WORDS: [u16; 6] = [0xE001, 0xA190, 0x0200, 0x9064, 0x7464, 0xB000];

/// Draws the memory, and prints through `rt` each instruction with the beam after it, and then each
/// stroke. Returns `None` where an allocation fails, a line can't be printed, or there is no
/// picture.
#[must_use]
pub fn draw(rt: &HostRuntime) -> Option<()> {
    let mut memory = [0; SMALL_DUMP_BYTES];
    for (i, word) in WORDS.iter().enumerate() {
        let [low, high] = word.to_le_bytes();
        memory[2 * i] = low;
        memory[2 * i + 1] = high;
    }
    let dump = Dump::new(rt.alloc(), &memory).ok()?;
    let traced = dump.run_traced().ok()?;
    for ran in &traced.ran {
        println!(rt; "{:03X} {:?}", ran.address, ran.beam).ok()?;
    }
    let Ending::Finished { words, strokes } = &traced.ending else {
        return None;
    };
    println!(rt; "{words} words").ok()?;
    for stroke in strokes {
        println!(rt; "{stroke:?}").ok()?;
    }
    Some(())
}
}
mod judge {
//! The trace on standard input is played over banked memory, and its log is judged. A test program
//! would judge the log of its own driver in the same way.
use std::prelude::*;

use std::println;

use dvg_frame::Draft;
use dvg_mem::{Banked, Image, MEMORY_BYTES, Rom};
use dvg_read::read_trace;
use dvg_world::{Event, Trace, TraceEvent, first_torn, run_trace};
use std::io;

/// Returns `event` with a draft or an image of its own, in memory of `rt`. Returns `None` where an
/// allocation fails.
fn own_event(rt: &HostRuntime, event: TraceEvent) -> Option<Event> {
    Some(match event {
        TraceEvent::Offer(ops) => {
            let mut draft = Draft::new();
            draft.try_extend_from_slice(ops).ok()?;
            Event::Offer(Box::new(rt.alloc(), draft).ok()?)
        }
        TraceEvent::Redraw => Event::Redraw,
        TraceEvent::Tick => Event::Tick,
        TraceEvent::Strobe => Event::Strobe,
        TraceEvent::Fetch => Event::Fetch,
        TraceEvent::ResetGen => Event::ResetGen,
        TraceEvent::ResetCpu => Event::ResetCpu,
        TraceEvent::ResetAll(image) => Event::ResetAll(image.try_clone().ok()?),
    })
}

/// Returns the events of `trace`, one by one, in memory of `rt`. Returns `None` where an allocation
/// fails.
fn events(rt: &HostRuntime, trace: &Trace) -> Option<Vec<Event>> {
    let mut events = Vec::new(rt.alloc());
    for run in trace.runs() {
        for _again in 0..run.1 {
            events.push(own_event(rt, run.0)?).ok()?;
        }
    }
    Some(events)
}

/// Plays the trace of `text`, and returns the number of the first entry of its log that tears a
/// picture, if one does. Memory is that of `rt`. Returns `None` where the text isn't a trace, or an
/// allocation fails.
fn judge(rt: &HostRuntime, text: &[u8]) -> Option<Option<usize>> {
    let trace = read_trace(rt.alloc(), text).ok()?;
    let rom = Rom::new(rt.alloc(), trace.rom.as_slice()).ok()?;
    let image = Image::new(rt.alloc(), &[0; MEMORY_BYTES]).ok()?;
    let entries = run_trace::<Banked>(rt.alloc(), rom, &image, &trace.events).ok()?;
    let events = events(rt, &trace.events)?;
    Some(first_torn(events.as_slice(), entries.as_slice()))
}

/// Judges the trace on the standard input of `rt`, and prints what it finds. Returns `None` where
/// it can't be read or judged, or the line can't be printed.
#[must_use]
pub fn judge_input(rt: &HostRuntime) -> Option<()> {
    let text = io::read_to_string(rt.alloc(), rt.stdin()).ok()?;
    match judge(rt, text.as_bytes())? {
        None => println!(rt; "not torn"),
        Some(number) => println!(rt; "torn at {number}"),
    }
    .ok()
}
}
mod world {
//! A driver and a generator over one memory, an event at a time.
use std::prelude::*;

use std::println;

use dvg_code::{Code, Instr};
use dvg_frame::{Draft, Op, OpKind};
use dvg_mem::{Flat, Image, MEMORY_BYTES, Rom};
use dvg_world::{Entry, Event, World};

/// Returns a frame of one vector.
fn one_vector() -> Option<Draft> {
    let labs = Instr::Labs {
        x: 512,
        y: 400,
        scale: 0,
    };
    let vector = Instr::Vctr {
        scale: 9,
        dx: -100,
        dy: 100,
        z: 7,
    };
    let mut draft = Draft::new();
    draft.push(Op::new(OpKind::Draw(Code::new(labs)?))?).ok()?;
    draft.push(Op::new(OpKind::Draw(Code::new(vector)?))?).ok()?;
    draft.push(Op::new(OpKind::Halt)?).ok()?;
    Some(draft)
}

/// Has the frame drawn, and prints its strokes through `rt`. Returns `None` where an allocation
/// fails, or a line can't be printed.
#[must_use]
pub fn draw(rt: &HostRuntime) -> Option<()> {
    let alloc = rt.alloc();
    let rom = Rom::new(alloc, &[0; MEMORY_BYTES]).ok()?;
    let image = Image::new(alloc, &[0; MEMORY_BYTES]).ok()?;
    let mut world = World::<Flat>::new(alloc, rom, &image).ok()?;
    // The driver looks which half is current, and reads that the generator is halted.
    world.apply(&Event::Tick).ok()?;
    world.apply(&Event::Tick).ok()?;
    let offer = Event::Offer(Box::new(alloc, one_vector()?).ok()?);
    world.apply(&offer).ok()?;
    // It writes ten bytes, then word zero, and sends a strobe.
    for _tick in 0..14 {
        world.apply(&Event::Tick).ok()?;
    }
    world.apply(&Event::Strobe).ok()?;
    // The generator fetches six words, a byte by each event.
    for _fetch in 0..12 {
        if let Entry::Done(_, _, strokes) = world.apply(&Event::Fetch).ok()? {
            for stroke in &strokes {
                println!(rt; "{stroke:?}").ok()?;
            }
        }
    }
    Some(())
}
}

use std::env;
use std::process::ExitCode;

/// The exit status where an allocation fails, or input or output does.
const FAILED: u8 = 1;

/// The exit status where there is no example of that name.
const MISUSE: u8 = 64;

/// Prints the name of each example through `rt`, and runs it. Returns `None` where one fails.
fn run_all(rt: &HostRuntime) -> Option<()> {
    println!(rt; "world:").ok()?;
    world::draw(rt)?;
    println!(rt; "driver:").ok()?;
    driver::drive(rt)?;
    println!(rt; "judge:").ok()?;
    judge::judge_input(rt)?;
    println!(rt; "dump:").ok()?;
    dump::draw(rt)
}

/// Runs the example `name`, or all of them where that is `None`, with `rt`. Returns the exit
/// status.
fn run(rt: &HostRuntime, name: Option<&str>) -> u8 {
    let done = match name {
        None => run_all(rt),
        Some("world") => world::draw(rt),
        Some("driver") => driver::drive(rt),
        Some("judge") => judge::judge_input(rt),
        Some("dump") => dump::draw(rt),
        Some(_) => {
            let _ = eprintln!(rt; "example: world|driver|judge|dump");
            return MISUSE;
        }
    };
    if done.is_some() { 0 } else { FAILED }
}

/// Returns the words of the command line, which `rt` has. The first is the program's own name.
/// Returns `None` where one is no text, or an allocation fails.
fn words(rt: &HostRuntime) -> Option<Vec<String>> {
    env::args(rt).ok()?.collect(rt.alloc()).ok()
}

fn main() -> ExitCode {
    let rt = HostRuntime::new();
    ExitCode::from(match words(&rt) {
        Some(words) => run(&rt, words.get(1).map(|word| word.as_str())),
        None => FAILED,
    })
}
