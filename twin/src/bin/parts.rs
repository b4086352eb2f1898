//! The plain Rust twin of the proved program `bench_speed`, with the same words and lines: a
//! generator that is handed one byte a call with a looping display list, and the check of a draft,
//! written for speed and clarity with no proof.

use std::hint::black_box;
use twin::driver::{Action, Driver};
use twin::frames::{Instr, Op, Rom, check};
use twin::generator::{Generator, Taken};
use twin::judge::first_torn;
use twin::memory::{BYTES, Flat};
use twin::world::{Entry, Event, Trace, run};

/// How many steps are made: of each 29, one start and 28 bytes taken, so 2,000,000 bytes in all.
const STEPS: u32 = 2_071_429;

/// The display list, from word zero on; at 010 stands a subroutine.
const LIST: [u16; 21] = [
    0xA190, 0x0200, 0x9064, 0x7464, 0xC010, 0x9064, 0x0064, 0xFE37, 0xB000, 0, 0, 0, 0, 0, 0, 0,
    0x5010, 0x0410, 0x5410, 0x0010, 0xD000,
];

/// The low or the high byte of a word of the list.
fn byte_at(address: u16, high: bool) -> Option<u8> {
    let [low_byte, high_byte] = LIST.get(usize::from(address))?.to_le_bytes();
    Some(if high { high_byte } else { low_byte })
}

/// Takes the bytes of the list's words, and starts again after each run.
fn run_generator() {
    let mut generator = Generator::new();
    let (mut runs, mut strokes, mut ends) = (0u32, 0u32, 0u32);
    for _ in 0..STEPS {
        match generator.wants() {
            None => generator.start(),
            Some(address) => {
                let byte = byte_at(address, generator.wants_high());
                if let Taken::Done(drawn) = generator.take_byte(byte) {
                    runs = runs.wrapping_add(1);
                    for stroke in &drawn {
                        strokes = strokes.wrapping_add(1);
                        ends = ends.wrapping_add(stroke.x1);
                    }
                }
            }
        }
    }
    println!("{runs} runs, {strokes} strokes, {ends}");
}

/// How often a draft is checked that comes to many words of the ROM.
const CHECKS: u32 = 200;

/// How often a short draft is checked.
const SHORT_CHECKS: u32 = 200_000;

/// The LABS that each draft begins with.
const LABS: Op = Op::Draw(Instr::Labs {
    x: 0,
    y: 0,
    scale: 0,
});

/// The operations: after the LABS, the ROM's first word is jumped to from each depth, 0 to 4.
fn nested(first: u16) -> [Op; 10] {
    let jump = Op::JumpRom(first);
    [
        LABS,
        Op::Call(3),
        jump,
        Op::Call(5),
        jump,
        Op::Call(7),
        jump,
        Op::Call(9),
        jump,
        jump,
    ]
}

/// A short draft: after the LABS, a call of the return at its end, a short vector and HALT.
const SHORT: [Op; 5] = [
    LABS,
    Op::Call(4),
    Op::Draw(Instr::Svec {
        scale: 3,
        dx: -3,
        dy: -2,
        z: 3,
    }),
    Op::Halt,
    Op::Return,
];

/// Checks a draft this many times.
fn check_often(checks: u32, ops: &[Op], rom: &Rom) {
    let (mut passed, mut laid, mut fetched) = (0u32, 0u32, 0u64);
    for _ in 0..checks {
        // Neither the draft nor the ROM is known to the compiler, so that no check is made only
        // once.
        if let Ok(frame) = check(black_box(ops), black_box(rom)) {
            passed = passed.wrapping_add(1);
            laid = laid.wrapping_add(u32::from(frame.words));
            fetched = fetched.wrapping_add(frame.bound);
        }
    }
    println!("{passed} passed, {laid} words, {fetched} fetches");
}

/// Checks the nested draft over a ROM of blank SVECs with a HALT as word number `words - 1`.
fn run_check(words: usize) {
    let first = if words > 1024 { 0x400 } else { 0x800 };
    let mut rom = Rom::of(first, 0xF000);
    rom.words[words - 1] = 0xB000;
    check_often(CHECKS, &nested(first), &rom);
}

/// How often the driver ticks.
const TICKS: u32 = 1_000_000;

/// The operations of a frame of 511 words: a LABS, then calls, vectors and short vectors by turns,
/// and HALT before a return.
fn full_frame() -> Vec<Op> {
    let mut ops = vec![Op::Draw(Instr::Labs {
        x: 512,
        y: 400,
        scale: 3,
    })];
    for i in 0..380 {
        ops.push(match i % 3 {
            0 => Op::Call(382),
            1 => Op::Draw(Instr::Vctr {
                scale: 5,
                dx: 100,
                dy: -100,
                z: 7,
            }),
            _ => Op::Draw(Instr::Svec {
                scale: 3,
                dx: -3,
                dy: -2,
                z: 3,
            }),
        });
    }
    ops.push(Op::Halt);
    ops.push(Op::Return);
    ops
}

/// Ticks, and offers the frame again wherever the driver is idle. The flag always shows halted.
fn run_ticks() {
    let ops = full_frame();
    let rom = Rom::of(0x800, 0xD000);
    let mut driver = Driver::new();
    let (mut frames, mut writes, mut sum) = (0u32, 0u32, 0u32);
    for _ in 0..TICKS {
        match driver.tick(true, 0xE0) {
            Action::Wrote(address, byte) => {
                writes = writes.wrapping_add(1);
                sum = sum.wrapping_add(u32::from(address) * u32::from(byte));
            }
            Action::Idle => {
                if let Ok(frame) = check(black_box(&ops), &rom)
                    && driver.offer(frame)
                {
                    frames = frames.wrapping_add(1);
                }
            }
            Action::Peek | Action::Read(_) | Action::Sent => {}
        }
    }
    println!("{frames} frames, {writes} writes, {sum}");
}

/// A small linear congruential generator (Knuth's MMIX constants), of which the high bits are used.
struct Random(u64);

impl Random {
    /// A number below `limit`.
    fn below(&mut self, limit: u64) -> u64 {
        self.0 = self
            .0
            .wrapping_mul(6364136223846793005)
            .wrapping_add(1442695040888963407);
        (self.0 >> 33) % limit
    }
}

/// How many events there are.
const EVENTS: usize = 65_536;

/// Offers a draft of one, two or three short vectors.
fn offer_small(vectors: u64, ops: &mut Vec<Op>) -> Event {
    let first = ops.len();
    ops.push(Op::Draw(Instr::Labs {
        x: 512,
        y: 400,
        scale: 3,
    }));
    for _ in 0..vectors {
        ops.push(Op::Draw(Instr::Svec {
            scale: 3,
            dx: -3,
            dy: -2,
            z: 3,
        }));
    }
    ops.push(Op::Halt);
    Event::Offer(ops.len() - first)
}

/// Mixed events: most are ticks and fetches. A fetch of a low byte is followed by one of a high
/// byte, where there is room for both.
fn mixed_events() -> Trace {
    let mut random = Random(1979);
    let mut trace = Trace {
        images: vec![Box::new([0xFF; BYTES])],
        ..Trace::default()
    };
    while trace.events.len() < EVENTS {
        trace.events.push(match random.below(64) {
            0 => offer_small(1 + random.below(3), &mut trace.ops),
            1 => Event::Redraw,
            2..=41 => Event::Tick,
            42..=44 => Event::Strobe,
            45..=61 => Event::Fetch,
            62 => Event::ResetGen,
            _ if random.below(16) == 0 => Event::ResetAll(0),
            _ => Event::ResetCpu,
        });
        if matches!(trace.events.last(), Some(Event::Fetch)) && trace.events.len() < EVENTS {
            trace.events.push(Event::Fetch);
        }
    }
    trace
}

/// How often the events are run.
const RUNS: u32 = 100;

/// Runs the events from a RAM of zeros.
fn run_events() {
    let rom = Rom::of(0x800, 0xD000);
    let trace = mixed_events();
    let (mut pictures, mut strokes, mut writes) = (0u32, 0u32, 0u32);
    for _ in 0..RUNS {
        for entry in &run::<Flat>(&rom, &[0; BYTES], black_box(&trace)) {
            match entry {
                Entry::Done(_, _, drawn) => {
                    pictures = pictures.wrapping_add(1);
                    strokes = strokes.wrapping_add(drawn.len() as u32);
                }
                Entry::Acted(Action::Wrote(_, _)) => writes = writes.wrapping_add(1),
                _ => {}
            }
        }
    }
    println!("{pictures} pictures, {strokes} strokes, {writes} writes");
}

/// How often the log is judged.
const JUDGED: usize = 400;

/// Judges the log of the events, which is made once: first whole, and then each time without what
/// was its first line.
fn run_judge() {
    let rom = Rom::of(0x800, 0xD000);
    let trace = mixed_events();
    let entries = run::<Flat>(&rom, &[0; BYTES], &trace);
    let (mut spared, mut sum) = (0u32, 0u64);
    for first in 0..JUDGED {
        match first_torn(&trace.events[first..], &entries[first..]) {
            None => spared = spared.wrapping_add(1),
            Some(number) => sum = sum.wrapping_add(number as u64),
        }
    }
    println!("{spared} not torn, {sum}");
}

fn main() {
    let arguments: Vec<String> = std::env::args().collect();
    match arguments.get(1).map(String::as_str) {
        Some("generator") => run_generator(),
        Some("check") => run_check(1024),
        Some("check-large") => run_check(2048),
        Some("check-half") => run_check(512),
        Some("check-short") => check_often(SHORT_CHECKS, &SHORT, &Rom::of(0x800, 0xD000)),
        Some("driver") => run_ticks(),
        Some("world") => run_events(),
        Some("judge") => run_judge(),
        _ => eprintln!(
            "usage: parts generator|check|check-large|check-half|check-short|driver|world|judge"
        ),
    }
}
