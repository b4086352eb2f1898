//! Worlds of the plain form in Rust, which are played, saved and restored. For each line of
//! standard input it writes one. A ROM, a RAM and saved bytes are hexadecimal digits; a schedule
//! is events with commas between them:
//!
//! - `play ROM RAM SCHEDULE`: what came of each event;
//! - `save ROM RAM SCHEDULE`: the bytes of the state after it;
//! - `restore ROM BYTES SCHEDULE`: a new world goes on in this state, and what came of each event
//!   then; or `refused`, and why;
//! - `read ROM BYTES`: the state that these bytes are, written again, or `refused`, and why.
//!
//! Events are `tick`, `strobe`, `fetch`, `redraw`, `generator` and `processor` (resets), `all BYTE`
//! (a reset of the whole system with a RAM of this byte), and `offer DRAFT`, whose lines have
//! slashes between them. What came is the number of its kind, an address, a value, and the strokes
//! of a picture.
use gerbilargent::prelude::*;
use gerbilargent::{FrameFault, Place, StateFault, WorldState, read::read_draft};
use std::fmt::Write;
use std::io;

fn bytes_of(digits: &str) -> Vec<u8> {
    let pairs = digits.as_bytes().chunks(2);
    pairs.map(|pair| u8::from_str_radix(str::from_utf8(pair).unwrap(), 16).unwrap()).collect()
}

fn digits_of(bytes: &[u8]) -> String {
    bytes.iter().fold(String::new(), |mut text, byte| {
        write!(text, "{byte:02x}").unwrap();
        text
    })
}

fn world_of(rom: &str, ram: &[u8]) -> World<Flat> {
    let rom = Rom::new(Global, &bytes_of(rom)).unwrap();
    World::new(Global, rom, &Image::new(Global, ram).unwrap()).unwrap()
}

/// The address and the value of a refusal.
fn refusal(fault: FrameFault) -> (u16, u16) {
    let number = u16::from(fault.number());
    match fault.place() {
        None => (0, number),
        Some(Place::InFrame(at)) => (at, number),
        Some(Place::InRom(at)) => (at, 0x100 + number),
    }
}

/// The number of what came, its address, and its value.
fn numbers(entry: Entry<()>) -> (u8, u16, u16) {
    match entry {
        Entry::Offered => (0, 0, 0),
        Entry::Refused(fault) => {
            let (address, value) = refusal(fault);
            (1, address, value)
        }
        Entry::Busy => (2, 0, 0),
        Entry::Asked => (3, 0, 0),
        Entry::NothingPublished => (4, 0, 0),
        Entry::Acted(Action::Peek) => (5, 0, 0),
        Entry::Acted(Action::Wrote(address, byte)) => (6, address, byte.into()),
        Entry::Acted(Action::Read(halted)) => (7, 0, halted.into()),
        Entry::Acted(Action::Sent) => (8, 0, 0),
        Entry::Acted(Action::Idle) => (9, 0, 0),
        Entry::Started => (10, 0, 0),
        Entry::NoStrobe => (11, 0, 0),
        Entry::Low(address, byte) => (12, address, byte.into()),
        Entry::Fetched(address, word) => (13, address, word),
        Entry::Done(address, word, ()) => (14, address, word),
        Entry::Broke(address, fault) => (15, address, fault.number().into()),
        Entry::Still => (16, 0, 0),
        Entry::Cleared => (17, 0, 0),
    }
}

fn happen(world: &mut World<Flat>, event: &str) -> Entry<()> {
    match event.split_once(' ').unwrap_or((event, "")) {
        ("tick", _) => world.tick(),
        ("strobe", _) => world.strobe(),
        ("fetch", _) => world.fetch().unwrap(),
        ("redraw", _) => world.redraw(),
        ("generator", _) => world.reset_generator(),
        ("processor", _) => world.reset_processor(),
        ("all", byte) => {
            world.reset_all(&Image::new(Global, &[byte.parse().unwrap(); 2048]).unwrap())
        }
        (_, text) => {
            let draft = read_draft(text.replace('/', "\n").as_bytes()).unwrap().draft;
            world.offer(&draft)
        }
    }
}

fn play(world: &mut World<Flat>, schedule: &str) -> String {
    let mut came = String::new();
    for event in schedule.split(',').filter(|event| !event.is_empty()) {
        let entry = happen(world, event);
        let (kind, address, value) = numbers(entry);
        write!(came, "{kind} {address} {value}").unwrap();
        if kind == 14 {
            for Stroke { x0, y0, x1, y1, z } in world.picture() {
                write!(came, ":{x0} {y0} {x1} {y1} {z}").unwrap();
            }
        }
        came.push(',');
    }
    came
}

fn digest_of(rom: &str) -> u64 {
    Rom::new(Global, &bytes_of(rom)).unwrap().digest()
}

/// A new world in the state that bytes are, if it can be in it.
fn restored(rom: &str, saved: &str) -> Result<World<Flat>, StateFault> {
    let mut world = world_of(rom, &[0x5A; 2048]);
    let state = WorldState::from_bytes(digest_of(rom), &bytes_of(saved))?;
    world.resume(state).map_err(|_| StateFault::Parts)?;
    Ok(world)
}

fn written(rom: &str, world: &World<Flat>) -> String {
    let state = world.state().unwrap();
    let bytes = state.to_bytes(digest_of(rom)).unwrap();
    let read = WorldState::from_bytes(0, &bytes);
    assert!(read.as_ref() == Ok(&state) && read == Ok(state.clone()));
    digits_of(&bytes)
}

fn refused(fault: StateFault) -> String {
    format!("refused: {fault}")
}

fn answer(line: &str) -> String {
    let words: Vec<&str> = line.splitn(4, ' ').collect();
    match words[..] {
        ["play", rom, ram, schedule] => play(&mut world_of(rom, &bytes_of(ram)), schedule),
        ["save", rom, ram, schedule] => {
            let mut world = world_of(rom, &bytes_of(ram));
            play(&mut world, schedule);
            written(rom, &world)
        }
        ["restore", rom, saved, schedule] => match restored(rom, saved) {
            Ok(mut world) => play(&mut world, schedule),
            Err(fault) => refused(fault),
        },
        ["read", rom, saved] => match restored(rom, saved) {
            Ok(world) => written(rom, &world),
            Err(fault) => refused(fault),
        },
        _ => panic!("{line:.40}"),
    }
}

fn main() {
    for line in io::stdin().lines() {
        println!("{}", answer(&line.unwrap()));
    }
}
