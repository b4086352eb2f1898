//! Both ends of the vector RAM, and each end alone, asked by plain numbers: for callers whose code
//! isn't proved, in other languages too.
//!
//! A `Device` is asked by a number of 64 bits, and returns one (`turn`). Nothing is required of a
//! caller: each number is a request, in each order, and each has a reply. What opens in a device is
//! one of four:
//!
//! - a *world*: both ends, over a RAM and a ROM that it holds. All that it keeps is told, and
//!   another one over that ROM goes on so;
//! - a *driver* alone: it is handed the HALT flag and byte 001 of a RAM, and returns what is to be
//!   written there;
//! - a *generator* alone: it says which byte is wanted next, is handed it, and returns the
//!   strokes of a whole run. Its state is told in parts, and another one begins in it. There is one
//!   whose stack wraps, too;
//! - a *judge* of moments: it is told the log of any system, a line at a time, and says of each run
//!   whether it is consistent.
//!
//! `Request` and `Reply` say the same by types, with the numbers of each; a caller in Rattle asks
//! by `answer`. That requests and replies are numbers, and which, is this project's own choice.
//!
//! One number asks and one answers: so one function is proved down to the memory that its pointer
//! names, and no struct crosses. Bits of a number without a meaning may be any.
#![no_std]

extern crate plain_std as std;

mod cabinet {
//! A world, beside the image that it is reset to. Others say state for `Cabinet`, mode for `Part`
//! and standalone for `lone`.
use dvg_mem::{Flat, Image, Rom};
use dvg_world::World;
use std::alloc::Global;

/// A world, and room for the image of a reset of the whole system, so that no such reset takes
/// memory.
pub(crate) struct Cabinet {
    pub(crate) world: World<Flat>,
    pub(crate) image: Image,
}

impl Cabinet {
    // Returns a world over a ROM of the bytes `rom`, whose RAM first holds the bytes `image`.
    // Memory is taken from `alloc`. Returns `None` where an allocation fails, or `image` or `rom`
    // has a wrong length.
    pub(crate) fn new(alloc: Global, image: &[u8], rom: &[u8]) -> Option<Cabinet> {
        let image = Image::new(alloc, image).ok()?;
        let rom = Rom::new(alloc, rom).ok()?;
        let world = World::new(alloc, rom, &image).ok()?;
        Some(Cabinet { world, image })
    }

    // Begins the world anew, over a ROM of the bytes `rom`. Its RAM first holds the bytes `image`,
    // whose length must be 2,048. Memory is taken, from `alloc`, only for a ROM of another size.
    // Returns `false` where an allocation fails, or `rom` has a wrong length.
    pub(crate) fn begin_anew(&mut self, alloc: Global, image: &[u8], rom: &[u8]) -> bool {
        self.image.copy_from(image);
        self.world.begin_anew(alloc, rom, &self.image).is_ok()
    }
}
}
mod desk {
//! A driver alone. It has a ROM, over which drafts are checked: the headline is of one ROM, that of
//! the generator.
use crate::reply::Reply;
use crate::request::Request;
use dvg_frame::Draft;
use dvg_log::Entry;
use dvg_world::Desk;

// Lets the driver of `desk` do one action. Returns the reply. `halted` is the HALT flag, and
// `byte1` is byte 001 of the RAM.
#[inline(always)]
pub(crate) fn tick_driver(desk: &mut Desk, halted: bool, byte1: u8) -> Reply {
    Reply::Came(Entry::Acted(desk.tick(halted, byte1)))
}

// Lets the driver of `desk` do `request`, with `draft`. Returns the reply.
#[inline(always)]
pub(crate) fn ask_driver(desk: &mut Desk, request: Request, draft: &Draft) -> Reply {
    match request {
        Request::Offer => Reply::Came(desk.offer(draft.ops())),
        Request::Redraw => Reply::Came(desk.redraw()),
        Request::Tick { halted, byte1 } => tick_driver(desk, halted, byte1),
        Request::ResetProcessor => {
            desk.reset();
            Reply::Came(Entry::Cleared)
        }
        _ => Reply::Unknown,
    }
}
}
mod device {
//! The device.
use std::prelude::*;

use crate::cabinet::Cabinet;
use crate::desk::{ask_driver, tick_driver};
use crate::driver::DriverFields;
use crate::happening::{ask_world, fetch_world, fetch_world_high, tell_world, tick_world};
use crate::judging::ask_judge;
use crate::lone::{ask_generator, fetch_high, fetch_number, tell, wanted};
use crate::operation::Operation;
use crate::reply::Reply;
use crate::request::{Question, Request};
use crate::waiting::Waiting;
use crate::wrapping::{ask_wrapping, fetch_wrapping, tell_wrapping, wanted_wrapping};
use dvg_frame::{Draft, Op};
use dvg_gen::{Generator, GeneratorState, Stroke, WrappingGenerator};
use dvg_log::Entry;
use dvg_mem::{Flat, Image, LARGE_ROM_BYTES, MEMORY_BYTES, Rom};
use dvg_moment::MomentJudge;
use dvg_world::{Desk, World, WorldState};
use std::alloc::Global;
use std::mem;

/// The most bytes that are staged: those of a RAM, and of the larger ROM.
pub const MOST_STAGED: usize = MEMORY_BYTES + LARGE_ROM_BYTES;

/// What is open.
pub(crate) enum Part {
    Nothing,
    World(Box<Cabinet>),
    Driver(Box<Desk>),
    Generator(Generator<Global>),
    Wrapping(WrappingGenerator<Global>),
    Judge(Box<MomentJudge>),
}

/// A device, in which a world, a driver alone, a generator alone or a judge may be open. It has a
/// draft, which requests make and an offer hands to the driver; bytes that are staged for what is
/// opened, and for a reset of the whole system; and the state of a generator alone, as far as it
/// was told, in which one may begin.
pub struct Device {
    alloc: Global,
    staged: Vec<u8>,
    draft: Draft,
    waiting: Waiting,
    part: Part,
    // Blocks of memory of what was open before, for what is opened next.
    spare_world: Option<Box<Cabinet>>,
    spare_desk: Option<Box<Desk>>,
}

impl Device {
    /// Returns a device in which nothing is open. It will take its memory from `alloc`.
    pub fn new(alloc: Global) -> Device {
        Device {
            alloc,
            staged: Vec::new(alloc),
            draft: Draft::new(),
            waiting: Waiting::new(alloc),
            part: Part::Nothing,
            spare_world: None,
            spare_desk: None,
        }
    }

    /// Does `request`, a number of 64 bits, and returns the number of the reply. `Request` says
    /// which requests there are, and `Reply` which replies.
    pub fn turn(&mut self, request: u64) -> u64 {
        // The most frequent requests have branches of their own. Each of these functions takes the
        // number, and reads there what the request brings, so nothing passes through memory here.
        // What is inlined calls nothing but at its end, so no register is saved here. One match,
        // in which each request is decoded once, would be 155 lines shorter. As plain Rust it takes
        // 1.1 times as long for ticks and fetches, 1.7 for staging, 3 for pushes, 3.6 for strokes.
        match Request::of(request) {
            Request::Tick { .. } => self.turn_tick(request),
            Request::Fetch(_) => self.turn_fetch(request),
            Request::Wants => self.wants().number(),
            Request::Ask(_) => self.turn_ask(request),
            Request::Push(_) => self.turn_push(request),
            Request::Stage { .. } => self.turn_stage(request),
            Request::StrokeFrom(_) => self.turn_stroke_from(request),
            Request::StrokeTo(_) => self.turn_stroke_to(request),
            Request::StrokeIntensity(_) => self.turn_stroke_intensity(request),
            _ => self.turn_seldom(request),
        }
    }

    // Does `request` as `turn` does.
    #[inline(never)]
    fn turn_seldom(&mut self, request: u64) -> u64 {
        self.answer(Request::of(request)).number()
    }

    // Does `request` as `turn` does. It is made for ticks: others go to `turn_seldom`.
    #[inline(never)]
    fn turn_tick(&mut self, request: u64) -> u64 {
        let Request::Tick { halted, byte1 } = Request::of(request) else {
            return self.turn_seldom(request);
        };
        self.tick(halted, byte1)
    }

    // Does `request` as `turn` does. It is made for fetches: others go to `turn_seldom`.
    #[inline(never)]
    fn turn_fetch(&mut self, request: u64) -> u64 {
        let Request::Fetch(byte) = Request::of(request) else {
            return self.turn_seldom(request);
        };
        self.fetch(byte)
    }

    // Does `request` as `turn` does. It is made for vectors that are pushed: others go to
    // `turn_push_any`.
    #[inline(never)]
    fn turn_push(&mut self, request: u64) -> u64 {
        match Request::of(request) {
            Request::Push(operation) if operation.kind == 0 => self.push_vctr(operation).number(),
            _ => self.turn_push_any(request),
        }
    }

    // Does `request` as `turn` does. It is made for operations that are pushed: others go to
    // `turn_seldom`.
    #[inline(never)]
    fn turn_push_any(&mut self, request: u64) -> u64 {
        let Request::Push(operation) = Request::of(request) else {
            return self.turn_seldom(request);
        };
        self.push(operation).number()
    }

    // Does `request` as `turn` does. It is made for a byte that is staged once, where there is room
    // for it: others go to `turn_stage_any`.
    #[inline(always)]
    fn turn_stage(&mut self, request: u64) -> u64 {
        let Request::Stage { byte, count: 1 } = Request::of(request) else {
            return self.turn_stage_any(request);
        };
        match stage_one(&mut self.staged, byte) {
            Some(length) => Reply::Staged(length).number(),
            None => self.turn_stage_any(request),
        }
    }

    // Does `request` as `turn` does. It is made for bytes that are staged: others go to
    // `turn_seldom`.
    #[inline(never)]
    fn turn_stage_any(&mut self, request: u64) -> u64 {
        let Request::Stage { byte, count } = Request::of(request) else {
            return self.turn_seldom(request);
        };
        self.stage(byte, count).number()
    }

    // Does `request` as `turn` does. It is made for the beginnings of a world's strokes: others go
    // to `turn_stroke`.
    #[inline(always)]
    fn turn_stroke_from(&mut self, request: u64) -> u64 {
        match (Request::of(request), &self.part) {
            (Request::StrokeFrom(i), Part::World(cabinet)) => {
                stroke_from(cabinet.world.picture(), i).number()
            }
            _ => self.turn_stroke(request),
        }
    }

    // Does `request` as `turn` does. It is made for the ends of a world's strokes: others go to
    // `turn_stroke`.
    #[inline(always)]
    fn turn_stroke_to(&mut self, request: u64) -> u64 {
        match (Request::of(request), &self.part) {
            (Request::StrokeTo(i), Part::World(cabinet)) => {
                stroke_to(cabinet.world.picture(), i).number()
            }
            _ => self.turn_stroke(request),
        }
    }

    // Does `request` as `turn` does. It is made for the intensities of a world's strokes: others go
    // to `turn_stroke`.
    #[inline(always)]
    fn turn_stroke_intensity(&mut self, request: u64) -> u64 {
        match (Request::of(request), &self.part) {
            (Request::StrokeIntensity(i), Part::World(cabinet)) => {
                stroke_intensity(cabinet.world.picture(), i).number()
            }
            _ => self.turn_stroke(request),
        }
    }

    // Does `request` as `turn` does. It is made for strokes: others go to `turn_seldom`.
    #[inline(never)]
    fn turn_stroke(&mut self, request: u64) -> u64 {
        match Request::of(request) {
            Request::StrokeFrom(i) => stroke_from(self.picture(), i).number(),
            Request::StrokeTo(i) => stroke_to(self.picture(), i).number(),
            Request::StrokeIntensity(i) => stroke_intensity(self.picture(), i).number(),
            _ => self.turn_seldom(request),
        }
    }

    // Does `request` as `turn` does. It is made for questions: others go to `turn_seldom`.
    #[inline(never)]
    fn turn_ask(&mut self, request: u64) -> u64 {
        let Request::Ask(question) = Request::of(request) else {
            return self.turn_seldom(request);
        };
        self.told(question)
    }

    // Returns the number of the reply to `question`.
    fn told(&mut self, question: Question) -> u64 {
        match &self.part {
            Part::Nothing => Reply::Closed.number(),
            Part::Generator(generator) => tell(generator, question).number(),
            Part::Wrapping(generator) => tell_wrapping(generator, question).number(),
            Part::World(cabinet) => tell_world(&cabinet.world, question).number(),
            Part::Driver(_) | Part::Judge(_) => Reply::Unknown.number(),
        }
    }

    /// Does `request`, and returns the reply.
    #[inline(always)]
    pub fn answer(&mut self, request: Request) -> Reply {
        match request {
            Request::Push(operation) => self.push(operation),
            Request::ClearDraft => self.clear_draft(),
            Request::Stage { byte, count } => self.stage(byte, count),
            Request::Unstage => self.unstage(),
            Request::OpenWorld => self.open_world(),
            Request::OpenDriver => self.open_driver(),
            Request::OpenGenerator => self.open_generator(),
            Request::OpenWrapping => self.open_wrapping(),
            Request::OpenJudge => self.open_judge(),
            Request::Resume => self.resume(),
            Request::ResumeWrapping => self.resume_wrapping(),
            Request::TellState(word) => self.tell_state(word),
            Request::ResumeWorld(fields) => self.resume_world(fields),
            Request::Close => self.close(),
            Request::CountStrokes => Reply::Count(self.picture().len() as u64),
            Request::StrokeFrom(i) => stroke_from(self.picture(), i),
            Request::StrokeTo(i) => stroke_to(self.picture(), i),
            Request::StrokeIntensity(i) => stroke_intensity(self.picture(), i),
            _ => self.ask(request),
        }
    }

    // Adds `operation` to the draft.
    fn push(&mut self, operation: Operation) -> Reply {
        let Some(op) = operation.op() else {
            return Reply::NoOperation;
        };
        self.push_op(op)
    }

    // Adds `operation` to the draft, as `push` does.
    #[inline(always)]
    fn push_vctr(&mut self, operation: Operation) -> Reply {
        let Some(op) = operation.vctr_op() else {
            return Reply::NoOperation;
        };
        self.push_op(op)
    }

    // Adds `op` to the draft. Returns the reply to each operation that names it.
    #[inline(always)]
    fn push_op(&mut self, op: Op) -> Reply {
        match self.draft.push(op) {
            Ok(i) => Reply::Pushed(i),
            Err(_) => Reply::Full,
        }
    }

    // Removes the operations of the draft.
    fn clear_draft(&mut self) -> Reply {
        self.draft.clear();
        Reply::Came(Entry::Cleared)
    }

    // Stages `byte` `count` times.
    fn stage(&mut self, byte: u8, count: u16) -> Reply {
        let length = self.staged.len() + usize::from(count);
        if MOST_STAGED < length {
            return Reply::Full;
        }
        match self.staged.resize(length, byte) {
            Ok(()) => Reply::Staged(length as u16),
            Err(_) => Reply::NoMemory,
        }
    }

    // Removes the staged bytes, with their memory.
    fn unstage(&mut self) -> Reply {
        self.staged = Vec::new(self.alloc);
        Reply::Came(Entry::Cleared)
    }

    // Takes the memory of a world that was open before, if there is some.
    fn take_spare_world(&mut self) -> Option<Box<Cabinet>> {
        self.spare_world.take()
    }

    // Takes the memory of a driver that was open before, if there is some.
    fn take_spare_desk(&mut self) -> Option<Box<Desk>> {
        self.spare_desk.take()
    }

    // Opens a world over the staged bytes.
    #[inline(never)]
    fn open_world(&mut self) -> Reply {
        if !is_one_of(self.staged.len(), 2 * MEMORY_BYTES, MOST_STAGED) {
            return Reply::WrongSize;
        }
        let spare = self.take_spare_world();
        match new_world(self.alloc, self.staged.as_slice(), spare) {
            Some(cabinet) => self.open(Part::World(cabinet)),
            None => Reply::NoMemory,
        }
    }

    // Opens a driver over the staged bytes.
    #[inline(never)]
    fn open_driver(&mut self) -> Reply {
        if !is_one_of(self.staged.len(), MEMORY_BYTES, LARGE_ROM_BYTES) {
            return Reply::WrongSize;
        }
        let spare = self.take_spare_desk();
        match new_desk(self.alloc, self.staged.as_slice(), spare) {
            Some(desk) => self.open(Part::Driver(desk)),
            None => Reply::NoMemory,
        }
    }

    // Opens a generator.
    fn open_generator(&mut self) -> Reply {
        self.open(Part::Generator(Generator::new(self.alloc)))
    }

    // Opens a generator whose stack wraps.
    #[inline(never)]
    fn open_wrapping(&mut self) -> Reply {
        self.open(Part::Wrapping(WrappingGenerator::new(self.alloc)))
    }

    // Opens a judge.
    #[inline(never)]
    fn open_judge(&mut self) -> Reply {
        match Box::new(self.alloc, MomentJudge::new()) {
            Ok(judge) => self.open(Part::Judge(judge)),
            Err(_) => Reply::NoMemory,
        }
    }

    // Opens a generator in the state that was told.
    #[inline(never)]
    fn resume(&mut self) -> Reply {
        match self.waiting.generator(self.alloc) {
            Some(generator) => self.open(Part::Generator(generator)),
            None => Reply::NoState,
        }
    }

    // Opens a generator whose stack wraps in the state that was told.
    #[inline(never)]
    fn resume_wrapping(&mut self) -> Reply {
        match self.waiting.wrapping(self.alloc) {
            Some(generator) => self.open(Part::Wrapping(generator)),
            None => Reply::NoState,
        }
    }

    // Has the world that is open go on in the state that was told, with `fields` of its driver.
    #[inline(never)]
    fn resume_world(&mut self, fields: DriverFields) -> Reply {
        match &mut self.part {
            Part::World(cabinet) => {
                if self.staged.len() != MEMORY_BYTES {
                    return Reply::WrongSize;
                }
                let Ok(ram) = Image::new(self.alloc, self.staged.as_slice()) else {
                    return Reply::NoMemory;
                };
                let told = self.waiting.take_told(self.alloc);
                resumed(&mut cabinet.world, ram, told, fields, &self.draft)
            }
            _ => self.ask(Request::ResumeWorld(fields)),
        }
    }

    // Takes the part of a state that `word` is.
    #[inline(never)]
    fn tell_state(&mut self, word: u64) -> Reply {
        self.waiting.take(self.alloc, word)
    }

    // Opens `part`. The memory of what was open stays, for the next one of its kind.
    fn open(&mut self, part: Part) -> Reply {
        let before = mem::replace(&mut self.part, part);
        self.keep(before);
        Reply::Opened
    }

    // Keeps the memory of `before`, which was open.
    fn keep(&mut self, before: Part) {
        match before {
            Part::World(cabinet) => self.spare_world = Some(cabinet),
            Part::Driver(desk) => self.spare_desk = Some(desk),
            Part::Nothing | Part::Generator(_) | Part::Wrapping(_) | Part::Judge(_) => {}
        }
    }

    // Ends what is open, and gives its memory back.
    #[inline(never)]
    fn close(&mut self) -> Reply {
        *self = Device::new(self.alloc);
        Reply::Closed
    }

    // Returns the strokes of the newest run of what is open that came to a HALT.
    #[inline(never)]
    fn picture(&self) -> &[Stroke] {
        match &self.part {
            Part::World(cabinet) => cabinet.world.picture(),
            Part::Generator(generator) => generator.picture(),
            Part::Wrapping(generator) => generator.generator().picture(),
            Part::Nothing | Part::Driver(_) | Part::Judge(_) => &[],
        }
    }

    // Lets what is open do a tick. A driver alone reads `halted`, the HALT flag, and `byte1`, byte
    // 001 of a RAM. Returns the number of the reply.
    #[inline(always)]
    fn tick(&mut self, halted: bool, byte1: u8) -> u64 {
        match &mut self.part {
            Part::Nothing => Reply::Closed.number(),
            Part::World(cabinet) => tick_world(&mut cabinet.world).number(),
            Part::Driver(desk) => tick_driver(desk, halted, byte1).number(),
            Part::Generator(_) => Reply::Unknown.number(),
            Part::Wrapping(_) => Reply::Unknown.number(),
            Part::Judge(_) => Reply::Unknown.number(),
        }
    }

    // Lets what is open fetch a byte. A generator alone is handed `byte`, where `None` is a hole.
    // Returns the number of the reply. It is made for worlds: others go to `fetch_alone`, which
    // alone looks at `byte`.
    #[inline(always)]
    fn fetch(&mut self, byte: Option<u8>) -> u64 {
        match &mut self.part {
            Part::World(cabinet) => fetch_world(&mut cabinet.world),
            _ => self.fetch_alone(byte),
        }
    }

    // Lets what is open fetch a byte, as `fetch` does. It is made for generators alone: others go
    // to `fetch_seldom`.
    #[inline(never)]
    fn fetch_alone(&mut self, byte: Option<u8>) -> u64 {
        match &mut self.part {
            Part::Generator(generator) => fetch_number(generator, byte),
            _ => self.fetch_seldom(byte),
        }
    }

    // Lets what is open fetch a byte, as `fetch` does.
    #[inline(never)]
    fn fetch_seldom(&mut self, byte: Option<u8>) -> u64 {
        match &mut self.part {
            Part::Nothing => Reply::Closed.number(),
            Part::World(cabinet) => fetch_world_high(&mut cabinet.world),
            Part::Driver(_) => Reply::Unknown.number(),
            Part::Generator(generator) => fetch_high(generator, byte),
            Part::Wrapping(generator) => fetch_wrapping(generator, byte).number(),
            Part::Judge(_) => Reply::Unknown.number(),
        }
    }

    // Returns the reply that says which byte is wanted next.
    #[inline(always)]
    fn wants(&self) -> Reply {
        match &self.part {
            Part::Nothing => Reply::Closed,
            Part::Generator(generator) => wanted(generator),
            Part::Wrapping(generator) => wanted_wrapping(generator),
            Part::World(_) => Reply::Unknown,
            Part::Driver(_) => Reply::Unknown,
            Part::Judge(_) => Reply::Unknown,
        }
    }

    // Lets what is open do `request`.
    #[inline(always)]
    fn ask(&mut self, request: Request) -> Reply {
        match &mut self.part {
            Part::Nothing => unopened(request),
            Part::World(cabinet) => {
                let Cabinet { world, image } = &mut **cabinet;
                ask_world(world, image, request, &self.draft, self.staged.as_slice())
            }
            Part::Driver(desk) => ask_driver(desk, request, &self.draft),
            Part::Generator(generator) => ask_generator(generator, request),
            Part::Wrapping(generator) => ask_wrapping(generator, request),
            Part::Judge(judge) => ask_judge(judge, request),
        }
    }
}

// Adds `byte` to `staged`, where these are fewer than may be staged and there is room for one more.
// Returns how many they are then. Else returns `None`, and nothing has changed.
#[inline(always)]
fn stage_one(staged: &mut Vec<u8>, byte: u8) -> Option<u16> {
    let length = staged.len();
    if MOST_STAGED <= length || staged.capacity() <= length {
        return None;
    }
    staged.push_reserved(byte);
    Some(length as u16 + 1)
}

// Returns stroke `i` of `picture`, if there is one.
#[inline(always)]
fn stroke(picture: &[Stroke], i: u64) -> Option<Stroke> {
    if i < picture.len() as u64 {
        Some(picture[i as usize])
    } else {
        None
    }
}

// Returns where stroke `i` of `picture` begins, or 0, 0 where there is none.
#[inline(always)]
fn stroke_from(picture: &[Stroke], i: u64) -> Reply {
    match stroke(picture, i) {
        Some(stroke) => Reply::Point(stroke.x0, stroke.y0),
        None => Reply::Point(0, 0),
    }
}

// Returns where stroke `i` of `picture` ends, or 0, 0 where there is none.
#[inline(always)]
fn stroke_to(picture: &[Stroke], i: u64) -> Reply {
    match stroke(picture, i) {
        Some(stroke) => Reply::Point(stroke.x1, stroke.y1),
        None => Reply::Point(0, 0),
    }
}

// Returns the intensity of stroke `i` of `picture`, or 0 where there is none.
#[inline(always)]
fn stroke_intensity(picture: &[Stroke], i: u64) -> Reply {
    match stroke(picture, i) {
        Some(stroke) => Reply::Intensity(stroke.z),
        None => Reply::Intensity(0),
    }
}

// Has `world` go on with a RAM that holds `ram`, with the generator's state and strokes `told`, of
// which each is one, and with `fields` of its driver, whose frame is `draft`. Returns the reply.
fn resumed(
    world: &mut World<Flat>,
    ram: Image,
    told: (GeneratorState, Vec<Stroke>),
    fields: DriverFields,
    draft: &Draft,
) -> Reply {
    let (generator, strokes) = told;
    let state = WorldState {
        ram,
        generator,
        strokes,
        driver: fields.state(draft.copy()),
        strobe_sent: fields.strobe_sent,
    };
    match world.resume(state) {
        Ok(()) => Reply::Opened,
        Err(_) => Reply::NoState,
    }
}

// Returns the reply to `request` where nothing is open.
fn unopened(request: Request) -> Reply {
    match request {
        Request::Unknown => Reply::Unknown,
        _ => Reply::Closed,
    }
}

// Returns whether `n` is `small` or `large`.
fn is_one_of(n: usize, small: usize, large: usize) -> bool {
    n == small || n == large
}

// Returns a world whose RAM first holds the first 2,048 of `staged`, over a ROM of the others. It
// lies in the memory of `spare` where there is some, otherwise in memory of `alloc`. Returns `None`
// where an allocation fails, or `staged` has a wrong length.
fn new_world(alloc: Global, staged: &[u8], spare: Option<Box<Cabinet>>) -> Option<Box<Cabinet>> {
    let (image, rom) = staged.split_at_checked(MEMORY_BYTES)?;
    let Some(mut cabinet) = spare else {
        return Box::new(alloc, Cabinet::new(alloc, image, rom)?).ok();
    };
    if cabinet.begin_anew(alloc, image, rom) {
        Some(cabinet)
    } else {
        None
    }
}

// Returns a driver alone over a ROM of the bytes `rom`. It lies in the memory of `spare` where
// there is some, otherwise in memory of `alloc`. Returns `None` where an allocation fails, or `rom`
// has a wrong length.
fn new_desk(alloc: Global, rom: &[u8], spare: Option<Box<Desk>>) -> Option<Box<Desk>> {
    match spare {
        Some(desk) => renewed_desk(alloc, rom, desk),
        None => boxed_desk(alloc, rom),
    }
}

// Like `new_desk`, in the memory of `desk`. A ROM of the bytes `rom` takes memory from `alloc` only
// where it has another size.
fn renewed_desk(alloc: Global, rom: &[u8], mut desk: Box<Desk>) -> Option<Box<Desk>> {
    match desk.begin_anew(alloc, rom) {
        Ok(()) => Some(desk),
        Err(_) => None,
    }
}

// Like `new_desk`, in new memory of `alloc`, over a ROM of the bytes `rom`.
fn boxed_desk(alloc: Global, rom: &[u8]) -> Option<Box<Desk>> {
    let rom = Rom::new(alloc, rom).ok()?;
    let desk = Desk::new(alloc, rom).ok()?;
    Box::new(alloc, desk).ok()
}
}
mod driver {
//! What a world keeps of its driver, in a number.
use crate::reply::bit;
use dvg_driver::{DriverState, Phase};
use dvg_frame::Draft;
use dvg_mem::Half;

/// All that a world keeps of its driver, but the operations of the frame that is being written, and
/// whether a strobe is under way.
///
/// As a number its lowest byte is 38. The phase stands in bits 8 to 15, by the order of `Phase`.
/// Bit 16 says whether the current half is half 1, 17 whether the driver has flipped, 18 whether
/// the frame is laid out for half 1, and 19 whether a strobe is under way. The number of bytes that
/// are still to be written stands in bits 24 to 39. Other bits may have any value.
#[derive(Clone, Copy, Debug, PartialEq, Eq, Hash)]
pub struct DriverFields {
    /// How far the driver is.
    pub phase: Phase,
    /// The current half.
    pub half: Half,
    /// Whether it has flipped since its reset.
    pub flipped: bool,
    /// The half that the frame is laid out for.
    pub frame_half: Half,
    /// How many bytes of the frame are still to be written.
    pub left: u16,
    /// Whether a strobe is under way.
    pub strobe_sent: bool,
}

impl DriverFields {
    // Returns the fields of `state`, and that a strobe is under way where `strobe_sent`.
    pub(crate) fn of(state: &DriverState, strobe_sent: bool) -> DriverFields {
        DriverFields {
            phase: state.phase,
            half: state.half,
            flipped: state.flipped,
            frame_half: state.frame_half,
            left: state.left,
            strobe_sent,
        }
    }

    // Returns the state of a driver with these fields whose frame is `frame`.
    pub(crate) fn state(self, frame: Draft) -> DriverState {
        DriverState {
            phase: self.phase,
            half: self.half,
            flipped: self.flipped,
            frame,
            frame_half: self.frame_half,
            left: self.left,
        }
    }

    /// Returns the fields in `number`, or `None` where its phase is that of none.
    pub(crate) fn in_number(number: u64) -> Option<DriverFields> {
        Some(DriverFields {
            phase: phase_in(number / 0x100 % 0x100)?,
            half: half_in(number / 0x1_0000),
            flipped: number / 0x2_0000 % 2 == 1,
            frame_half: half_in(number / 0x4_0000),
            left: (number / 0x100_0000 % 0x1_0000) as u16,
            strobe_sent: number / 0x8_0000 % 2 == 1,
        })
    }

    /// Returns the fields as a number.
    pub(crate) fn number(self) -> u64 {
        38 + 0x100 * phase_number(self.phase)
            + 0x1_0000 * half_bit(self.half)
            + 0x2_0000 * u64::from(bit(self.flipped))
            + 0x4_0000 * half_bit(self.frame_half)
            + 0x8_0000 * u64::from(bit(self.strobe_sent))
            + 0x100_0000 * u64::from(self.left)
    }
}

// Returns the number of `phase`.
fn phase_number(phase: Phase) -> u64 {
    match phase {
        Phase::Start => 0,
        Phase::Booting => 1,
        Phase::Resting => 2,
        Phase::Writing => 3,
        Phase::Flipping => 4,
        Phase::Waiting => 5,
        Phase::Sending => 6,
    }
}

// Returns the phase of the number `n`, if there is one.
fn phase_in(n: u64) -> Option<Phase> {
    match n {
        0 => Some(Phase::Start),
        1 => Some(Phase::Booting),
        2 => Some(Phase::Resting),
        3 => Some(Phase::Writing),
        4 => Some(Phase::Flipping),
        5 => Some(Phase::Waiting),
        6 => Some(Phase::Sending),
        _ => None,
    }
}

// Returns 1 for half 1, and 0 for half 0.
fn half_bit(half: Half) -> u64 {
    match half {
        Half::H0 => 0,
        Half::H1 => 1,
    }
}

// Returns half 1 where `n` is odd, and else half 0.
fn half_in(n: u64) -> Half {
    if n % 2 == 1 { Half::H1 } else { Half::H0 }
}
}
mod happening {
//! What happens in a world.
use crate::driver::DriverFields;
use crate::lone::tell;
use crate::operation::Operation;
use crate::reply::Reply;
use crate::request::{Question, Request};
use dvg_frame::Draft;
use dvg_log::Entry;
use dvg_mem::{Flat, Image, MEMORY_BYTES};
use dvg_world::World;

// Lets `world` do `request`, with `draft` and the staged bytes `staged`. Returns the reply. `image`
// is the room for that of a reset of the whole system.
#[inline(always)]
pub(crate) fn ask_world(
    world: &mut World<Flat>,
    image: &mut Image,
    request: Request,
    draft: &Draft,
    staged: &[u8],
) -> Reply {
    match request {
        Request::Offer => Reply::Came(world.offer(draft)),
        Request::Redraw => Reply::Came(world.redraw()),
        Request::Tick { .. } => tick_world(world),
        Request::Strobe => Reply::Came(world.strobe()),
        Request::Fetch(_) => fetch_in_world(world),
        Request::ResetGenerator => Reply::Came(world.reset_generator()),
        Request::ResetProcessor => Reply::Came(world.reset_processor()),
        Request::ResetAll => reset_all(world, image, staged),
        Request::Ask(question) => tell_world(world, question),
        _ => Reply::Unknown,
    }
}

// Returns the reply of `world` to `question`.
pub(crate) fn tell_world(world: &World<Flat>, question: Question) -> Reply {
    match question {
        Question::Byte(address) => byte_of(world, address),
        Question::Driver => driver_of(world),
        Question::Operation(i) => operation_of(world, i),
        question => tell_generator(world, question),
    }
}

// Returns the reply of the generator of `world` to `question`.
fn tell_generator(world: &World<Flat>, question: Question) -> Reply {
    tell(world.generator(), question)
}

// Returns the reply that says which byte the RAM of `world` holds at `address`, if there is one.
fn byte_of(world: &World<Flat>, address: u64) -> Reply {
    let _ = world.byte(0); // The RAM is an image, so it has 2,048 bytes.
    if address < MEMORY_BYTES as u64 {
        Reply::Byte(address as u16, world.byte(address as u16))
    } else {
        Reply::Nothing
    }
}

// Returns the reply that says what `world` keeps of its driver, and whether a strobe is under way.
fn driver_of(world: &World<Flat>) -> Reply {
    Reply::Driver(DriverFields::of(&world.driver(), world.strobe_sent()))
}

// Returns the reply that says which operation has the number `i` in the frame that the driver of
// `world` writes, if there is one.
fn operation_of(world: &World<Flat>, i: u64) -> Reply {
    let frame = world.driver().frame;
    if i < frame.len() as u64 {
        Reply::Operation(Operation::of(frame.op(i as usize)))
    } else {
        Reply::Nothing
    }
}

// Lets the driver of `world` do one action. Returns the reply.
#[inline(always)]
pub(crate) fn tick_world(world: &mut World<Flat>) -> Reply {
    Reply::Came(Entry::Acted(world.act()))
}

// Lets the generator of `world` fetch one byte. Returns the reply.
#[inline(always)]
pub(crate) fn fetch_in_world(world: &mut World<Flat>) -> Reply {
    match world.fetch() {
        Ok(entry) => Reply::Came(entry),
        Err(_) => Reply::NoMemory,
    }
}

// Lets the generator of `world` fetch one byte. Returns the number of the reply. A low byte is only
// kept, which needs few registers; a high byte takes more, and goes to `fetch_world_high`.
#[inline(always)]
pub(crate) fn fetch_world(world: &mut World<Flat>) -> u64 {
    if world.wants_high() {
        return fetch_world_high(world);
    }
    fetch_in_world(world).number()
}

// Lets the generator of `world` fetch one byte. Returns the number of the reply. It is made for
// high bytes.
#[inline(never)]
pub(crate) fn fetch_world_high(world: &mut World<Flat>) -> u64 {
    fetch_in_world(world).number()
}

// Resets the whole system of `world`, where the bytes `staged` are those of an image, which is made
// in `image`. Returns the reply.
fn reset_all(world: &mut World<Flat>, image: &mut Image, staged: &[u8]) -> Reply {
    if staged.len() != MEMORY_BYTES {
        return Reply::WrongSize;
    }
    image.copy_from(staged);
    Reply::Came(world.reset_all(image))
}
}
mod judging {
//! A judge of moments. It is told a reply as it is, which doesn't say which reset was done: of that
//! it is told by the request. It says after each line how the run stands, and keeps no number of a
//! line, as its caller counts them. A judge of halves isn't here: its rule fits in 20 lines of each
//! language.
use crate::reply::{Reply, RunState};
use crate::request::Request;
use dvg_moment::MomentJudge;

/// A line of a log, as a judge of moments is told it.
#[derive(Clone, Copy, Debug, PartialEq, Eq, Hash)]
pub enum JudgeLine {
    /// It says nothing of memory or of a run.
    Passed,
    /// A strobe began a run.
    Started,
    /// A fetch brought the low byte of the word at this word address.
    Low(u16, u8),
    /// A fetch completed the word at this word address. The second number is the word. The run goes
    /// on.
    Fetched(u16, u16),
    /// The same, and the word is a HALT that ended the run.
    Done(u16, u16),
    /// This byte was written at this byte address. Outside the RAM, from 800 on, that changes
    /// nothing.
    Wrote(u16, u8),
    /// The run ended without a picture: by a fault, or by a reset of the generator.
    Ended,
    /// The whole system was reset. What was told of memory is void.
    Reset,
}

// Lets `judge` do `request`. Returns the reply.
#[inline(always)]
pub(crate) fn ask_judge(judge: &mut MomentJudge, request: Request) -> Reply {
    match request {
        Request::Tell(line) => tell(judge, line),
        Request::ResetGenerator => tell(judge, JudgeLine::Ended),
        Request::ResetProcessor => tell(judge, JudgeLine::Passed),
        Request::ResetAll => tell(judge, JudgeLine::Reset),
        _ => Reply::Unknown,
    }
}

// Tells `judge` of `line`. Returns the reply.
#[inline(never)]
fn tell(judge: &mut MomentJudge, line: JudgeLine) -> Reply {
    match line {
        JudgeLine::Passed => {
            judge.passed();
            standing(judge, false)
        }
        JudgeLine::Started => {
            judge.started();
            standing(judge, false)
        }
        JudgeLine::Low(address, byte) => {
            let wrong = judge.contradicts_low(address, byte);
            judge.low(address, byte);
            standing(judge, wrong)
        }
        JudgeLine::Fetched(address, word) => {
            let wrong = judge.contradicts_word(address, word);
            judge.fetched(address, word);
            standing(judge, wrong)
        }
        JudgeLine::Done(address, word) => halt(judge, address, word),
        JudgeLine::Wrote(address, byte) => {
            judge.wrote(address, byte);
            standing(judge, false)
        }
        JudgeLine::Ended => {
            judge.ended();
            standing(judge, false)
        }
        JudgeLine::Reset => {
            judge.reset();
            standing(judge, false)
        }
    }
}

// Returns the reply to a line that is no HALT, which `judge` was told. `wrong` is whether the line
// reads what was not written.
fn standing(judge: &MomentJudge, wrong: bool) -> Reply {
    if judge.is_torn() {
        Reply::Judged(RunState::NoMoment, wrong)
    } else if judge.is_open() {
        Reply::Judged(RunState::OneMoment, wrong)
    } else {
        Reply::Judged(RunState::NoRun, wrong)
    }
}

// Tells `judge` of a HALT, the word `word` at the word address `address`. Returns the reply.
fn halt(judge: &mut MomentJudge, address: u16, word: u16) -> Reply {
    let is_open = judge.is_open();
    let wrong = judge.contradicts_word(address, word);
    if judge.done(address, word) {
        Reply::Judged(RunState::Torn, wrong)
    } else if is_open {
        Reply::Judged(RunState::Whole, wrong)
    } else {
        Reply::Judged(RunState::NoRun, wrong)
    }
}
}
mod lone {
//! A generator alone.
use crate::reply::{Reply, bit};
use crate::request::{Question, Request};
use crate::state::StatePart;
use dvg_gen::{Generator, GeneratorState, Move, Stroke};
use dvg_log::Entry;
use std::alloc::Global;

// Lets `generator` do `request`. Returns the reply.
#[inline(always)]
pub(crate) fn ask_generator(generator: &mut Generator<Global>, request: Request) -> Reply {
    match request {
        Request::Strobe => {
            generator.start();
            Reply::Onward(Entry::Started, 0, false)
        }
        Request::ResetGenerator => {
            generator.reset();
            Reply::Came(Entry::Cleared)
        }
        Request::Wants => wanted(generator),
        Request::Fetch(byte) => fetch(generator, byte),
        Request::Ask(question) => tell(generator, question),
        _ => Reply::Unknown,
    }
}

// Returns the reply of `generator` to `question`.
pub(crate) fn tell(generator: &Generator<Global>, question: Question) -> Reply {
    match question {
        Question::Move(byte) => move_of(generator.move_by(byte)),
        Question::MoveTo(byte) => end_of(generator.move_by(byte), generator),
        Question::Beam => place_of(generator),
        Question::Holds => held(generator, generator.return_addresses().len() as u16, false),
        Question::ReturnTo(i) => return_address(generator, i),
        Question::State(i) => state(generator, i),
        Question::Byte(_) | Question::Driver | Question::Operation(_) => Reply::Unknown,
    }
}

// Returns the reply of `generator` that says which byte is wanted next.
pub(crate) fn wanted(generator: &Generator<Global>) -> Reply {
    match generator.wants() {
        Some(address) => Reply::Wants(address, generator.wants_high()),
        None => Reply::Came(Entry::Still),
    }
}

// Returns the reply that says which move `made` is, if any.
fn move_of(made: Option<Move>) -> Reply {
    match made {
        Some(made) => Reply::Moves(made.address, made.z, made.placed),
        None => Reply::Nothing,
    }
}

// Returns the reply that says where the beam of `generator` is after the move `made`, if any.
fn end_of(made: Option<Move>, generator: &Generator<Global>) -> Reply {
    match made {
        Some(made) => Reply::Point(made.x1, made.y1),
        None => place_of(generator),
    }
}

// Returns the reply that says where the beam of `generator` is.
fn place_of(generator: &Generator<Global>) -> Reply {
    let beam = generator.beam();
    Reply::Point(beam.x, beam.y)
}

// Returns the reply `Holds` of `generator`: its first word, or 0, its scale, whether it has a low
// byte and a first word, whether its stack `wraps`, and `returns`, the number of return addresses.
pub(crate) fn held(generator: &Generator<Global>, returns: u16, wraps: bool) -> Reply {
    let first = generator.first_word();
    let scale = u16::from(generator.beam().scale);
    let flags = 0x10 * bit(generator.low_byte().is_some())
        + 0x20 * bit(first.is_some())
        + 0x40 * bit(wraps);
    Reply::Holds(first.unwrap_or(0), scale + flags + 0x100 * returns)
}

// Returns the reply that says what return address `i` of `generator` is, from 0, the newest one.
fn return_address(generator: &Generator<Global>, i: u64) -> Reply {
    let addresses = generator.return_addresses();
    let count = addresses.len();
    if i < count as u64 {
        Reply::ReturnsTo(addresses[count - 1 - i as usize])
    } else {
        Reply::Nothing
    }
}

// Returns the reply that says what part `i` of the state of `generator` is, from 0.
fn state(generator: &Generator<Global>, i: u64) -> Reply {
    let state = generator.state();
    is_saved(&state);
    told_part(part(&state, generator, i))
}

// Returns the reply that says what `part` is, if there is one.
pub(crate) fn told_part(part: Option<StatePart>) -> Reply {
    match part {
        Some(part) => Reply::State(part.word()),
        None => Reply::Nothing,
    }
}

// Returns part `i` of `state`, which is that of `generator`, but for the return addresses, if there
// is one.
pub(crate) fn part(
    state: &GeneratorState,
    generator: &Generator<Global>,
    i: u64,
) -> Option<StatePart> {
    let addresses = state.return_addresses.as_slice();
    let returns = addresses.len() as u64;
    if i == 0 {
        Some(fields(state))
    } else if i <= returns {
        Some(StatePart::ReturnAddress(addresses[(i - 1) as usize]))
    } else {
        drawing_part(generator, i - 1 - returns)
    }
}

// For the proof alone: a low byte that waits in `state` is below 256, and there are four return
// addresses at most, as their types say. Nothing is done.
pub(crate) fn is_saved(state: &GeneratorState) {
    let _ = state.return_addresses.as_slice();
    if let Some(byte) = state.low {
        let _ = u16::from(byte);
    }
}

// Returns the first part of `state`.
fn fields(state: &GeneratorState) -> StatePart {
    StatePart::Fields {
        is_open: state.is_open,
        at: state.at,
        held: state.held,
        low: state.low,
        scale: state.scale,
    }
}

// Returns part `i` of those that say what the open run of `generator` drew, and where its beam is.
// Part 2k is where stroke k begins, part 2k + 1 where it ends; after all strokes comes the beam.
fn drawing_part(generator: &Generator<Global>, i: u64) -> Option<StatePart> {
    let strokes = strokes_so_far(generator);
    let count = strokes.len() as u64;
    let stroke = i / 2;
    if stroke < count {
        Some(part_of_stroke(strokes[stroke as usize], i % 2 == 1))
    } else if stroke == count && i % 2 == 0 {
        let beam = generator.beam();
        Some(StatePart::Place(beam.x, beam.y))
    } else {
        None
    }
}

// Returns the strokes that the open run of `generator` drew so far, or none where no run is open.
fn strokes_so_far(generator: &Generator<Global>) -> &[Stroke] {
    if generator.halted() {
        &[]
    } else {
        generator.strokes()
    }
}

// Returns where `stroke` leads, where `leads`, or else where it begins.
fn part_of_stroke(stroke: Stroke, leads: bool) -> StatePart {
    if leads {
        StatePart::Line(stroke.x1, stroke.y1, stroke.z)
    } else {
        StatePart::Place(stroke.x0, stroke.y0)
    }
}

// Hands `byte` to `generator`, where `None` is a hole. Returns the reply.
#[inline(always)]
pub(crate) fn fetch(generator: &mut Generator<Global>, byte: Option<u8>) -> Reply {
    let Some(address) = generator.wants() else {
        return Reply::Came(Entry::Still);
    };
    let low = generator.low_byte();
    match generator.feed(byte) {
        Ok(step) => onward(Entry::of_fetch(address, low, byte, step, ()), generator),
        Err(_) => Reply::NoMemory,
    }
}

// Hands `byte` to `generator`, as `fetch` does. Returns the number of the reply. A low byte is only
// kept, which needs few registers; a high byte takes more, and goes to `fetch_high`.
#[inline(always)]
pub(crate) fn fetch_number(generator: &mut Generator<Global>, byte: Option<u8>) -> u64 {
    if generator.wants_high() {
        return fetch_high(generator, byte);
    }
    fetch(generator, byte).number()
}

// Hands `byte` to `generator`, as `fetch` does. Returns the number of the reply. It is made for
// high bytes.
#[inline(never)]
pub(crate) fn fetch_high(generator: &mut Generator<Global>, byte: Option<u8>) -> u64 {
    fetch(generator, byte).number()
}

// Returns the reply that `entry` came of `generator`, and which byte is wanted next, if any.
#[inline(always)]
pub(crate) fn onward(entry: Entry<()>, generator: &Generator<Global>) -> Reply {
    match generator.wants() {
        Some(address) => Reply::Onward(entry, address, generator.low_byte().is_some()),
        None => Reply::Came(entry),
    }
}
}
mod operation {
//! Operations of drafts, by plain numbers.
use dvg_code::{Code, Instr};
use dvg_frame::{Op, OpKind};

/// An operation of a draft by plain numbers, in range or not.
///
/// | kind | operation | what counts |
/// |---|---|---|
/// | 0 | VCTR | `scale`, `x` and `y` by two's complement, `z` |
/// | 1 | SVEC | `scale`, `x` and `y` by two's complement, `z` |
/// | 2 | LABS | `x`, `y`, `scale` |
/// | 3, 4 | call, jump | `x`, the number of an operation of the draft |
/// | 5, 6 | call, jump into the ROM | `x`, a word address |
/// | 7, 8 | return, halt | |
#[derive(Clone, Copy, Debug, PartialEq, Eq, Hash)]
pub struct Operation {
    /// Which operation, 0 to 8.
    pub kind: u8,
    /// A vector's local scale, or the global scale of a LABS.
    pub scale: u8,
    /// A vector's intensity.
    pub z: u8,
    /// A move or a position along x, the number of an operation, or a word address.
    pub x: u16,
    /// A move or a position along y.
    pub y: u16,
}

impl Operation {
    /// Returns the operation, or `None` exactly where the kind is over 8, or a field that counts is
    /// out of its range.
    #[must_use]
    pub fn op(self) -> Option<Op> {
        match self.kind {
            0 => self.vctr_op(),
            1 => self.svec(),
            2 => drawing(self.labs()),
            3 => Op::new(OpKind::Call(self.x)),
            4 => Op::new(OpKind::Jump(self.x)),
            5 => Op::new(OpKind::CallRom(self.x)),
            6 => Op::new(OpKind::JumpRom(self.x)),
            7 => Op::new(OpKind::Return),
            8 => Op::new(OpKind::Halt),
            _ => None,
        }
    }

    /// Returns the fields of `op`: `op` gives that operation back.
    pub fn of(op: Op) -> Operation {
        match op.kind() {
            OpKind::Draw(code) => Operation::drawing(code.instr()),
            OpKind::Call(i) => Operation::numbered(3, i),
            OpKind::Jump(i) => Operation::numbered(4, i),
            OpKind::CallRom(a) => Operation::numbered(5, a),
            OpKind::JumpRom(a) => Operation::numbered(6, a),
            OpKind::Return => Operation::numbered(7, 0),
            OpKind::Halt => Operation::numbered(8, 0),
        }
    }

    // Returns the fields of an operation of this kind that brings the number `x`.
    fn numbered(kind: u8, x: u16) -> Operation {
        Operation {
            kind,
            scale: 0,
            z: 0,
            x,
            y: 0,
        }
    }

    // Returns the fields of an operation that draws by `instr`, or fields of no operation where no
    // draft holds it.
    fn drawing(instr: Instr) -> Operation {
        match instr {
            Instr::Vctr { scale, dx, dy, z } => Operation {
                kind: 0,
                scale,
                z,
                x: dx.cast_unsigned(),
                y: dy.cast_unsigned(),
            },
            Instr::Svec { scale, dx, dy, z } => Operation {
                kind: 1,
                scale,
                z,
                x: i16::from(dx).cast_unsigned(),
                y: i16::from(dy).cast_unsigned(),
            },
            Instr::Labs { x, y, scale } => Operation {
                kind: 2,
                scale,
                z: 0,
                x,
                y,
            },
            _ => Operation::numbered(9, 0),
        }
    }

    // Returns a VCTR of the fields, where they are in range.
    #[inline(always)]
    pub(crate) fn vctr_op(self) -> Option<Op> {
        drawing(self.vctr())
    }

    // Returns the fields as those of a VCTR.
    fn vctr(self) -> Instr {
        Instr::Vctr {
            scale: self.scale,
            dx: self.x.cast_signed(),
            dy: self.y.cast_signed(),
            z: self.z,
        }
    }

    // Returns the fields as those of a LABS.
    fn labs(self) -> Instr {
        Instr::Labs {
            x: self.x,
            y: self.y,
            scale: self.scale,
        }
    }

    // Returns an SVEC of the fields, where they are in range.
    fn svec(self) -> Option<Op> {
        let (Ok(dx), Ok(dy)) = (
            i8::try_from(self.x.cast_signed()),
            i8::try_from(self.y.cast_signed()),
        ) else {
            return None;
        };
        drawing(Instr::Svec {
            scale: self.scale,
            dx,
            dy,
            z: self.z,
        })
    }
}

// Returns the operation that executes `instr`, where a draft may hold it.
fn drawing(instr: Instr) -> Option<Op> {
    Op::new(OpKind::Draw(Code::new(instr)?))
}
}
mod reply {
//! What a device replies.
use crate::driver::DriverFields;
use crate::operation::Operation;
use dvg_driver::Action;
use dvg_frame::{FrameFault, Place};
use dvg_log::Entry;

/// How the newest run of a log stands, of which a judge was told a line.
#[derive(Clone, Copy, Debug, PartialEq, Eq, Hash)]
pub enum RunState {
    /// No run is open.
    NoRun,
    /// A run is open, and so far it is consistent.
    OneMoment,
    /// A run is open, and it is mixed.
    NoMoment,
    /// The line is the HALT of a consistent run.
    Whole,
    /// The line is the HALT of a mixed run.
    Torn,
}

/// What a device replies. The lowest byte of a reply's number is its kind, which stands first here.
/// Bits 8 to 23 are an address, bits 24 to 39 are a value, and the bits above are 0. Some replies
/// differ:
///
/// - `Count`, `Point` and `Intensity` have no kind: the number is what was asked for;
/// - `Driver` and `Operation` are the numbers of requests;
/// - `State` has a word above its kind;
/// - `Onward` has the byte that is wanted next above its value.
#[derive(Clone, Copy, Debug, PartialEq, Eq, Hash)]
pub enum Reply {
    /// 0 to 17: what came of it, as a log shows it; the strokes of a run that came to a HALT can be
    /// asked for. In the order of `Entry`, which says what each is:
    ///
    /// - 0, `Offered`;
    /// - 1, `Refused`: the value is the fault's number, 1 to 9, as `dvg check` has it, and 0x100
    ///   more where its place is in the ROM; the address is the number of an operation, or there a
    ///   word address;
    /// - 2, `Busy`, and nothing has changed;
    /// - 3, `Asked`;
    /// - 4, `NothingPublished`, and nothing has changed;
    /// - 5 to 9, `Acted`: a peek at byte 001; a write of a value at a byte address; a read of the
    ///   HALT flag, 1 where it showed the generator halted, else 0; the sending of a strobe; or
    ///   nothing;
    /// - 10, `Started`;
    /// - 11, `NoStrobe`;
    /// - 12, `Low`: a word address, and the low byte as the value;
    /// - 13, `Fetched`, and 14, `Done`: a word address, and the word as the value;
    /// - 15, `Broke`: a word address, and as the value the fault's number, 1 to 3, as `dvg play`
    ///   has it;
    /// - 16, `Still`, and nothing has changed;
    /// - 17, `Cleared`: a reset was done, the draft or the staged bytes were cleared, or a part of
    ///   a state was taken.
    Came(Entry<()>),
    /// 10, 12 or 13 from a generator alone: the same as in `Came`, and the run goes on. The byte
    /// that is wanted next is the high byte (`true`) or the low byte of the word at this address.
    /// Bits 40 to 55 are its byte address: twice the word's, plus 1 for the high byte. Bit 60 is 1.
    Onward(Entry<()>, u16, bool),
    /// 18: the operation has this number in the draft.
    Pushed(u16),
    /// 19: the fields are those of no operation, and nothing has changed.
    NoOperation,
    /// 20: the draft has 511 operations, or more than 6,144 bytes would be staged. Nothing has
    /// changed.
    Full,
    /// 21: this many bytes are staged.
    Staged(u16),
    /// 22: it is open.
    Opened,
    /// 23: the number of staged bytes isn't one that it takes, and nothing has changed.
    WrongSize,
    /// 24: nothing is open, or not any more.
    Closed,
    /// 25: the byte that is wanted next is the high byte (1) or the low byte (0) of the word at
    /// this address.
    Wants(u16, bool),
    /// This many strokes.
    Count(u64),
    /// A place, in 1/512 of a screen unit, below 2,097,152 each: x in bits 0 to 31, and y in bits
    /// 32 to 63.
    Point(u32, u32),
    /// An intensity, 1 to 15, and 0 where there is no such stroke.
    Intensity(u8),
    /// 26 to 30, in the order of `RunState`: how the newest run stands, of which a judge was told
    /// this line, and whether the line reads what was not written (1, else 0).
    Judged(RunState, bool),
    /// 31: a move, by the instruction whose first word is at this address, with this intensity, 0
    /// (blank) to 15. The value is the intensity, and 0x100 more where a LABS places the beam.
    Moves(u16, u8, bool),
    /// 32: there is no move, or no such return address or byte.
    Nothing,
    /// 33: what a generator holds: the first word of the instruction whose second word comes next,
    /// or 0, and bits: the global scale in bits 0 to 3; in bit 4 whether a low byte waits, in bit 5
    /// whether there is such a first word, and in bit 6 whether the stack wraps; and from bit 8 on
    /// how many return addresses there are, 0 to 4. The word stands in the place of the address,
    /// and the bits are the value.
    Holds(u16, u16),
    /// 34: a return address.
    ReturnsTo(u16),
    /// 35: a part of a state. Its word, below 2^56, stands from bit 8 on.
    State(u64),
    /// 36: what was told is no part that suits the state before it, or what resumes can't be in
    /// that state. Nothing has changed, but that a world forgets what was told.
    NoState,
    /// 37: the byte of a RAM at this byte address, as the value.
    Byte(u16, u8),
    /// 38: what a world keeps of its driver. The number is that of the request `ResumeWorld` with
    /// these fields.
    Driver(DriverFields),
    /// An operation of the frame that is being written. The number is that of the request that
    /// pushes it.
    Operation(Operation),
    /// 254: there is no such request, or what is open has no such request. Nothing has changed.
    Unknown,
    /// 255: there was no memory for it, and nothing has changed.
    NoMemory,
}

impl Reply {
    /// Returns the number of the reply.
    #[inline(always)]
    pub fn number(self) -> u64 {
        match self {
            Reply::Came(entry) => came(entry),
            Reply::Onward(entry, address, high) => came(entry) + next(address, high),
            Reply::Pushed(i) => packed(18, 0, i),
            Reply::NoOperation => packed(19, 0, 0),
            Reply::Full => packed(20, 0, 0),
            Reply::Staged(count) => packed(21, 0, count),
            Reply::Opened => packed(22, 0, 0),
            Reply::WrongSize => packed(23, 0, 0),
            Reply::Closed => packed(24, 0, 0),
            Reply::Wants(address, false) => packed(25, address, 0),
            Reply::Wants(address, true) => packed(25, address, 1),
            Reply::Count(n) => n,
            Reply::Point(x, y) => u64::from(x) + 0x1_0000_0000 * u64::from(y),
            Reply::Intensity(z) => u64::from(z),
            Reply::Judged(run, false) => judged(run, 0),
            Reply::Judged(run, true) => judged(run, 1),
            Reply::Moves(address, z, placed) => packed(31, address, move_bits(z, placed)),
            Reply::Nothing => packed(32, 0, 0),
            Reply::Holds(first, bits) => packed(33, first, bits),
            Reply::ReturnsTo(address) => packed(34, address, 0),
            Reply::State(word) => 35 + 0x100 * (word % 0x100_0000_0000_0000),
            Reply::NoState => packed(36, 0, 0),
            Reply::Byte(address, byte) => packed(37, address, u16::from(byte)),
            Reply::Driver(fields) => fields.number(),
            Reply::Operation(operation) => pushing(operation),
            Reply::Unknown => packed(254, 0, 0),
            Reply::NoMemory => packed(255, 0, 0),
        }
    }
}

// Returns the number of the request that pushes `operation`.
fn pushing(operation: Operation) -> u64 {
    8 + 0x100 * u64::from(operation.kind)
        + 0x1_0000 * u64::from(operation.scale)
        + 0x100_0000 * u64::from(operation.z)
        + 0x1_0000_0000 * u64::from(operation.x)
        + 0x1_0000_0000_0000 * u64::from(operation.y)
}

// Returns 1 where `flag` is true, else 0.
pub(crate) fn bit(flag: bool) -> u16 {
    if flag { 1 } else { 0 }
}

// Returns the intensity `z` of a move, and whether a LABS places the beam, in bits.
fn move_bits(z: u8, placed: bool) -> u16 {
    u16::from(z) + 0x100 * bit(placed)
}

// Returns the bits that say which byte is wanted next: the high byte of the word at `address` where
// `high`, else the low one.
#[inline(always)]
fn next(address: u16, high: bool) -> u64 {
    0x1000_0000_0000_0000 + 0x100_0000_0000 * (2 * u64::from(address) + u64::from(bit(high)))
}

// Returns the number of the reply of a judge, by which the newest run stands as `run` says, with
// `value`.
#[inline(always)]
fn judged(run: RunState, value: u16) -> u64 {
    match run {
        RunState::NoRun => packed(26, 0, value),
        RunState::OneMoment => packed(27, 0, value),
        RunState::NoMoment => packed(28, 0, value),
        RunState::Whole => packed(29, 0, value),
        RunState::Torn => packed(30, 0, value),
    }
}

// Returns the number of `entry`, what came of a request.
#[inline(always)]
fn came(entry: Entry<()>) -> u64 {
    match entry {
        Entry::Offered => packed(0, 0, 0),
        Entry::Refused(fault) => refusal(fault),
        Entry::Busy => packed(2, 0, 0),
        Entry::Asked => packed(3, 0, 0),
        Entry::NothingPublished => packed(4, 0, 0),
        Entry::Acted(action) => acted(action),
        Entry::Started => packed(10, 0, 0),
        Entry::NoStrobe => packed(11, 0, 0),
        Entry::Low(address, byte) => packed(12, address, u16::from(byte)),
        Entry::Fetched(address, word) => packed(13, address, word),
        Entry::Done(address, word, ()) => packed(14, address, word),
        Entry::Broke(address, fault) => packed(15, address, u16::from(fault.number())),
        Entry::Still => packed(16, 0, 0),
        Entry::Cleared => packed(17, 0, 0),
    }
}

// Returns the number of `kind`, `address` and `value`.
#[inline(always)]
fn packed(kind: u8, address: u16, value: u16) -> u64 {
    u64::from(kind) + 0x100 * u64::from(address) + 0x100_0000 * u64::from(value)
}

// Returns the number of a refusal with the fault number `fault`, at `place`, if the fault names
// one.
fn placed(fault: u8, place: Option<Place>) -> u64 {
    match place {
        None => packed(1, 0, u16::from(fault)),
        Some(Place::InFrame(i)) => packed(1, i, u16::from(fault)),
        Some(Place::InRom(a)) => packed(1, a, 0x100 + u16::from(fault)),
    }
}

// Returns the number of a refusal with `fault`.
fn refusal(fault: FrameFault) -> u64 {
    placed(fault.number(), fault.place())
}

// Returns the number of `action`.
#[inline(always)]
fn acted(action: Action) -> u64 {
    match action {
        Action::Peek => packed(5, 0, 0),
        Action::Wrote(a, byte) => packed(6, a, u16::from(byte)),
        Action::Read(false) => packed(7, 0, 0),
        Action::Read(true) => packed(7, 0, 1),
        Action::Sent => packed(8, 0, 0),
        Action::Idle => packed(9, 0, 0),
    }
}
}
mod request {
//! What a device is asked for. Questions are apart, as they made ticks slower. A move is told by
//! three answers, so that nothing is kept from one to the next.
use crate::driver::DriverFields;
use crate::judging::JudgeLine;
use crate::operation::Operation;

/// What a generator alone is asked, or that of a world, which changes nothing. Of these `Byte`,
/// `Driver` and `Operation` are asked of a world alone.
#[derive(Clone, Copy, Debug, PartialEq, Eq, Hash)]
pub enum Question {
    /// Which move would this byte make, or `None`, by the flag, if it were handed over next?
    Move(Option<u8>),
    /// Where would the beam be after this byte, or `None`, by the flag?
    MoveTo(Option<u8>),
    /// Where is the beam?
    Beam,
    /// What else does it hold: its global scale, a low byte, a first word, return addresses?
    Holds,
    /// Which return address has this number? The newest one has the number 0.
    ReturnTo(u64),
    /// Which part of its state has this number? The first one has the number 0.
    State(u64),
    /// Which byte does the RAM hold at this byte address?
    Byte(u64),
    /// What does it keep of its driver, but the operations of the frame that is being written?
    Driver,
    /// Which operation has this number in the frame that is being written? The first one has the
    /// number 0.
    Operation(u64),
}

/// What a device is asked for. As a number, its lowest byte is the code, which stands first here,
/// and what it brings stands above: a flag in bit 8, a byte in bits 16 to 23, a count in bits 24 to
/// 39, and a byte address, or the number of a stroke, a return address or a part of a state, from
/// bit 8 on. Bits that mean nothing may have any value.
#[derive(Clone, Copy, Debug, PartialEq, Eq, Hash)]
pub enum Request {
    /// 0: the driver is handed the draft.
    Offer,
    /// 1: the driver is asked to have the published frame drawn again.
    Redraw,
    /// 2: the driver does one action. A driver alone reads what is handed in here; a world reads
    /// its own.
    Tick {
        /// The flag: the HALT flag, true where the generator is halted.
        halted: bool,
        /// The byte: byte 001 of the RAM.
        byte1: u8,
    },
    /// 3: a start strobe reaches the generator. A generator alone begins a run; in a world there is
    /// no effect unless the driver has sent one.
    Strobe,
    /// 4: the generator fetches a byte: the low byte of a word, and then its high byte. A generator
    /// alone is handed this one, or `None`, by the flag, where no memory answers; a world reads its
    /// own.
    Fetch(Option<u8>),
    /// 5: a reset of the generator alone.
    ResetGenerator,
    /// 6: a reset of the processor alone, which is one of the driver.
    ResetProcessor,
    /// 7: a reset of the whole system, which takes no memory. The RAM holds the 2,048 bytes that
    /// were staged.
    ResetAll,
    /// 8: one more operation for the draft. The kind stands in bits 8 to 15, the scale in 16 to 23,
    /// the intensity in 24 to 31, x in 32 to 47, and y in 48 to 63.
    Push(Operation),
    /// 9: the draft has no operation any more.
    ClearDraft,
    /// 10: a byte is staged as often as the count says.
    Stage {
        /// The byte.
        byte: u8,
        /// The count, of 16 bits.
        count: u16,
    },
    /// 11: no byte is staged any more.
    Unstage,
    /// 12: a world begins. The first 2,048 bytes that were staged are those of its RAM, and the
    /// other 2,048 or 4,096 those of its ROM.
    OpenWorld,
    /// 13: a driver alone begins, just reset. The 2,048 or 4,096 bytes that were staged are those
    /// of the ROM over which its drafts are checked.
    OpenDriver,
    /// 14: a generator alone begins, halted, with the beam at 0, 0 and scale 0.
    OpenGenerator,
    /// 15: what is open ends, and its memory is given back, with that of the staged bytes and of
    /// the strokes. The draft is empty again.
    Close,
    /// 16: of a generator alone, which byte is wanted next?
    Wants,
    /// 17: how many strokes did the newest run draw that came to a HALT?
    CountStrokes,
    /// 18: where does the stroke of this number begin? The first one has the number 0.
    StrokeFrom(u64),
    /// 19: where does the stroke of this number end?
    StrokeTo(u64),
    /// 20: what is the intensity of the stroke of this number?
    StrokeIntensity(u64),
    /// 21: a judge of moments begins, which was told nothing. The requests 5, 6 and 7 tell it that
    /// this reset was done.
    OpenJudge,
    /// 22: a judge is told this line of a log. What stands above the code is the number of the
    /// reply that the line's event had: its kind in bits 8 to 15, its address in 16 to 31, and its
    /// value in 32 to 47. A kind above 16 is that of no line.
    Tell(JudgeLine),
    /// 23 to 28, and then 31 to 33, in the order of `Question`: what is asked of a generator alone,
    /// or of a world.
    Ask(Question),
    /// 29: a generator alone begins in the state that was told, which is forgotten. Before any part
    /// was told, that is the state of a new one. Strokes of a finished run are no part of it.
    Resume,
    /// 30: a generator alone whose stack wraps begins, as hardware goes on: halted, with the beam
    /// at 0, 0 and scale 0, and four return addresses of 0.
    OpenWrapping,
    /// 34: a generator alone whose stack wraps begins in the state that was told, which is
    /// forgotten. That state has four return addresses, the oldest first: the registers.
    ResumeWrapping,
    /// 35: a part of a state is told. Its word stands above the code, so the number of the reply
    /// that tells a part is the request by which another device is told it. `StatePart` says which
    /// there are.
    TellState(u64),
    /// 38: the world that is open goes on in the state that was told, which is forgotten. Its
    /// generator's parts were told; the 2,048 bytes that are staged are those of its RAM; and the
    /// draft is the frame that is being written. What it keeps of its driver stands above the code:
    /// the number of the reply to `Driver` is this request. Its ROM and its picture stay.
    ResumeWorld(DriverFields),
    /// Any other number.
    Unknown,
}

impl Request {
    // Returns the request that tells a judge of `line`, or `Unknown` where there is no line.
    fn telling(line: Option<JudgeLine>) -> Request {
        match line {
            Some(line) => Request::Tell(line),
            None => Request::Unknown,
        }
    }

    // Returns the request that resumes a world with `fields`, or `Unknown` where there are none.
    fn resuming(fields: Option<DriverFields>) -> Request {
        match fields {
            Some(fields) => Request::ResumeWorld(fields),
            None => Request::Unknown,
        }
    }

    /// Returns the request that `number` is.
    #[inline(always)]
    pub fn of(number: u64) -> Request {
        match number % 0x100 {
            0 => Request::Offer,
            1 => Request::Redraw,
            2 => Request::Tick {
                halted: flag_in(number),
                byte1: byte_in(number),
            },
            3 => Request::Strobe,
            4 => Request::Fetch(handed(flag_in(number), byte_in(number))),
            5 => Request::ResetGenerator,
            6 => Request::ResetProcessor,
            7 => Request::ResetAll,
            8 => Request::Push(operation(number)),
            9 => Request::ClearDraft,
            10 => Request::Stage {
                byte: byte_in(number),
                count: (number / 0x100_0000 % 0x1_0000) as u16,
            },
            11 => Request::Unstage,
            12 => Request::OpenWorld,
            13 => Request::OpenDriver,
            14 => Request::OpenGenerator,
            15 => Request::Close,
            16 => Request::Wants,
            17 => Request::CountStrokes,
            18 => Request::StrokeFrom(number / 0x100),
            19 => Request::StrokeTo(number / 0x100),
            20 => Request::StrokeIntensity(number / 0x100),
            21 => Request::OpenJudge,
            22 => Request::telling(line_in(number)),
            23 => Request::Ask(Question::Move(handed(flag_in(number), byte_in(number)))),
            24 => Request::Ask(Question::MoveTo(handed(flag_in(number), byte_in(number)))),
            25 => Request::Ask(Question::Beam),
            26 => Request::Ask(Question::Holds),
            27 => Request::Ask(Question::ReturnTo(number / 0x100)),
            28 => Request::Ask(Question::State(number / 0x100)),
            29 => Request::Resume,
            30 => Request::OpenWrapping,
            31 => Request::Ask(Question::Byte(number / 0x100)),
            32 => Request::Ask(Question::Driver),
            33 => Request::Ask(Question::Operation(number / 0x100)),
            34 => Request::ResumeWrapping,
            35 => Request::TellState(number / 0x100),
            38 => Request::resuming(DriverFields::in_number(number)),
            _ => Request::Unknown,
        }
    }
}

// Returns the flag in `number`.
#[inline(always)]
fn flag_in(number: u64) -> bool {
    number / 0x100 % 2 == 1
}

// Returns the byte in `number`, above a flag.
#[inline(always)]
fn byte_in(number: u64) -> u8 {
    (number / 0x1_0000 % 0x100) as u8
}

// Returns `byte`, or `None` where `flag` says that no memory answers.
#[inline(always)]
fn handed(flag: bool, byte: u8) -> Option<u8> {
    if flag { None } else { Some(byte) }
}

// Returns the operation in `number`.
fn operation(number: u64) -> Operation {
    Operation {
        kind: (number / 0x100 % 0x100) as u8,
        scale: (number / 0x1_0000 % 0x100) as u8,
        z: (number / 0x100_0000 % 0x100) as u8,
        x: (number / 0x1_0000_0000 % 0x1_0000) as u16,
        y: (number / 0x1_0000_0000_0000 % 0x1_0000) as u16,
    }
}

// Returns the line of a log in `number`, if its kind is that of one.
fn line_in(number: u64) -> Option<JudgeLine> {
    let address = (number / 0x1_0000 % 0x1_0000) as u16;
    let value = (number / 0x1_0000_0000 % 0x1_0000) as u16;
    match number / 0x100 % 0x100 {
        6 => Some(JudgeLine::Wrote(address, (value % 0x100) as u8)),
        10 => Some(JudgeLine::Started),
        12 => Some(JudgeLine::Low(address, (value % 0x100) as u8)),
        13 => Some(JudgeLine::Fetched(address, value)),
        14 => Some(JudgeLine::Done(address, value)),
        15 => Some(JudgeLine::Ended),
        kind if kind < 17 => Some(JudgeLine::Passed),
        _ => None,
    }
}
}
mod state {
//! The state of a generator alone, in parts.
use crate::reply::bit;

/// A part of a generator's state, as it is saved. In order these are its fields, its return
/// addresses, the oldest first, two parts for each stroke that the open run drew so far, and the
/// beam's place.
///
/// As a word, a number below 2^56, its lowest byte is its kind, which stands first here, and its
/// fields stand above. Bits that mean nothing may have any value.
#[derive(Clone, Copy, Debug, PartialEq, Eq, Hash)]
pub enum StatePart {
    /// 0: a state begins, as its fields say, with no return address and no stroke. The address
    /// stands in bits 8 to 23, the first word in 24 to 39, the low byte in 40 to 47, and the scale
    /// in 48 to 51. Bit 52 says whether a run is open, 53 whether there is a low byte, and 54
    /// whether there is a first word.
    Fields {
        /// Whether a run is open.
        is_open: bool,
        /// The address of the next word.
        at: u16,
        /// The first word of the instruction whose second word comes next.
        held: Option<u16>,
        /// The low byte of the next word.
        low: Option<u8>,
        /// The global scale.
        scale: u8,
    },
    /// 1: one more return address, in bits 8 to 23.
    ReturnAddress(u16),
    /// 2: the beam is at x, in bits 8 to 29, and y, in bits 30 to 51. A stroke begins there, or the
    /// state has its beam there.
    Place(u32, u32),
    /// 3: one more stroke leads from that place to x and y, which stand as those of a place do. Its
    /// intensity stands in bits 52 to 55. The place stays.
    Line(u32, u32, u8),
}

impl StatePart {
    /// Returns the part that `word` is, if its kind is that of one.
    #[must_use]
    pub fn of(word: u64) -> Option<StatePart> {
        match word % 0x100 {
            0 => Some(fields_in(word)),
            1 => Some(StatePart::ReturnAddress((word / 0x100 % 0x1_0000) as u16)),
            2 => Some(StatePart::Place(x_in(word), y_in(word))),
            3 => Some(StatePart::Line(x_in(word), y_in(word), z_in(word))),
            _ => None,
        }
    }

    /// Returns the word of the part. Positions count modulo 2^22, and scales and intensities modulo
    /// 16: each that a generator has is below that.
    pub fn word(self) -> u64 {
        match self {
            StatePart::Fields {
                is_open,
                at,
                held,
                low,
                scale,
            } => {
                let flags = bit(is_open) + 2 * bit(low.is_some()) + 4 * bit(held.is_some());
                0x100 * u64::from(at)
                    + 0x100_0000 * u64::from(held.unwrap_or(0))
                    + 0x100_0000_0000 * u64::from(low.unwrap_or(0))
                    + 0x1_0000_0000_0000 * u64::from(scale % 16)
                    + 0x10_0000_0000_0000 * u64::from(flags)
            }
            StatePart::ReturnAddress(address) => 1 + 0x100 * u64::from(address),
            StatePart::Place(x, y) => 2 + place_word(x, y),
            StatePart::Line(x, y, z) => 3
                + place_word(x, y)
                + 0x10_0000_0000_0000 * u64::from(z % 16),
        }
    }
}

// Returns where `x` and `y` stand in a word.
fn place_word(x: u32, y: u32) -> u64 {
    0x100 * u64::from(x % 0x40_0000) + 0x4000_0000 * u64::from(y % 0x40_0000)
}

// Returns the fields in `word`.
fn fields_in(word: u64) -> StatePart {
    let flags = word / 0x10_0000_0000_0000;
    StatePart::Fields {
        is_open: flags % 2 == 1,
        at: (word / 0x100 % 0x1_0000) as u16,
        held: (flags / 4 % 2 == 1).then_some((word / 0x100_0000 % 0x1_0000) as u16),
        low: (flags / 2 % 2 == 1).then_some((word / 0x100_0000_0000 % 0x100) as u8),
        scale: (word / 0x1_0000_0000_0000 % 16) as u8,
    }
}

// Returns the place along x in `word`.
fn x_in(word: u64) -> u32 {
    (word / 0x100 % 0x40_0000) as u32
}

// Returns the place along y in `word`.
fn y_in(word: u64) -> u32 {
    (word / 0x4000_0000 % 0x40_0000) as u32
}

// Returns the intensity in `word`.
fn z_in(word: u64) -> u8 {
    (word / 0x10_0000_0000_0000 % 16) as u8
}
}
mod waiting {
//! What was told of a generator's state, before one begins in it. An answer that tells a part is
//! the request that tells another device the same part. What was open stays until the whole state
//! is there; the first part begins anew.
use std::prelude::*;

use crate::reply::Reply;
use crate::state::StatePart;
use arrayvec::ArrayVec;
use dvg_gen::{Generator, GeneratorState, Stroke, WrappingGenerator};
use dvg_log::Entry;
use std::alloc::Global;
use std::mem;

/// What came of a part that was taken.
const TAKEN: Reply = Reply::Came(Entry::Cleared);

/// The state of a generator, so far as its parts were told.
pub(crate) struct Waiting {
    state: GeneratorState,
    strokes: Vec<Stroke>,
}

impl Waiting {
    // Returns the state of which no part was told: that of a new generator.
    pub(crate) fn new(alloc: Global) -> Waiting {
        Waiting {
            state: GeneratorState {
                is_open: false,
                at: 0,
                held: None,
                low: None,
                return_addresses: ArrayVec::new(),
                x: 0,
                y: 0,
                scale: 0,
            },
            strokes: Vec::new(alloc),
        }
    }

    // Takes the part that `word` is. Returns the reply. Strokes take memory of `alloc`.
    pub(crate) fn take(&mut self, alloc: Global, word: u64) -> Reply {
        match StatePart::of(word) {
            Some(
                StatePart::Fields {
                    is_open,
                    at,
                    held,
                    low,
                    scale,
                },
            ) => {
                *self = Waiting::new(alloc);
                self.state.is_open = is_open;
                self.state.at = at;
                self.state.held = held;
                self.state.low = low;
                self.state.scale = scale;
                TAKEN
            }
            Some(StatePart::ReturnAddress(address)) => self.take_return_address(address),
            Some(StatePart::Place(x, y)) => {
                self.state.x = x;
                self.state.y = y;
                TAKEN
            }
            Some(StatePart::Line(x, y, z)) => self.take_line(x, y, z),
            None => Reply::NoState,
        }
    }

    // Takes one more return address.
    fn take_return_address(&mut self, address: u16) -> Reply {
        match self.state.return_addresses.try_push(address) {
            Ok(()) => TAKEN,
            Err(_) => Reply::NoState,
        }
    }

    // Takes one more stroke, from the place to `x` and `y`, with the intensity `z`.
    fn take_line(&mut self, x: u32, y: u32, z: u8) -> Reply {
        let stroke = Stroke {
            x0: self.state.x,
            y0: self.state.y,
            x1: x,
            y1: y,
            z,
        };
        if !stroke.is_valid() {
            return Reply::NoState;
        }
        match self.strokes.push(stroke) {
            Ok(()) => TAKEN,
            Err(_) => Reply::NoMemory,
        }
    }

    // Takes the state and the strokes that were told, and forgets them.
    pub(crate) fn take_told(&mut self, alloc: Global) -> (GeneratorState, Vec<Stroke>) {
        let Waiting { state, strokes } = mem::replace(self, Waiting::new(alloc));
        (state, strokes)
    }

    // Returns a generator in this state, and forgets the state, where a generator can be in it.
    // Otherwise it returns `None`, and nothing has changed.
    pub(crate) fn generator(&mut self, alloc: Global) -> Option<Generator<Global>> {
        if !self.state.is_valid() {
            return None;
        }
        let (state, strokes) = self.take_told(alloc);
        let mut generator = Generator::new(alloc);
        match generator.resume(&state, strokes) {
            Ok(()) => Some(generator),
            Err(_) => unreachable!(),
        }
    }

    // Returns a generator whose stack wraps in this state, and forgets the state, where such a one
    // can be in it. Otherwise it returns `None`, and nothing has changed.
    pub(crate) fn wrapping(&mut self, alloc: Global) -> Option<WrappingGenerator<Global>> {
        if !self.state.return_addresses.is_full() || !self.state.is_valid() {
            return None;
        }
        let (state, strokes) = self.take_told(alloc);
        let mut wrapping = WrappingGenerator::new(alloc);
        match wrapping.resume(&state, strokes) {
            Ok(()) => Some(wrapping),
            Err(_) => unreachable!(),
        }
    }
}
}
mod wrapping {
//! A generator alone whose stack wraps. A request of its own opens it: else a run breaks where
//! documents have no rule.
use crate::lone::{held, is_saved, onward, part, tell, told_part, wanted};
use crate::reply::Reply;
use crate::request::{Question, Request};
use dvg_gen::{STACK_DEPTH, WrappingGenerator};
use dvg_log::Entry;
use std::alloc::Global;

// Lets `generator` do `request`. Returns the reply.
#[inline(never)]
pub(crate) fn ask_wrapping(generator: &mut WrappingGenerator<Global>, request: Request) -> Reply {
    match request {
        Request::Strobe => {
            generator.start();
            Reply::Onward(Entry::Started, 0, false)
        }
        Request::ResetGenerator => {
            generator.reset();
            Reply::Came(Entry::Cleared)
        }
        Request::Wants => wanted_wrapping(generator),
        Request::Fetch(byte) => fetch_wrapping(generator, byte),
        Request::Ask(question) => tell_wrapping(generator, question),
        _ => Reply::Unknown,
    }
}

// Returns the reply of `generator` that says which byte is wanted next.
#[inline(always)]
pub(crate) fn wanted_wrapping(generator: &WrappingGenerator<Global>) -> Reply {
    wanted(generator.generator())
}

// Returns the reply of `generator` to `question`.
pub(crate) fn tell_wrapping(generator: &WrappingGenerator<Global>, question: Question) -> Reply {
    match question {
        Question::Holds => held(generator.generator(), STACK_DEPTH as u16, true),
        Question::ReturnTo(i) => register(generator, i),
        Question::State(i) => state(generator, i),
        question => tell(generator.generator(), question),
    }
}

// Returns the reply that says what register `i` of `generator` has, from 0, the newest one.
fn register(generator: &WrappingGenerator<Global>, i: u64) -> Reply {
    let registers: &[u16] = generator.registers();
    if i < registers.len() as u64 {
        Reply::ReturnsTo(registers[i as usize])
    } else {
        Reply::Nothing
    }
}

// Returns the reply that says what part `i` of the state of `generator` is, from 0.
fn state(generator: &WrappingGenerator<Global>, i: u64) -> Reply {
    let state = generator.state();
    is_saved(&state);
    told_part(part(&state, generator.generator(), i))
}

// Hands `byte` to `generator`, where `None` is a hole. Returns the reply.
pub(crate) fn fetch_wrapping(generator: &mut WrappingGenerator<Global>, byte: Option<u8>) -> Reply {
    let Some(address) = generator.generator().wants() else {
        return Reply::Came(Entry::Still);
    };
    let low = generator.generator().low_byte();
    match generator.feed(byte) {
        Ok(step) => onward(
            Entry::of_fetch(address, low, byte, step, ()),
            generator.generator(),
        ),
        Err(_) => Reply::NoMemory,
    }
}
}

pub use device::{Device, MOST_STAGED};
pub use driver::DriverFields;
pub use judging::JudgeLine;
pub use operation::Operation;
pub use reply::{Reply, RunState};
pub use request::{Question, Request};
pub use state::StatePart;
