//! The plain twin of the port to C, with the same requests and answers: a static library that is
//! written for speed and clarity with no proof. It is never refused memory.
//!
//! It exports `plain_new`, `plain_turn` and `plain_free`, where the proved archive has `dvg_new`,
//! `dvg_turn` and `dvg_free`, so both can be linked into one program.

use crate::driver::{Action, Driver, State as DriverState};
use crate::frames::{FrameFault, Instr, MOST, Op, Place, Rom, check};
use crate::generator::{Beam, GenFault, Generator, Move, State, Stroke, Taken};
use crate::memory::{BYTES, Flat, ROM_END};
use crate::moments::{Line, Moments, Standing};
use crate::world::{Entry, World};

/// The most bytes that are staged.
const MOST_STAGED: usize = 6144;

/// The numbers of requests: the greatest one but the last two, and these, by which a state is told
/// and a world goes on in it.
const LAST_REQUEST: u8 = 34;
const TELL_STATE: u8 = 35;
const RESUME_WORLD: u8 = 38;

/// A driver alone, with the ROM over which its drafts are checked.
struct Desk {
    rom: Rom,
    driver: Driver,
}

/// A generator alone, with the byte that was fetched last.
struct Lone {
    generator: Generator,
    last: u8,
}

/// What is open.
enum Part {
    Nothing,
    World(Box<World<Flat>>),
    Driver(Box<Desk>),
    Generator(Lone),
    Judge(Box<Moments>),
}

/// A device, in which a world, a driver alone, a generator alone or a judge may be open.
pub struct Device {
    staged: Vec<u8>,
    draft: Vec<Op>,
    picture: Vec<Stroke>,
    /// The state of a generator, so far as it was told.
    told: State,
    part: Part,
}

/// An answer: its kind, an address and a value.
const fn packed(kind: u8, address: u16, value: u16) -> u64 {
    kind as u64 | (address as u64) << 8 | (value as u64) << 24
}

const BUSY: u64 = packed(2, 0, 0);
const STILL: u64 = packed(16, 0, 0);
const CLEARED: u64 = packed(17, 0, 0);
const FULL: u64 = packed(20, 0, 0);
const OPENED: u64 = packed(22, 0, 0);
const WRONG_SIZE: u64 = packed(23, 0, 0);
const CLOSED: u64 = packed(24, 0, 0);
const NOTHING: u64 = packed(32, 0, 0);
const NO_STATE: u64 = packed(36, 0, 0);
const UNKNOWN: u64 = packed(254, 0, 0);

/// A fault at a place.
fn placed(fault: u16, place: Place) -> u64 {
    match place {
        Place::Op(i) => packed(1, i, fault),
        Place::Word(a) => packed(1, a, 0x100 | fault),
    }
}

fn refusal(fault: FrameFault) -> u64 {
    match fault {
        FrameFault::Empty => packed(1, 0, 1),
        FrameFault::NoLabs => packed(1, 0, 2),
        FrameFault::TooLong => packed(1, 0, 3),
        FrameFault::Target(i) => packed(1, i, 4),
        FrameFault::RunsOff(i) => packed(1, i, 5),
        FrameFault::OutOfRom(place) => placed(6, place),
        FrameFault::TooDeep(place) => placed(7, place),
        FrameFault::NoCaller(place) => placed(8, place),
        FrameFault::Loops => packed(1, 0, 9),
    }
}

fn acted(action: Action) -> u64 {
    match action {
        Action::Peek => packed(5, 0, 0),
        Action::Wrote(address, byte) => packed(6, address, u16::from(byte)),
        Action::Read(halted) => packed(7, 0, u16::from(halted)),
        Action::Sent => packed(8, 0, 0),
        Action::Idle => packed(9, 0, 0),
    }
}

/// The answer of an entry. The strokes of a run that came to a HALT take the place of those before
/// them.
fn answered(entry: Entry, picture: &mut Vec<Stroke>) -> u64 {
    match entry {
        Entry::Offered => packed(0, 0, 0),
        Entry::Refused(fault) => refusal(fault),
        Entry::Busy => BUSY,
        Entry::Asked => packed(3, 0, 0),
        Entry::NothingPublished => packed(4, 0, 0),
        Entry::Acted(action) => acted(action),
        Entry::Started => packed(10, 0, 0),
        Entry::NoStrobe => packed(11, 0, 0),
        Entry::Low(address, byte) => packed(12, address, u16::from(byte)),
        Entry::Fetched(address, word) => packed(13, address, word),
        Entry::Done(address, word, strokes) => {
            *picture = strokes;
            packed(14, address, word)
        }
        Entry::Broke(address, fault) => packed(
            15,
            address,
            match fault {
                GenFault::StackOver => 1,
                GenFault::StackUnder => 2,
                GenFault::Hole => 3,
            },
        ),
        Entry::Still => STILL,
        Entry::Cleared => CLEARED,
    }
}

/// Where the beam is.
fn point(beam: Beam) -> u64 {
    u64::from(beam.x) | u64::from(beam.y) << 32
}

/// A place in a part of a state.
fn place(x: u32, y: u32) -> u64 {
    u64::from(x) << 16 | u64::from(y) << 38
}

/// The parts of a state, each as the request that tells it.
fn parts_of(state: &State) -> Vec<u64> {
    let mut parts = vec![
        u64::from(state.at) << 16
            | u64::from(state.held.unwrap_or(0)) << 32
            | u64::from(state.low.unwrap_or(0)) << 48
            | u64::from(state.beam.scale) << 56
            | u64::from(state.open) << 60
            | u64::from(state.low.is_some()) << 61
            | u64::from(state.held.is_some()) << 62,
    ];
    let addresses = state.return_addresses.iter();
    parts.extend(addresses.map(|address| 1 << 8 | u64::from(*address) << 16));
    for stroke in &state.strokes {
        parts.push(2 << 8 | place(stroke.x0, stroke.y0));
        parts.push(3 << 8 | place(stroke.x1, stroke.y1) | u64::from(stroke.z) << 60);
    }
    parts.push(2 << 8 | place(state.beam.x, state.beam.y));
    parts
        .iter()
        .map(|part| part | u64::from(TELL_STATE))
        .collect()
}

/// The state of which nothing was told.
fn unbegun() -> State {
    Generator::new().state()
}

/// Tells a state one part more, if it is one that suits.
fn tell_state(state: &mut State, request: u64) -> bool {
    let beam = Beam {
        x: (request >> 16) as u32 & 0x3F_FFFF,
        y: (request >> 38) as u32 & 0x3F_FFFF,
        scale: state.beam.scale,
    };
    match (request >> 8) as u8 {
        0 => {
            *state = unbegun();
            state.open = request >> 60 & 1 == 1;
            state.at = (request >> 16) as u16;
            state.held = (request >> 62 & 1 == 1).then_some((request >> 32) as u16);
            state.low = (request >> 61 & 1 == 1).then_some((request >> 48) as u8);
            state.beam.scale = (request >> 56) as u8 & 0xF;
            true
        }
        1 => {
            let fits = state.return_addresses.len() < 4;
            if fits {
                state.return_addresses.push((request >> 16) as u16);
            }
            fits
        }
        2 => {
            state.beam = beam;
            true
        }
        3 => {
            let (x0, y0, x1, y1) = (state.beam.x, state.beam.y, beam.x, beam.y);
            let z = (request >> 60) as u8;
            let fits = z > 0 && x0.max(y0).max(x1).max(y1) < 2_097_152;
            if fits {
                state.strokes.push(Stroke { x0, y0, x1, y1, z });
            }
            fits
        }
        _ => false,
    }
}

/// The byte of a request.
fn byte_of(request: u64) -> u8 {
    (request >> 16) as u8
}

/// The flag of a request.
fn flag_of(request: u64) -> bool {
    request >> 8 & 1 == 1
}

/// The operation that a request brings, if its fields are those of one.
fn operation(request: u64) -> Option<Op> {
    let [_, kind, scale, z, x0, x1, y0, y1] = request.to_le_bytes();
    let (x, y) = (u16::from_le_bytes([x0, x1]), u16::from_le_bytes([y0, y1]));
    let (dx, dy) = (x as i16, y as i16);
    let most = |move_most: u16| dx.unsigned_abs() <= move_most && dy.unsigned_abs() <= move_most;
    let (op, fits) = match kind {
        0 => (
            Op::Draw(Instr::Vctr { scale, dx, dy, z }),
            scale <= 9 && z <= 15 && most(1023),
        ),
        1 => (
            Op::Draw(Instr::Svec {
                scale,
                dx: dx as i8,
                dy: dy as i8,
                z,
            }),
            (2..=5).contains(&scale) && z <= 15 && most(3),
        ),
        2 => (
            Op::Draw(Instr::Labs { x, y, scale }),
            x <= 4095 && y <= 4095 && scale <= 15,
        ),
        3 => (Op::Call(x), true),
        4 => (Op::Jump(x), true),
        5 => (Op::CallRom(x), x <= 0xFFF),
        6 => (Op::JumpRom(x), x <= 0xFFF),
        7 => (Op::Return, true),
        8 => (Op::Halt, true),
        _ => return None,
    };
    fits.then_some(op)
}

/// The ROM of these bytes. None where they are neither 2,048 nor 4,096.
fn rom_of(bytes: &[u8]) -> Option<Rom> {
    if bytes.len() != 2048 && bytes.len() != 4096 {
        return None;
    }
    let (words, _) = bytes.as_chunks();
    Some(Rom {
        first: (ROM_END - words.len()) as u16,
        words: words.iter().map(|word| u16::from_le_bytes(*word)).collect(),
    })
}

/// The byte that a request hands over. None where no memory answers.
fn handed(request: u64) -> Option<u8> {
    (!flag_of(request)).then_some(byte_of(request))
}

/// What a generator holds, but for its beam's place.
fn holds(generator: &Generator) -> u64 {
    let first = generator.first_word();
    let bits = u16::from(generator.beam().scale)
        | u16::from(generator.wants_high()) << 4
        | u16::from(first.is_some()) << 5
        | u16::from(generator.wraps()) << 6
        | (generator.return_addresses().len() as u16) << 8;
    packed(33, first.unwrap_or(0), bits)
}

/// The move that a byte would make.
fn tell_move(generator: &Generator, request: u64) -> u64 {
    match generator.move_by(handed(request)) {
        Some(Move {
            z, placed, address, ..
        }) => packed(31, address, u16::from(z) | u16::from(placed) << 8),
        None => NOTHING,
    }
}

fn return_to(generator: &Generator, request: u64) -> u64 {
    let addresses = generator.return_addresses();
    match addresses.iter().rev().nth((request >> 8) as usize) {
        Some(address) => packed(34, *address, 0),
        None => NOTHING,
    }
}

/// The answer of a generator, alone or in a world, to a question.
fn tell_of(generator: &Generator, request: u64) -> u64 {
    match request as u8 {
        23 => tell_move(generator, request),
        24 => point(match generator.move_by(handed(request)) {
            Some(Move { to, .. }) => to,
            None => generator.beam(),
        }),
        25 => point(generator.beam()),
        26 => holds(generator),
        27 => return_to(generator, request),
        28 => part(generator, request),
        _ => UNKNOWN,
    }
}

/// The part of this number of a generator's state.
fn part(generator: &Generator, request: u64) -> u64 {
    let parts = parts_of(&generator.state());
    parts
        .get((request >> 8) as usize)
        .copied()
        .unwrap_or(NOTHING)
}

/// What a world keeps of its driver, and whether a strobe is under way: the request by which
/// another one goes on so.
fn driver_of(world: &World<Flat>) -> u64 {
    let state = world.driver().state();
    let is_half_1 = |base: u16| u64::from(base == 0x201);
    u64::from(RESUME_WORLD)
        | u64::from(state.phase) << 8
        | is_half_1(state.base) << 16
        | u64::from(state.flipped) << 17
        | is_half_1(state.frame_base) << 18
        | u64::from(world.strobed()) << 19
        | u64::from(state.left) << 24
}

/// The state of a driver in a request.
fn driver_in(request: u64) -> DriverState {
    let base_at = |bit: u64| {
        if request >> bit & 1 == 1 {
            0x201
        } else {
            0x001
        }
    };
    DriverState {
        phase: (request >> 8) as u8,
        base: base_at(16),
        frame_base: base_at(18),
        flipped: request >> 17 & 1 == 1,
        left: (request >> 24) as u16,
    }
}

/// The request that pushes an operation.
fn pushing(op: Op) -> u64 {
    let fields = |kind: u64, scale: u8, z: u8, x: u16, y: u16| {
        8 | kind << 8
            | u64::from(scale) << 16
            | u64::from(z) << 24
            | u64::from(x) << 32
            | u64::from(y) << 48
    };
    match op {
        Op::Draw(Instr::Vctr { scale, dx, dy, z }) => fields(0, scale, z, dx as u16, dy as u16),
        Op::Draw(Instr::Svec { scale, dx, dy, z }) => fields(1, scale, z, dx as u16, dy as u16),
        Op::Draw(Instr::Labs { x, y, scale }) => fields(2, scale, 0, x, y),
        Op::Call(i) => fields(3, 0, 0, i, 0),
        Op::Jump(i) => fields(4, 0, 0, i, 0),
        Op::CallRom(a) => fields(5, 0, 0, a, 0),
        Op::JumpRom(a) => fields(6, 0, 0, a, 0),
        Op::Return => fields(7, 0, 0, 0, 0),
        Op::Halt => fields(8, 0, 0, 0, 0),
    }
}

/// The operation of this number of the frame that a world writes.
fn written(world: &World<Flat>, request: u64) -> u64 {
    let op = world.driver().written().get((request >> 8) as usize);
    op.map_or(NOTHING, |op| pushing(*op))
}

impl Lone {
    /// Which byte it wants next, in bits from bit 40 on; 0 where no run is open.
    fn onward(&self) -> u64 {
        match self.generator.wants() {
            Some(address) => {
                let byte = u64::from(address) << 1 | u64::from(self.generator.wants_high());
                1 << 60 | byte << 40
            }
            None => 0,
        }
    }

    fn fetch(&mut self, request: u64, picture: &mut Vec<Stroke>) -> u64 {
        let Some(address) = self.generator.wants() else {
            return STILL;
        };
        let byte = handed(request);
        let taken = self.generator.take_byte(byte);
        let low = std::mem::replace(&mut self.last, byte.unwrap_or(0));
        let word = u16::from_le_bytes([low, self.last]);
        let entry = match taken {
            Taken::Low => Entry::Low(address, self.last),
            Taken::Word => Entry::Fetched(address, word),
            Taken::Done(strokes) => Entry::Done(address, word, strokes),
            Taken::Broke(fault) => Entry::Broke(address, fault),
        };
        answered(entry, picture) | self.onward()
    }

    #[inline]
    fn ask(&mut self, request: u64, picture: &mut Vec<Stroke>) -> u64 {
        match request as u8 {
            3 => {
                self.generator.start();
                packed(10, 0, 0) | self.onward()
            }
            4 => self.fetch(request, picture),
            5 => {
                self.generator.reset();
                CLEARED
            }
            16 => match self.generator.wants() {
                None => STILL,
                Some(address) => packed(25, address, u16::from(self.generator.wants_high())),
            },
            _ => tell_of(&self.generator, request),
        }
    }
}

impl Desk {
    fn offer(&mut self, draft: &[Op]) -> u64 {
        match check(draft, &self.rom) {
            Err(fault) => refusal(fault),
            Ok(frame) => {
                if self.driver.offer(frame) {
                    packed(0, 0, 0)
                } else {
                    BUSY
                }
            }
        }
    }

    fn ask(&mut self, request: u64, draft: &[Op]) -> u64 {
        match request as u8 {
            0 => self.offer(draft),
            1 => match self.driver.redraw() {
                None => packed(4, 0, 0),
                Some(true) => packed(3, 0, 0),
                Some(false) => BUSY,
            },
            2 => acted(self.driver.tick(flag_of(request), byte_of(request))),
            6 => {
                self.driver = Driver::new();
                CLEARED
            }
            _ => UNKNOWN,
        }
    }
}

/// Asks a world.
#[inline]
fn ask_world(
    world: &mut World<Flat>,
    request: u64,
    draft: &[Op],
    staged: &[u8],
    picture: &mut Vec<Stroke>,
) -> u64 {
    let entry = match request as u8 {
        0 => world.offer(draft),
        1 => world.redraw(),
        2 => world.tick(),
        3 => world.strobe(),
        4 => world.fetch(),
        5 => world.reset_generator(),
        6 => world.reset_processor(),
        7 => match staged.try_into() {
            Ok(image) => world.reset_all(image),
            Err(_) => return WRONG_SIZE,
        },
        31 => {
            let address = (request >> 8) as usize;
            return match world.ram_byte(address) {
                Some(byte) => packed(37, address as u16, u16::from(byte)),
                None => NOTHING,
            };
        }
        32 => return driver_of(world),
        33 => return written(world, request),
        _ => return tell_of(world.generator(), request),
    };
    answered(entry, picture)
}

/// The line that a judge is told by a request. None where it tells none.
fn line_of(request: u64) -> Option<Line> {
    let [code, kind, a0, a1, v0, v1, _, _] = request.to_le_bytes();
    let (address, value) = (u16::from_le_bytes([a0, a1]), u16::from_le_bytes([v0, v1]));
    match (code, kind) {
        (5, _) | (22, 15) => Some(Line::Ended),
        (7, _) => Some(Line::Reset),
        (22, 6) => Some(Line::Wrote(address, v0)),
        (22, 10) => Some(Line::Started),
        (22, 12) => Some(Line::Low(address, v0)),
        (22, 13) => Some(Line::Fetched(address, value)),
        (22, 14) => Some(Line::Done(address, value)),
        (6, _) | (22, 0..=16) => Some(Line::Passed),
        _ => None,
    }
}

/// Whether a number is a request.
fn is_request(request: u64) -> bool {
    match request as u8 {
        22 => line_of(request).is_some(),
        RESUME_WORLD => driver_in(request).phase <= 6,
        code => code <= LAST_REQUEST,
    }
}

/// Tells a judge.
fn tell(judge: &mut Moments, request: u64) -> u64 {
    let Some(line) = line_of(request) else {
        return UNKNOWN;
    };
    let (standing, contradicts) = judge.tell(line);
    let kind = match standing {
        Standing::NoRun => 26,
        Standing::OneMoment => 27,
        Standing::NoMoment => 28,
        Standing::Whole => 29,
        Standing::Torn => 30,
    };
    packed(kind, 0, u16::from(contradicts))
}

impl Device {
    fn new() -> Device {
        Device {
            staged: Vec::new(),
            draft: Vec::new(),
            picture: Vec::new(),
            told: unbegun(),
            part: Part::Nothing,
        }
    }

    fn push(&mut self, request: u64) -> u64 {
        let Some(op) = operation(request) else {
            return packed(19, 0, 0);
        };
        if self.draft.len() == MOST {
            return FULL;
        }
        self.draft.push(op);
        packed(18, 0, (self.draft.len() - 1) as u16)
    }

    fn stage(&mut self, request: u64) -> u64 {
        let length = self.staged.len() + usize::from((request >> 24) as u16);
        if length > MOST_STAGED {
            return FULL;
        }
        self.staged.resize(length, byte_of(request));
        packed(21, 0, length as u16)
    }

    fn new_world(&self) -> Option<Part> {
        let (image, rom) = self.staged.split_first_chunk::<BYTES>()?;
        Some(Part::World(Box::new(World::new(rom_of(rom)?, image))))
    }

    fn new_driver(&self) -> Option<Part> {
        Some(Part::Driver(Box::new(Desk {
            rom: rom_of(&self.staged)?,
            driver: Driver::new(),
        })))
    }

    fn open(&mut self, part: Option<Part>) -> u64 {
        let Some(part) = part else {
            return WRONG_SIZE;
        };
        self.part = part;
        self.picture = Vec::new();
        OPENED
    }

    fn tell_state(&mut self, request: u64) -> u64 {
        if tell_state(&mut self.told, request) {
            CLEARED
        } else {
            NO_STATE
        }
    }

    /// Opens a generator in the state that was told, whose stack wraps or not.
    fn resume(&mut self, wraps: bool) -> u64 {
        let Some(generator) = Generator::resumed(self.told.clone(), wraps) else {
            return NO_STATE;
        };
        let last = self.told.low.unwrap_or(0);
        self.told = unbegun();
        self.open(Some(Part::Generator(Lone { generator, last })))
    }

    /// Has a world go on in what was told, with the staged RAM and the draft as its frame.
    fn resume_world(&mut self, request: u64) -> u64 {
        let Part::World(world) = &mut self.part else {
            return UNKNOWN;
        };
        let Ok(image) = self.staged.as_slice().try_into() else {
            return WRONG_SIZE;
        };
        let told = std::mem::replace(&mut self.told, unbegun());
        let last = told.low.unwrap_or(0);
        let Some(generator) = Generator::resumed(told, false) else {
            return NO_STATE;
        };
        let (state, strobed) = (driver_in(request), request >> 19 & 1 == 1);
        if world.resume(image, (generator, last), (&state, &self.draft), strobed) {
            OPENED
        } else {
            NO_STATE
        }
    }

    fn stroke(&self, request: u64) -> Option<&Stroke> {
        self.picture.get((request >> 8) as usize)
    }

    /// One request, and its answer.
    #[inline]
    fn turn(&mut self, request: u64) -> u64 {
        match request as u8 {
            8 => self.push(request),
            9 => {
                self.draft.clear();
                CLEARED
            }
            10 => self.stage(request),
            11 => {
                self.staged = Vec::new();
                CLEARED
            }
            12 => self.open(self.new_world()),
            13 => self.open(self.new_driver()),
            14 => self.open(Some(Part::Generator(Lone {
                generator: Generator::new(),
                last: 0,
            }))),
            21 => self.open(Some(Part::Judge(Box::default()))),
            15 => {
                *self = Device::new();
                CLOSED
            }
            29 => self.resume(false),
            34 => self.resume(true),
            30 => self.open(Some(Part::Generator(Lone {
                generator: Generator::wrapping(),
                last: 0,
            }))),
            TELL_STATE => self.tell_state(request),
            17 => self.picture.len() as u64,
            18 => self.stroke(request).map_or(0, |stroke| {
                u64::from(stroke.x0) | u64::from(stroke.y0) << 32
            }),
            19 => self.stroke(request).map_or(0, |stroke| {
                u64::from(stroke.x1) | u64::from(stroke.y1) << 32
            }),
            20 => self.stroke(request).map_or(0, |stroke| u64::from(stroke.z)),
            _ => match &mut self.part {
                Part::Nothing if !is_request(request) => UNKNOWN,
                Part::Nothing => CLOSED,
                Part::World(_) if request as u8 == RESUME_WORLD && is_request(request) => {
                    self.resume_world(request)
                }
                Part::World(world) => {
                    ask_world(world, request, &self.draft, &self.staged, &mut self.picture)
                }
                Part::Driver(desk) => desk.ask(request, &self.draft),
                Part::Generator(lone) => lone.ask(request, &mut self.picture),
                Part::Judge(judge) => tell(judge, request),
            },
        }
    }
}

/// Makes a device, and writes it to `out`: 0.
///
/// # Safety
///
/// `out` is room for a pointer.
#[unsafe(no_mangle)]
pub unsafe extern "C" fn plain_new(out: *mut *mut Device) -> u32 {
    // SAFETY: the caller's word.
    unsafe { *out = Box::into_raw(Box::new(Device::new())) };
    0
}

/// One request, and its answer.
///
/// # Safety
///
/// `device` is one that `plain_new` wrote and `plain_free` didn't get, and no other call has it.
#[unsafe(no_mangle)]
pub unsafe extern "C" fn plain_turn(device: *mut Device, request: u64) -> u64 {
    // SAFETY: the caller's word.
    unsafe { (*device).turn(request) }
}

/// Frees a device.
///
/// # Safety
///
/// As of `plain_turn`.
#[unsafe(no_mangle)]
pub unsafe extern "C" fn plain_free(device: *mut Device) {
    // SAFETY: the caller's word.
    drop(unsafe { Box::from_raw(device) });
}
