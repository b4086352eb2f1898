//! What Rust's users have beside the sources: a default, a refusal as an error, a world that goes on
//! to the end of a run, a saved state as bytes, and what serde writes and reads of it. By hand;
//! tested, not proved.
use crate::judge::Judge;
use crate::state::{WorldRefused, WorldState};
use crate::world::World;
use core::error::Error;
use core::fmt::{self, Debug, Display, Formatter};
use dvg_code::{Code, Instr, OutOfMemory};
use dvg_driver::{Action, DriverState, Phase};
use dvg_frame::{Draft, Op, OpKind};
use dvg_gen::{GeneratorState, StateFault, end, head, numbers_of};
use dvg_log::Entry;
use dvg_mem::{Half, Image, MEMORY_BYTES, Store};
use std::alloc::{Allocator, Global};
use std::prelude::Vec;

/// As `Judge::new`.
impl Default for Judge {
    fn default() -> Judge {
        Judge::new()
    }
}

/// As its fault.
impl<A: Allocator> Display for WorldRefused<A> {
    fn fmt(&self, f: &mut Formatter<'_>) -> fmt::Result {
        Display::fmt(&self.fault, f)
    }
}

impl<A: Allocator + Debug> Error for WorldRefused<A> {}

impl<S: Store> World<S> {
    /// Lets the world go on until a run ends. Each step is a tick, the strobe that this sent, and a
    /// fetch; there are `most` of them at most. Returns the entry of the last fetch: `Done`,
    /// `Broke`, or another one if no run ended within these steps. Returns `OutOfMemory` where the
    /// fetch is refused memory.
    pub fn run_to_halt(&mut self, most: u32) -> Result<Entry<()>, OutOfMemory> {
        let mut entry = Entry::Still;
        for _ in 0..most {
            if self.tick() == Entry::Acted(Action::Sent) {
                self.strobe();
            }
            entry = self.fetch()?;
            if matches!(entry, Entry::Done(..) | Entry::Broke(..)) {
                break;
            }
        }
        Ok(entry)
    }
}

/// The letter of a saved world.
const WORLD: u8 = b'W';

/// How many bytes a saved generator has beside its parts: the head, a digest and a sum.
const HEAD_BYTES: usize = 8;
const END_BYTES: usize = 16;

/// The lowest bytes of what follows the RAM: a part of the generator, an operation, and the driver.
const PART: u8 = 35;
const OPERATION: u8 = 8;
const DRIVER: u8 = 38;

/// The phases of a driver, by their numbers.
const PHASES: [Phase; 7] = [
    Phase::Start,
    Phase::Booting,
    Phase::Resting,
    Phase::Writing,
    Phase::Flipping,
    Phase::Waiting,
    Phase::Sending,
];

impl<A: Allocator> WorldState<A> {
    /// Returns the state as bytes, those that `dvg_save_over` of `dvg.h` writes of a world. `rom` is
    /// the `digest` of its ROM, or 0, which names none. Returns `OutOfMemory` where an allocation
    /// fails.
    pub fn to_bytes(&self, rom: u64) -> Result<Vec<u8>, OutOfMemory> {
        let generator = self.generator.to_bytes(&self.strokes)?;
        let parts = &generator[HEAD_BYTES..generator.len() - END_BYTES];
        let numbers = (MEMORY_BYTES + parts.len() + END_BYTES) / 8 + self.driver.frame.len() + 1;
        let mut bytes = Vec::with_capacity(Global, 8 * (numbers + 1))?;
        bytes.extend_from_slice(&head(WORLD, numbers))?;
        bytes.extend_from_slice(self.ram.bytes())?;
        bytes.extend_from_slice(parts)?;
        for op in &self.driver.frame {
            bytes.extend_from_slice(&operation(*op))?;
        }
        bytes.extend_from_slice(&driver(&self.driver, self.strobe_sent))?;
        end(&mut bytes, rom)?;
        Ok(bytes)
    }
}

impl WorldState {
    /// Returns the state of which `bytes` are, as `to_bytes`, `dvg_save_over` or `dvg_save` wrote
    /// them, for `World::resume`. `rom` is the `digest` of that world's ROM; if it is 0, or that in
    /// the bytes is, or if they are of version 1, the ROM isn't compared.
    ///
    /// Returns why there is none: `OtherRom`, too, `Parts` where no generator can be in its state,
    /// and `OutOfMemory` where an allocation fails. What `dvg_restore_over` refuses beside these,
    /// `resume` refuses: a state whose driver's parts don't fit together, or whose frame the world's
    /// ROM refuses.
    pub fn from_bytes(rom: u64, bytes: &[u8]) -> Result<WorldState, StateFault> {
        WorldState::from_bytes_in(Global, rom, bytes)
    }
}

impl<A: Allocator + Copy> WorldState<A> {
    /// As `from_bytes`, for a world whose memory is that of `alloc`: what the state holds is, too.
    pub fn from_bytes_in(alloc: A, rom: u64, bytes: &[u8]) -> Result<WorldState<A>, StateFault> {
        let (numbers, named) = numbers_of(WORLD, bytes)?;
        if named != 0 && rom != 0 && named != rom {
            return Err(StateFault::OtherRom);
        }
        Parted::of(numbers).ok_or(StateFault::Parts)?.state(alloc)
    }
}

/// The bytes of a saved world, in pieces.
struct Parted<'a> {
    ram: &'a [u8],
    generator: &'a [u8],
    operations: &'a [u8],
    driver: [u8; 8],
}

impl Parted<'_> {
    /// Returns the pieces of `numbers`, as bytes, if they are in the order of a saved world.
    fn of(numbers: &[u8]) -> Option<Parted<'_>> {
        let (ram, rest) = numbers.split_at_checked(MEMORY_BYTES)?;
        let parts = rest.chunks_exact(8).take_while(|number| number[0] == PART);
        let (generator, rest) = rest.split_at(8 * parts.count());
        let (operations, driver) = rest.split_last_chunk::<8>()?;
        (driver[0] == DRIVER).then_some(Parted { ram, generator, operations, driver: *driver })
    }

    /// Returns the state that the pieces are, in memory of `alloc`; `Parts` where they are none.
    fn state<A>(&self, alloc: A) -> Result<WorldState<A>, StateFault>
    where
        A: Allocator + Copy,
    {
        let (generator, drawn) = GeneratorState::of_parts(self.generator)?;
        let mut strokes = Vec::new(alloc);
        strokes.extend_from_slice(&drawn).map_err(OutOfMemory::from)?;
        let [_, phase, bits, left @ .., _, _, _] = self.driver;
        let phase = PHASES.get(usize::from(phase)).ok_or(StateFault::Parts)?;
        let half = |bit: u8| if bits >> bit & 1 == 1 { Half::H1 } else { Half::H0 };
        Ok(WorldState {
            ram: Image::new(alloc, self.ram).map_err(|_| StateFault::OutOfMemory)?,
            generator,
            strokes,
            driver: DriverState {
                phase: *phase,
                half: half(0),
                flipped: bits >> 1 & 1 == 1,
                frame: self.frame().ok_or(StateFault::Parts)?,
                frame_half: half(2),
                left: u16::from_le_bytes(left),
            },
            strobe_sent: bits >> 3 & 1 == 1,
        })
    }

    /// Returns the frame of the operations, if each of them is one, and they are at most 511.
    fn frame(&self) -> Option<Draft> {
        let mut draft = Draft::new();
        for number in self.operations.chunks_exact(8) {
            draft.push(op_in(number)?).ok()?;
        }
        Some(draft)
    }
}

/// Returns the number of an operation, as bytes.
fn operation(op: Op) -> [u8; 8] {
    let (kind, scale, z, x, y) = match op.kind() {
        OpKind::Draw(code) => match code.instr() {
            Instr::Vctr { scale, dx, dy, z } => (0, scale, z, dx as u16, dy as u16),
            Instr::Svec { scale, dx, dy, z } => (1, scale, z, dx as u16, dy as u16),
            Instr::Labs { x, y, scale } => (2, scale, 0, x, y),
            _ => unreachable!("no operation draws by another instruction"),
        },
        OpKind::Call(i) => (3, 0, 0, i, 0),
        OpKind::Jump(i) => (4, 0, 0, i, 0),
        OpKind::CallRom(address) => (5, 0, 0, address, 0),
        OpKind::JumpRom(address) => (6, 0, 0, address, 0),
        OpKind::Return => (7, 0, 0, 0, 0),
        OpKind::Halt => (8, 0, 0, 0, 0),
    };
    let ([x0, x1], [y0, y1]) = (x.to_le_bytes(), y.to_le_bytes());
    [OPERATION, kind, scale, z, x0, x1, y0, y1]
}

/// Returns the operation that a number is, by its bytes, if it is one.
fn op_in(number: &[u8]) -> Option<Op> {
    let &[OPERATION, kind, scale, z, x0, x1, y0, y1] = number else {
        return None;
    };
    let (x, y) = (u16::from_le_bytes([x0, x1]), u16::from_le_bytes([y0, y1]));
    let (dx, dy) = (x as i16, y as i16);
    let draws = |instr| Code::new(instr).map(OpKind::Draw);
    Op::new(match kind {
        0 => draws(Instr::Vctr { scale, dx, dy, z })?,
        1 => {
            let (dx, dy) = (i8::try_from(dx).ok()?, i8::try_from(dy).ok()?);
            draws(Instr::Svec { scale, dx, dy, z })?
        }
        2 => draws(Instr::Labs { x, y, scale })?,
        3 => OpKind::Call(x),
        4 => OpKind::Jump(x),
        5 => OpKind::CallRom(x),
        6 => OpKind::JumpRom(x),
        7 => OpKind::Return,
        8 => OpKind::Halt,
        _ => return None,
    })
}

/// Returns the number of a driver and of a strobe under way, as bytes.
fn driver(state: &DriverState, strobe_sent: bool) -> [u8; 8] {
    let phase = PHASES.iter().position(|phase| *phase == state.phase).unwrap_or(0);
    let bits = u8::from(state.half == Half::H1)
        | u8::from(state.flipped) << 1
        | u8::from(state.frame_half == Half::H1) << 2
        | u8::from(strobe_sent) << 3;
    let [low, high] = state.left.to_le_bytes();
    [DRIVER, phase as u8, bits, low, high, 0, 0, 0]
}

/// States are equal where all that they have is.
impl<A: Allocator> PartialEq for WorldState<A> {
    fn eq(&self, other: &WorldState<A>) -> bool {
        self.ram == other.ram
            && self.generator == other.generator
            && self.strokes == other.strokes
            && self.driver == other.driver
            && self.strobe_sent == other.strobe_sent
    }
}

impl<A: Allocator> Eq for WorldState<A> {}

/// A state as serde writes and reads it.
#[cfg(feature = "serde")]
mod forms {
    use crate::state::WorldState;
    use dvg_driver::DriverState;
    use dvg_gen::{GeneratorState, Stroke};
    use dvg_mem::Image;
    use serde::{Deserialize, Deserializer, Serialize, Serializer};
    use std::alloc::Allocator;
    use std::prelude::Vec;

    #[derive(Deserialize, Serialize)]
    #[serde(remote = "WorldState", rename = "WorldState")]
    #[serde(bound(serialize = "A: Allocator", deserialize = "A: Allocator + Default"))]
    struct StateForm<A: Allocator> {
        ram: Image<A>,
        generator: GeneratorState,
        strokes: Vec<Stroke, A>,
        driver: DriverState,
        strobe_sent: bool,
    }

    impl<A: Allocator> Serialize for WorldState<A> {
        fn serialize<S: Serializer>(&self, serializer: S) -> Result<S::Ok, S::Error> {
            StateForm::serialize(self, serializer)
        }
    }

    impl<'de, A: Allocator + Default> Deserialize<'de> for WorldState<A> {
        fn deserialize<D: Deserializer<'de>>(deserializer: D) -> Result<WorldState<A>, D::Error> {
            StateForm::deserialize(deserializer)
        }
    }
}
