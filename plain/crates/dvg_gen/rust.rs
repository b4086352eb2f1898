//! What Rust's users have beside the sources: defaults, a refusal as an error, a stroke as a text,
//! a run to its end, a saved state as bytes and why bytes are none, what serde reads and writes of
//! a state, and reads of strokes, moves, the beam and counters, looked at. By hand; tested, not
//! proved.
use crate::generator::Generator;
use crate::state::{GeneratorRefused, GeneratorState};
use crate::stroke::Stroke;
use crate::taken::Step;
use crate::wrapping::WrappingGenerator;
use arrayvec::ArrayVec;
use core::error::Error as Fault;
use core::fmt::{self, Debug, Display, Formatter};
use dvg_code::{OutOfMemory, digest};
use std::alloc::{Allocator, Global};
use std::prelude::Vec;
use thiserror::Error;

/// Why bytes aren't restored.
#[derive(Clone, Copy, Debug, PartialEq, Eq, Hash, Error)]
#[cfg_attr(feature = "serde", derive(serde::Serialize, serde::Deserialize))]
#[non_exhaustive]
pub enum StateFault {
    /// They are no saved state, or one that was cut or changed.
    #[error("they are no saved state, or one that was cut or changed")]
    Broken,
    /// They are whole, and of another version.
    #[error("they are of another version")]
    OtherVersion,
    /// They are the state of something else, as a generator's for a world.
    #[error("they are of another class")]
    OtherClass,
    /// They are of a world over another ROM.
    #[error("they are of a world over another ROM")]
    OtherRom,
    /// Their parts don't fit together, or the ROM refuses the frame in them, which `resume` finds.
    #[error("their parts don't fit together, or this ROM refuses the frame in them")]
    Parts,
    /// An allocation failed.
    #[error("out of memory")]
    OutOfMemory,
}

impl From<OutOfMemory> for StateFault {
    fn from(_: OutOfMemory) -> StateFault {
        StateFault::OutOfMemory
    }
}

/// The versions of a saved state: the first one has no digest of a ROM, and no sum.
const FIRST: u8 = 1;
const SUMMED: u8 = 2;

/// Returns the first number of a saved state, as bytes, before this many others: the digest of a
/// ROM and the sum are two of these. `letter` says what was saved.
#[doc(hidden)]
pub fn head(letter: u8, numbers: usize) -> [u8; 8] {
    let [a, b, c, d] = (numbers as u32).to_le_bytes();
    [b'D', b'V', letter, SUMMED, a, b, c, d]
}

/// Ends a saved state: adds the digest of a ROM, or 0, which names none, and the sum. Returns
/// `OutOfMemory` where an allocation fails.
#[doc(hidden)]
pub fn end(bytes: &mut Vec<u8>, rom: u64) -> Result<(), OutOfMemory> {
    put(bytes, rom)?;
    let sum = digest(bytes.iter().copied());
    put(bytes, sum)
}

/// Returns the numbers of a saved state, as bytes, without its head, digest and sum; and that
/// digest, which is 0 where it has none. `letter` says what must have been saved. Returns why there
/// are none: `Broken`, `OtherVersion` or `OtherClass`.
#[doc(hidden)]
pub fn numbers_of(letter: u8, bytes: &[u8]) -> Result<(&[u8], u64), StateFault> {
    let (&[d, v, what, version, ref count @ ..], rest) =
        bytes.split_first_chunk::<8>().ok_or(StateFault::Broken)?;
    if [d, v] != *b"DV" || rest.len() < 8 {
        return Err(StateFault::Broken);
    }
    let (numbers, named) = match version {
        FIRST => (rest, 0),
        _ => parts_of_summed(bytes)?,
    };
    if version != FIRST && version != SUMMED {
        return Err(StateFault::OtherVersion);
    }
    if ![b'G', b'R', b'W'].contains(&what) {
        return Err(StateFault::Broken);
    }
    if what != letter {
        return Err(StateFault::OtherClass);
    }
    let is_whole = Ok(8 * u64::from(u32::from_le_bytes(*count))) == u64::try_from(rest.len());
    if is_whole && !numbers.is_empty() { Ok((numbers, named)) } else { Err(StateFault::Broken) }
}

/// Returns what is between the head and the digest of a ROM, and that digest; `Broken` where the
/// sum isn't that of the bytes.
fn parts_of_summed(bytes: &[u8]) -> Result<(&[u8], u64), StateFault> {
    let broken = StateFault::Broken;
    let (summed, sum) = bytes.split_last_chunk::<8>().ok_or(broken)?;
    if digest(summed.iter().copied()) != u64::from_le_bytes(*sum) {
        return Err(broken);
    }
    // Of 16 bytes in all, which are those of a later version, nothing is between them.
    let rest = summed.get(8..).unwrap_or(&[]);
    Ok(rest.split_last_chunk::<8>().map_or((&[], 0), |(numbers, rom)| {
        (numbers, u64::from_le_bytes(*rom))
    }))
}

/// As `Generator::new`.
impl<A: Allocator + Copy + Default> Default for Generator<A> {
    fn default() -> Generator<A> {
        Generator::new(A::default())
    }
}

/// As its fault.
impl<A: Allocator> Display for GeneratorRefused<A> {
    fn fmt(&self, f: &mut Formatter<'_>) -> fmt::Result {
        Display::fmt(&self.fault, f)
    }
}

impl<A: Allocator + Debug> Fault for GeneratorRefused<A> {}

/// As `dvg play` writes it: from x0, y0 to x1, y1, and its intensity.
impl Display for Stroke {
    fn fmt(&self, f: &mut Formatter<'_>) -> fmt::Result {
        let Stroke { x0, y0, x1, y1, z } = self;
        write!(f, "{x0} {y0} {x1} {y1} {z}")
    }
}

impl<A: Allocator + Copy> Generator<A> {
    /// Lets the open run go on until it ends, `most_words` words at most. `byte_at` returns the
    /// byte at an address: twice that of its word, and 1 more for the high one; `None` where no
    /// memory answers. Returns the last step: `Done`, `Broke`, or another one if the run didn't end
    /// within these words; `None` if no run is open, or for no word. Returns `OutOfMemory` where a
    /// step is refused memory: the same byte is still wanted.
    pub fn run_to_halt(
        &mut self,
        most_words: u32,
        byte_at: impl FnMut(u16) -> Option<u8>,
    ) -> Result<Option<Step>, OutOfMemory> {
        run_to_halt(self, |it| it, Generator::feed, most_words, byte_at)
    }
}

impl<A: Allocator + Copy> WrappingGenerator<A> {
    /// As `Generator::run_to_halt`.
    pub fn run_to_halt(
        &mut self,
        most_words: u32,
        byte_at: impl FnMut(u16) -> Option<u8>,
    ) -> Result<Option<Step>, OutOfMemory> {
        run_to_halt(self, |it| it.generator(), WrappingGenerator::feed, most_words, byte_at)
    }
}

/// Lets `it`, which has this generator and is fed so, go on as `Generator::run_to_halt` does.
fn run_to_halt<T, A: Allocator + Copy>(
    it: &mut T,
    generator: impl Fn(&T) -> &Generator<A>,
    feed: impl Fn(&mut T, Option<u8>) -> Result<Step, OutOfMemory>,
    most_words: u32,
    mut byte_at: impl FnMut(u16) -> Option<u8>,
) -> Result<Option<Step>, OutOfMemory> {
    let (mut last, mut words) = (None, 0);
    while words < most_words {
        let Some(address) = generator(it).wants() else {
            break;
        };
        let byte = byte_at(2 * address + u16::from(generator(it).wants_high()));
        let step = feed(it, byte)?;
        words += u32::from(step != Step::Low);
        last = Some(step);
    }
    Ok(last)
}

/// The number of the request that tells a part of a state: the lowest byte of each part.
const TELLS: u64 = 35;

/// The letters of a saved generator, and of one whose stack wraps.
const GENERATOR: u8 = b'G';
const WRAPPING: u8 = b'R';

impl GeneratorState {
    /// Returns the state as bytes, those that `dvg_save_over` of `dvg.h` writes, with `strokes` as
    /// what its open run drew so far; where no run is open, `strokes` aren't part of it. Returns
    /// `OutOfMemory` where an allocation fails.
    pub fn to_bytes(&self, strokes: &[Stroke]) -> Result<Vec<u8>, OutOfMemory> {
        self.lettered(GENERATOR, strokes)
    }

    /// Returns the state of which `bytes` are, as `to_bytes`, `dvg_save_over` or `dvg_save` wrote
    /// them, and what its open run drew so far: `Generator::resume` takes both. Refuses the bytes
    /// exactly where `dvg_restore` refuses them as those of a generator, and where an allocation
    /// fails. Never for `OtherRom`.
    pub fn from_bytes(bytes: &[u8]) -> Result<(GeneratorState, Vec<Stroke>), StateFault> {
        GeneratorState::of_parts(numbers_of(GENERATOR, bytes)?.0)
    }

    /// As `to_bytes`, of a `WrappingGenerator`.
    pub fn to_wrapping_bytes(&self, strokes: &[Stroke]) -> Result<Vec<u8>, OutOfMemory> {
        self.lettered(WRAPPING, strokes)
    }

    /// As `from_bytes`, of a `WrappingGenerator`, whose state has four return addresses.
    pub fn from_wrapping_bytes(bytes: &[u8]) -> Result<(GeneratorState, Vec<Stroke>), StateFault> {
        let (state, strokes) = GeneratorState::of_parts(numbers_of(WRAPPING, bytes)?.0)?;
        if state.return_addresses.is_full() { Ok((state, strokes)) } else { Err(StateFault::Parts) }
    }

    /// Returns the state as bytes that have this letter.
    fn lettered(&self, letter: u8, strokes: &[Stroke]) -> Result<Vec<u8>, OutOfMemory> {
        let drawn = if self.is_open { strokes } else { &[] };
        let count = 4 + self.return_addresses.len() + 2 * drawn.len();
        let mut bytes = Vec::with_capacity(Global, 8 * (count + 1))?;
        bytes.extend_from_slice(&head(letter, count))?;
        put(&mut bytes, self.fields())?;
        for address in self.return_addresses.iter() {
            put(&mut bytes, TELLS | 1 << 8 | u64::from(*address) << 16)?;
        }
        for stroke in drawn {
            put(&mut bytes, place(2, stroke.x0, stroke.y0))?;
            put(&mut bytes, place(3, stroke.x1, stroke.y1) | u64::from(stroke.z % 16) << 60)?;
        }
        put(&mut bytes, place(2, self.x, self.y))?;
        end(&mut bytes, 0)?;
        Ok(bytes)
    }

    /// Returns the state of which `parts` are, the bytes of whole numbers, and its strokes: those
    /// that stand in the bytes of a generator and of a world. Returns `Parts` where they don't fit
    /// together, and `OutOfMemory` where an allocation fails.
    #[doc(hidden)]
    pub fn of_parts(parts: &[u8]) -> Result<(GeneratorState, Vec<Stroke>), StateFault> {
        let (mut state, mut strokes) = (GeneratorState::default(), Vec::new(Global));
        let mut fits = parts.starts_with(&[TELLS as u8, 0]);
        for part in parts.chunks_exact(8) {
            let part = part.iter().rev().fold(0, |number, byte| number << 8 | u64::from(*byte));
            fits = fits && state.is_told(&mut strokes, part)?;
        }
        if fits && state.is_valid() { Ok((state, strokes)) } else { Err(StateFault::Parts) }
    }

    /// Returns the fields as a part.
    fn fields(&self) -> u64 {
        TELLS
            | u64::from(self.at) << 16
            | u64::from(self.held.unwrap_or(0)) << 32
            | u64::from(self.low.unwrap_or(0)) << 48
            | u64::from(self.scale % 16) << 56
            | u64::from(self.is_open) << 60
            | u64::from(self.low.is_some()) << 61
            | u64::from(self.held.is_some()) << 62
    }

    /// Tells the state, and `strokes`, a part more. Returns whether it is one that suits.
    fn is_told(&mut self, strokes: &mut Vec<Stroke>, part: u64) -> Result<bool, OutOfMemory> {
        let x = (part >> 16) as u32 % 0x40_0000;
        let y = (part >> 38) as u32 % 0x40_0000;
        match part as u16 {
            0x0023 => {
                *self = GeneratorState::of_fields(part);
                strokes.clear();
                Ok(true)
            }
            0x0123 => Ok(self.return_addresses.try_push((part >> 16) as u16).is_ok()),
            0x0223 => {
                (self.x, self.y) = (x, y);
                Ok(true)
            }
            0x0323 => {
                let z = (part >> 60) as u8;
                let stroke = Stroke { x0: self.x, y0: self.y, x1: x, y1: y, z };
                if stroke.is_valid() {
                    strokes.push(stroke)?;
                }
                Ok(stroke.is_valid())
            }
            _ => Ok(false),
        }
    }

    /// Returns the state of which no more than the fields was told.
    fn of_fields(part: u64) -> GeneratorState {
        GeneratorState {
            is_open: part >> 60 & 1 == 1,
            at: (part >> 16) as u16,
            held: (part >> 62 & 1 == 1).then_some((part >> 32) as u16),
            low: (part >> 61 & 1 == 1).then_some((part >> 48) as u8),
            scale: (part >> 56) as u8 % 16,
            ..GeneratorState::default()
        }
    }
}

/// States are equal where all that they have is.
impl PartialEq for GeneratorState {
    fn eq(&self, other: &GeneratorState) -> bool {
        let rest = |it: &GeneratorState| (it.is_open, it.at, it.held, it.low, it.x, it.y, it.scale);
        rest(self) == rest(other) && self.return_addresses == other.return_addresses
    }
}

impl Eq for GeneratorState {}

/// As of a new generator.
impl Default for GeneratorState {
    fn default() -> GeneratorState {
        GeneratorState {
            is_open: false,
            at: 0,
            held: None,
            low: None,
            return_addresses: ArrayVec::new(),
            x: 0,
            y: 0,
            scale: 0,
        }
    }
}

/// Returns a place as a part of this kind.
fn place(kind: u64, x: u32, y: u32) -> u64 {
    TELLS | kind << 8 | u64::from(x % 0x40_0000) << 16 | u64::from(y % 0x40_0000) << 38
}

/// Adds a number, the low byte first.
fn put(bytes: &mut Vec<u8>, number: u64) -> Result<(), OutOfMemory> {
    bytes.extend_from_slice(&number.to_le_bytes())?;
    Ok(())
}

#[cfg(feature = "serde")]
pub(crate) use forms::{BeamForm, CountersForm, MoveForm, StrokeForm};

/// As serde reads these types, before it is looked whether each field is in its range.
#[cfg(feature = "serde")]
mod forms {
    use crate::beam::{Beam, CIRCLE};
    use crate::counters::Counters;
    use crate::moving::Move;
    use crate::state::GeneratorState;
    use crate::stroke::Stroke;
    use arrayvec::ArrayVec;
    use serde::{Deserialize, Deserializer, Serialize, Serializer, de::Error};
    use std::prelude::Vec;

    const PLACE: &str = "a position is below 2,097,152";

    /// A state, whose return addresses are a list.
    #[derive(Deserialize, Serialize)]
    #[serde(rename = "GeneratorState")]
    struct StateForm {
        is_open: bool,
        at: u16,
        held: Option<u16>,
        low: Option<u8>,
        return_addresses: Vec<u16>,
        x: u32,
        y: u32,
        scale: u8,
    }

    impl Serialize for GeneratorState {
        fn serialize<S: Serializer>(&self, serializer: S) -> Result<S::Ok, S::Error> {
            let GeneratorState { is_open, at, held, low, x, y, scale, .. } = *self;
            let return_addresses = self.return_addresses.iter().copied().collect();
            StateForm { is_open, at, held, low, return_addresses, x, y, scale }.serialize(serializer)
        }
    }

    impl<'de> Deserialize<'de> for GeneratorState {
        fn deserialize<D: Deserializer<'de>>(deserializer: D) -> Result<GeneratorState, D::Error> {
            let form = StateForm::deserialize(deserializer)?;
            let StateForm { is_open, at, held, low, x, y, scale, .. } = form;
            let mut return_addresses = ArrayVec::new();
            if return_addresses.try_extend_from_slice(&form.return_addresses).is_err() {
                return Err(D::Error::custom("there are at most four return addresses"));
            }
            let state = GeneratorState { is_open, at, held, low, return_addresses, x, y, scale };
            if !state.is_valid() {
                return Err(D::Error::custom("no generator can be in this state"));
            }
            Ok(state)
        }
    }

    #[derive(Deserialize)]
    #[serde(rename = "Stroke")]
    pub(crate) struct StrokeForm {
        x0: u32,
        y0: u32,
        x1: u32,
        y1: u32,
        z: u8,
    }

    impl TryFrom<StrokeForm> for Stroke {
        type Error = &'static str;

        fn try_from(form: StrokeForm) -> Result<Stroke, &'static str> {
            let StrokeForm { x0, y0, x1, y1, z } = form;
            if [x0, y0, x1, y1].into_iter().any(|place| place >= CIRCLE) {
                return Err(PLACE);
            }
            if !(1..=15).contains(&z) {
                return Err("the intensity of a stroke is 1 to 15");
            }
            Ok(Stroke { x0, y0, x1, y1, z })
        }
    }

    #[derive(Deserialize)]
    #[serde(rename = "Beam")]
    pub(crate) struct BeamForm {
        x: u32,
        y: u32,
        scale: u8,
    }

    impl TryFrom<BeamForm> for Beam {
        type Error = &'static str;

        fn try_from(form: BeamForm) -> Result<Beam, &'static str> {
            let BeamForm { x, y, scale } = form;
            if x >= CIRCLE || y >= CIRCLE {
                return Err(PLACE);
            }
            if scale > 15 {
                return Err("the global scale is 0 to 15");
            }
            Ok(Beam { x, y, scale })
        }
    }

    #[derive(Deserialize)]
    #[serde(rename = "Move")]
    pub(crate) struct MoveForm {
        x0: u32,
        y0: u32,
        x1: u32,
        y1: u32,
        z: u8,
        placed: bool,
        address: u16,
    }

    impl TryFrom<MoveForm> for Move {
        type Error = &'static str;

        fn try_from(form: MoveForm) -> Result<Move, &'static str> {
            let MoveForm { x0, y0, x1, y1, z, placed, address } = form;
            if [x0, y0, x1, y1].into_iter().any(|place| place >= CIRCLE) {
                return Err(PLACE);
            }
            if z > 15 || (placed && z > 0) {
                return Err("the intensity of a move is 0 to 15, and of a LABS 0");
            }
            if address > 0xFFF {
                return Err("a word address is below 4,096");
            }
            Ok(Move { x0, y0, x1, y1, z, placed, address })
        }
    }

    #[derive(Deserialize)]
    #[serde(rename = "Counters")]
    pub(crate) struct CountersForm {
        x: u16,
        y: u16,
    }

    impl TryFrom<CountersForm> for Counters {
        type Error = &'static str;

        fn try_from(form: CountersForm) -> Result<Counters, &'static str> {
            let CountersForm { x, y } = form;
            if x > 4095 || y > 4095 {
                return Err("a position in whole units is below 4,096");
            }
            Ok(Counters { x, y })
        }
    }
}
