//! Drafts and their check in plain Rust, for the plain twins.

use crate::memory;
use std::fmt;

/// The most operations of a draft, and the most words of a frame.
pub const MOST: usize = 511;

/// The word address after a ROM's last word.
const ROM_END: u16 = memory::ROM_END as u16;

/// A ROM.
#[derive(Clone)]
pub struct Rom {
    /// The word address of its first word: 800, or 400 of the larger one.
    pub first: u16,
    pub words: Vec<u16>,
}

impl Rom {
    /// A ROM of this word alone.
    #[allow(dead_code)]
    pub fn of(first: u16, word: u16) -> Rom {
        Rom {
            first,
            words: vec![word; usize::from(ROM_END - first)],
        }
    }

    /// Whether a word address is one of the ROM's.
    pub fn has(&self, a: u16) -> bool {
        (self.first..ROM_END).contains(&a)
    }

    /// The word at a word address of the ROM.
    pub fn word(&self, a: u16) -> u16 {
        self.words[usize::from(a - self.first)]
    }
}

/// An instruction that a draft draws by.
#[derive(Clone, Copy)]
#[allow(dead_code)]
pub enum Instr {
    Vctr { scale: u8, dx: i16, dy: i16, z: u8 },
    Svec { scale: u8, dx: i8, dy: i8, z: u8 },
    Labs { x: u16, y: u16, scale: u8 },
}

/// An operation of a draft.
#[derive(Clone, Copy)]
#[allow(dead_code)]
pub enum Op {
    Draw(Instr),
    CallRom(u16),
    JumpRom(u16),
    Call(u16),
    Jump(u16),
    Return,
    Halt,
}

impl Op {
    pub fn words(self) -> usize {
        match self {
            Op::Draw(Instr::Vctr { .. } | Instr::Labs { .. }) => 2,
            _ => 1,
        }
    }
}

/// An operation of the draft, or a word of the ROM, by its address.
#[derive(Clone, Copy)]
pub enum Place {
    Op(u16),
    Word(u16),
}

impl fmt::Display for Place {
    fn fmt(&self, f: &mut fmt::Formatter) -> fmt::Result {
        match self {
            Place::Op(i) => write!(f, "op {i}"),
            Place::Word(a) => write!(f, "word {a:03X}"),
        }
    }
}

/// Why a draft is refused.
#[derive(Clone, Copy)]
pub enum FrameFault {
    Empty,
    NoLabs,
    TooLong,
    Target(u16),
    RunsOff(u16),
    OutOfRom(Place),
    TooDeep(Place),
    NoCaller(Place),
    Loops,
}

impl fmt::Display for FrameFault {
    fn fmt(&self, f: &mut fmt::Formatter) -> fmt::Result {
        match self {
            FrameFault::Empty => write!(f, "1 empty"),
            FrameFault::NoLabs => write!(f, "2 no labs"),
            FrameFault::TooLong => write!(f, "3 too long"),
            FrameFault::Target(i) => write!(f, "4 target {i}"),
            FrameFault::RunsOff(i) => write!(f, "5 runs off {i}"),
            FrameFault::OutOfRom(place) => write!(f, "6 out of rom {place}"),
            FrameFault::TooDeep(place) => write!(f, "7 too deep {place}"),
            FrameFault::NoCaller(place) => write!(f, "8 no caller {place}"),
            FrameFault::Loops => write!(f, "9 loops"),
        }
    }
}

/// A draft that was checked, with its number of words.
pub struct Frame {
    #[allow(dead_code)]
    pub ops: Vec<Op>,
    #[allow(dead_code)]
    pub words: u16,
    /// How many words its whole run fetches, word zero included.
    #[allow(dead_code)]
    pub bound: u64,
}

/// How what stands at a place leads on: over its words to the place after it, to a target, or both.
enum Way {
    Move(Place, u64),
    Jump(Place),
    Call(Place, Place),
    Return,
    Halt,
}

/// The depths of a pair: 0 to 4 calls are open.
const DEPTHS: usize = 5;

/// How many places there are.
fn places(rom: &Rom) -> usize {
    MOST + rom.words.len()
}

/// The number of a place: operations come before words of the ROM.
fn number(rom: &Rom, place: Place) -> usize {
    match place {
        Place::Op(i) => usize::from(i),
        Place::Word(a) => MOST + usize::from(a - rom.first),
    }
}

fn is_outside(rom: &Rom, place: Place) -> bool {
    matches!(place, Place::Word(a) if !rom.has(a))
}

/// The way on from a word of the ROM; none where the ROM ends within the instruction.
fn rom_way(rom: &Rom, a: u16) -> Option<Way> {
    let word = rom.word(a);
    let target = Place::Word(word & 0xFFF);
    let after = Place::Word(a + 1);
    Some(match word >> 12 {
        0..=0xA if a + 1 == ROM_END => return None,
        0..=0xA => Way::Move(Place::Word(a + 2), 2),
        0xB => Way::Halt,
        0xC => Way::Call(target, after),
        0xD => Way::Return,
        0xE => Way::Jump(target),
        _ => Way::Move(after, 1),
    })
}

fn op_way(op: Op, i: u16) -> Way {
    let after = Place::Op(i + 1);
    match op {
        Op::Draw(_) => Way::Move(after, op.words() as u64),
        Op::CallRom(a) => Way::Call(Place::Word(a), after),
        Op::JumpRom(a) => Way::Jump(Place::Word(a)),
        Op::Call(j) => Way::Call(Place::Op(j), after),
        Op::Jump(j) => Way::Jump(Place::Op(j)),
        Op::Return => Way::Return,
        Op::Halt => Way::Halt,
    }
}

/// What is wrong at a place and depth, and where it leads if nothing is.
fn look(ops: &[Op], rom: &Rom, place: Place, depth: usize) -> Result<Way, FrameFault> {
    let way = match place {
        Place::Op(i) => op_way(ops[usize::from(i)], i),
        Place::Word(a) => rom_way(rom, a).ok_or(FrameFault::OutOfRom(place))?,
    };
    if let Place::Op(i) = place
        && usize::from(i) + 1 == ops.len()
        && matches!(way, Way::Move(..) | Way::Call(..))
    {
        return Err(FrameFault::RunsOff(i));
    }
    match way {
        Way::Move(next, _) | Way::Jump(next) if is_outside(rom, next) => {
            Err(FrameFault::OutOfRom(place))
        }
        Way::Call(target, after) if is_outside(rom, target) || is_outside(rom, after) => {
            Err(FrameFault::OutOfRom(place))
        }
        Way::Call(..) if depth + 1 == DEPTHS => Err(FrameFault::TooDeep(place)),
        Way::Return if depth == 0 => Err(FrameFault::NoCaller(place)),
        way => Ok(way),
    }
}

/// The pairs of a place and a depth that were come to and not looked at yet, and those that were
/// come to.
struct Pairs<'a> {
    rom: &'a Rom,
    seen: Vec<bool>,
    open: Vec<(Place, usize)>,
}

impl Pairs<'_> {
    fn add(&mut self, place: Place, depth: usize) {
        let seen = &mut self.seen[number(self.rom, place) * DEPTHS + depth];
        if !*seen {
            *seen = true;
            self.open.push((place, depth));
        }
    }
}

/// The fault at the first pair, of all that are come to, that has one.
fn first_fault(ops: &[Op], rom: &Rom) -> Option<FrameFault> {
    let mut pairs = Pairs {
        rom,
        seen: vec![false; places(rom) * DEPTHS],
        open: Vec::new(),
    };
    let mut first: Option<(usize, FrameFault)> = None;
    pairs.add(Place::Op(0), 0);
    while let Some((place, depth)) = pairs.open.pop() {
        match look(ops, rom, place, depth) {
            Ok(Way::Move(next, _) | Way::Jump(next)) => pairs.add(next, depth),
            Ok(Way::Call(target, after)) => {
                pairs.add(target, depth + 1);
                pairs.add(after, depth);
            }
            Ok(Way::Return | Way::Halt) => {}
            Err(fault) => {
                let number = number(rom, place) * DEPTHS + depth;
                if first.is_none_or(|(least, _)| number < least) {
                    first = Some((number, fault));
                }
            }
        }
    }
    first.map(|(_, fault)| fault)
}

/// How what is drawn from a place ends, if that is known.
#[derive(Clone, Copy)]
enum End {
    Unknown,
    /// It is being found.
    Open,
    Halt,
    Return,
}

/// What is drawn from the places of a draft without the faults 1 to 8: how it ends, and after how
/// many fetches.
struct Drawn<'a> {
    ops: &'a [Op],
    rom: &'a Rom,
    ends: Vec<End>,
    fetches: Vec<u64>,
}

impl Drawn<'_> {
    /// What is drawn from a place that is come to. None where steps at one depth come back to
    /// themselves.
    ///
    /// A place that is come to again while it is open is one of those: if it led to itself through
    /// a call, there would be a call too deep.
    fn from(&mut self, place: Place) -> Option<(End, u64)> {
        let number = number(self.rom, place);
        match self.ends[number] {
            End::Unknown => self.ends[number] = End::Open,
            End::Open => return None,
            end => return Some((end, self.fetches[number])),
        }
        let way = match place {
            Place::Op(i) => op_way(self.ops[usize::from(i)], i),
            Place::Word(a) => rom_way(self.rom, a)?,
        };
        let (end, fetches) = match way {
            Way::Move(next, words) => self.after(words, next)?,
            Way::Jump(next) => self.after(1, next)?,
            // What stands after the call is followed in any case: a loop there counts.
            Way::Call(target, after) => match (self.after(1, target)?, self.from(after)?) {
                ((End::Return, inside), (end, then)) => (end, inside + then),
                (halts, _) => halts,
            },
            Way::Return => (End::Return, 1),
            Way::Halt => (End::Halt, 1),
        };
        self.ends[number] = end;
        self.fetches[number] = fetches;
        Some((end, fetches))
    }

    /// What is drawn from a place, with this many fetches before it.
    fn after(&mut self, before: u64, place: Place) -> Option<(End, u64)> {
        let (end, fetches) = self.from(place)?;
        Some((end, before + fetches))
    }
}

/// How many words the whole run of a draft without the faults 1 to 8 fetches, word zero included.
/// None where it has a loop.
fn bound(ops: &[Op], rom: &Rom) -> Option<u64> {
    let mut drawn = Drawn {
        ops,
        rom,
        ends: vec![End::Unknown; places(rom)],
        fetches: vec![0; places(rom)],
    };
    let (_, fetches) = drawn.after(1, Place::Op(0))?;
    Some(fetches)
}

/// The frame of a draft that has no fault over the ROM, or the first of its faults.
pub fn check(ops: &[Op], rom: &Rom) -> Result<Frame, FrameFault> {
    let first = ops.first().ok_or(FrameFault::Empty)?;
    if !matches!(first, Op::Draw(Instr::Labs { .. })) {
        return Err(FrameFault::NoLabs);
    }
    let words: usize = ops.iter().map(|op| op.words()).sum();
    if words > MOST {
        return Err(FrameFault::TooLong);
    }
    let misses = |op: &Op| matches!(op, Op::Call(j) | Op::Jump(j) if usize::from(*j) >= ops.len());
    if let Some(i) = ops.iter().position(misses) {
        return Err(FrameFault::Target(i as u16));
    }
    if let Some(fault) = first_fault(ops, rom) {
        return Err(fault);
    }
    Ok(Frame {
        ops: ops.to_vec(),
        words: words as u16,
        bound: bound(ops, rom).ok_or(FrameFault::Loops)?,
    })
}
