//! Random ROMs and drafts for the storm.

use std::fmt;

/// A splitmix64 generator.
pub struct Random(u64);

impl Random {
    pub fn new(seed: u64) -> Random {
        Random(seed)
    }

    fn next(&mut self) -> u64 {
        self.0 = self.0.wrapping_add(0x9E37_79B9_7F4A_7C15);
        let mixed = (self.0 ^ self.0 >> 30).wrapping_mul(0xBF58_476D_1CE4_E5B9);
        let mixed = (mixed ^ mixed >> 27).wrapping_mul(0x94D0_49BB_1331_11EB);
        mixed ^ mixed >> 31
    }

    /// A number below `limit`.
    pub fn below(&mut self, limit: usize) -> usize {
        (self.next() % limit as u64) as usize
    }

    /// A number from `-most` to `most`.
    fn signed(&mut self, most: i64) -> i64 {
        self.below(2 * most as usize + 1) as i64 - most
    }

    /// This many random bits.
    fn bits(&mut self, count: u32) -> u16 {
        (self.next() & ((1 << count) - 1)) as u16
    }

    /// True once in this many times.
    pub fn once_in(&mut self, times: usize) -> bool {
        self.below(times) == 0
    }

    /// One of these.
    pub fn one_of<T: Copy>(&mut self, items: &[T]) -> T {
        items[self.below(items.len())]
    }
}

/// An operation of a draft, or an instruction of the ROM.
#[derive(Clone, Copy, Debug, PartialEq)]
pub enum Op {
    Vctr {
        scale: u32,
        dx: i64,
        dy: i64,
        z: u32,
    },
    Svec {
        scale: u32,
        dx: i64,
        dy: i64,
        z: u32,
    },
    Labs {
        x: i64,
        y: i64,
        scale: u32,
    },
    Call(usize),
    Jump(usize),
    CallRom(u16),
    JumpRom(u16),
    Return,
    Halt,
}

impl Op {
    pub fn words(self) -> usize {
        match self {
            Op::Vctr { .. } | Op::Labs { .. } => 2,
            _ => 1,
        }
    }
}

impl fmt::Display for Op {
    fn fmt(&self, f: &mut fmt::Formatter) -> fmt::Result {
        match self {
            Op::Vctr { scale, dx, dy, z } => write!(f, "vctr {scale} {dx} {dy} {z}"),
            Op::Svec { scale, dx, dy, z } => write!(f, "svec {scale} {dx} {dy} {z}"),
            Op::Labs { x, y, scale } => write!(f, "labs {x} {y} {scale}"),
            Op::Call(i) => write!(f, "call {i}"),
            Op::Jump(i) => write!(f, "jump {i}"),
            Op::CallRom(a) => write!(f, "callrom {a:03X}"),
            Op::JumpRom(a) => write!(f, "jumprom {a:03X}"),
            Op::Return => write!(f, "return"),
            Op::Halt => write!(f, "halt"),
        }
    }
}

/// The most operations that an offer may have as text.
const MOST_OPS: usize = 511;

/// The most calls that may be open at once.
const MOST_CALLS: usize = 4;

/// The word address after a ROM's last word.
pub const ROM_END: usize = 0xC00;

/// More words than all routines of a ROM take, with the gaps between them.
const ROUTINES_ROOM: usize = 200;

/// A word that no line gives: an RTSL.
const UNGIVEN: u16 = 0xD000;

/// A part of the ROM that may be called or jumped to.
#[derive(Clone, Copy)]
struct Routine {
    address: u16,
    /// How deep its own calls go.
    depth: usize,
    halts: bool,
}

/// A ROM, and the lines that give it.
pub struct Rom {
    first: u16,
    words: Vec<u16>,
    routines: Vec<Routine>,
    pub text: String,
}

impl Rom {
    /// The word at an address, if it is one of the ROM's.
    pub fn word(&self, address: u16) -> Option<u16> {
        let place = address.checked_sub(self.first)?;
        self.words.get(usize::from(place)).copied()
    }

    pub fn random(random: &mut Random) -> Rom {
        let (first, map) = match random.below(6) {
            0 | 1 => (0x400, "map 4096\n"),
            2 => (0x800, "map 2048\n"),
            _ => (0x800, ""),
        };
        let mut rom = Rom {
            first,
            words: vec![UNGIVEN; ROM_END - usize::from(first)],
            routines: Vec::new(),
            text: map.to_owned(),
        };
        let places = rom.words.len() - ROUTINES_ROOM;
        let mut address = first + random.below(places) as u16;
        for _ in 0..random.below(6) {
            address = rom.add_routine(address, random) + random.below(20) as u16;
        }
        rom
    }

    /// Puts a random routine there, and answers the address after it.
    fn add_routine(&mut self, address: u16, random: &mut Random) -> u16 {
        let mut routine = Routine {
            address,
            depth: 0,
            halts: false,
        };
        let mut words = Vec::new();
        for _ in 0..random.below(4) {
            add_drawing(&mut words, random);
        }
        if let Some(callee) = self.any_routine(random, |callee| callee.depth == 0 && !callee.halts)
        {
            routine.depth = 1;
            words.push(0xC000 | callee.address);
        }
        add_drawing(&mut words, random);
        match (self.any_routine(random, |_| true), random.below(8)) {
            (Some(next), 0..3) => {
                routine.depth = routine.depth.max(next.depth);
                routine.halts = next.halts;
                words.push(0xE000 | next.address);
            }
            (_, 3 | 4) => {
                routine.halts = true;
                words.push(0xB000);
            }
            _ => words.push(0xD000),
        }
        self.routines.push(routine);
        self.put(address, &words)
    }

    /// Puts words there, and adds the lines that give them. Answers the address after them.
    fn put(&mut self, address: u16, words: &[u16]) -> u16 {
        let first = usize::from(address - self.first);
        self.words[first..first + words.len()].copy_from_slice(words);
        for (row, part) in words.chunks(8).enumerate() {
            let part: String = part.iter().map(|word| format!(" {word:04X}")).collect();
            self.text += &format!("rom {:03X}{part}\n", usize::from(address) + 8 * row);
        }
        address + words.len() as u16
    }

    /// The word address of the ROM's first word.
    pub fn first(&self) -> u16 {
        self.first
    }

    /// Takes a routine that stands there in another way than by lines of words.
    pub fn add_shape(&mut self, address: u16, depth: usize, halts: bool) {
        self.routines.push(Routine {
            address,
            depth,
            halts,
        });
    }

    /// One of the routines for which this holds, but not each time.
    fn any_routine(
        &self,
        random: &mut Random,
        is_meant: impl Fn(&Routine) -> bool,
    ) -> Option<Routine> {
        let meant: Vec<Routine> = self.routines.iter().copied().filter(is_meant).collect();
        if meant.is_empty() || random.once_in(3) {
            return None;
        }
        Some(random.one_of(&meant))
    }
}

/// Adds the words of a random instruction that draws, or of a LABS. Ignored bits are set, too.
fn add_drawing(words: &mut Vec<u16>, random: &mut Random) {
    match random.below(8) {
        0 => words.extend([0xA000 | random.bits(12), random.bits(16)]),
        1..5 => words.extend([
            (random.below(10) as u16) << 12 | random.bits(12),
            random.bits(16),
        ]),
        _ => words.push(0xF000 | random.bits(12)),
    }
}

/// A random draft. Most pass the check.
pub fn random_draft(rom: &Rom, random: &mut Random) -> Vec<Op> {
    let mut draft = whole_draft(rom, random);
    if random.once_in(12) {
        spoil(&mut draft, random);
    }
    draft.truncate(MOST_OPS);
    draft
}

/// The operations of a part of a draft: the main one at depth 0, or a subroutine.
struct Part<'a> {
    rom: &'a Rom,
    end: usize,
    /// How many calls are open in it at most.
    depth: usize,
    /// The first operation of the subroutine that it may call.
    callee: Option<usize>,
}

/// A draft that passes the check: a main part, and up to two subroutines, of which the first may
/// call the second.
fn whole_draft(rom: &Rom, random: &mut Random) -> Vec<Op> {
    let longest = match random.below(60) {
        0 => 150,
        1..6 => 40,
        _ => 6,
    };
    let mut starts = vec![0];
    for _ in 0..=random.below(3) {
        starts.push(starts[starts.len() - 1] + 2 + random.below(longest));
    }
    let mut ops = Vec::new();
    for (depth, bounds) in starts.windows(2).enumerate() {
        let part = Part {
            rom,
            end: bounds[1],
            depth,
            callee: (depth + 2 < starts.len()).then_some(bounds[1]),
        };
        part.add_to(&mut ops, random);
    }
    ops
}

impl Part<'_> {
    fn add_to(&self, ops: &mut Vec<Op>, random: &mut Random) {
        if self.depth == 0 {
            ops.push(labs(random));
        }
        while ops.len() + 1 < self.end {
            let op = self.inner_op(ops.len(), random);
            ops.push(op);
        }
        let halts = self.depth == 0 || random.once_in(8);
        let deepest = MOST_CALLS - self.depth;
        let is_meant = |next: &Routine| next.halts == halts && next.depth <= deepest;
        ops.push(match self.rom.any_routine(random, is_meant) {
            Some(next) if random.once_in(3) => Op::JumpRom(next.address),
            _ if halts => Op::Halt,
            _ => Op::Return,
        });
    }

    /// A random operation before the part's last one.
    fn inner_op(&self, number: usize, random: &mut Random) -> Op {
        match random.below(16) {
            0 => labs(random),
            1 | 2 => Op::Jump(number + 1 + random.below(self.end - number - 1)),
            3 | 4 => self.callee.map_or_else(|| drawing(random), Op::Call),
            5 | 6 => self.rom_call(random),
            _ => drawing(random),
        }
    }

    /// A call of a routine, or, seldom, of any word of the ROM.
    fn rom_call(&self, random: &mut Random) -> Op {
        let is_meant = |callee: &Routine| self.depth + 1 + callee.depth <= MOST_CALLS;
        match self.rom.any_routine(random, is_meant) {
            Some(callee) => Op::CallRom(callee.address),
            None if random.once_in(8) => {
                Op::CallRom(self.rom.first + random.below(self.rom.words.len()) as u16)
            }
            None => drawing(random),
        }
    }
}

pub fn labs(random: &mut Random) -> Op {
    Op::Labs {
        x: random.below(4096) as i64,
        y: random.below(4096) as i64,
        scale: random.below(16) as u32,
    }
}

/// A random vector, long or short.
pub fn drawing(random: &mut Random) -> Op {
    let z = random.below(16) as u32;
    if random.once_in(2) {
        Op::Vctr {
            scale: random.below(10) as u32,
            dx: random.signed(1023),
            dy: random.signed(1023),
            z,
        }
    } else {
        Op::Svec {
            scale: 2 + random.below(4) as u32,
            dx: random.signed(3),
            dy: random.signed(3),
            z,
        }
    }
}

/// Changes a draft so that it is refused, mostly.
fn spoil(ops: &mut Vec<Op>, random: &mut Random) {
    let place = 1 + random.below(ops.len());
    match random.below(9) {
        0 => ops.clear(),
        1 => {
            ops.remove(0);
        }
        2 => ops.insert(place, Op::Jump(ops.len() + 1 + random.below(9))),
        3 => {
            ops.pop();
        }
        4 => ops.insert(1, Op::Return),
        5 => ops.insert(place, Op::Jump(random.below(place))),
        6 => ops.insert(
            place,
            Op::CallRom(random.one_of(&[0x3FF, 0x400, 0xC00, 0xFFF])),
        ),
        7 => *ops = five_deep(),
        _ => ops.extend((0..300).map(|_| drawing(random))),
    }
}

/// A draft in which five calls are open at once.
fn five_deep() -> Vec<Op> {
    let mut ops = vec![
        Op::Labs {
            x: 0,
            y: 0,
            scale: 0,
        },
        Op::Call(3),
        Op::Halt,
    ];
    for callee in [5, 7, 9, 11] {
        ops.extend([Op::Call(callee), Op::Return]);
    }
    ops.push(Op::Return);
    ops
}
