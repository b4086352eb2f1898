//! The driver in plain Rust, for the plain twin.

use crate::frames::{Frame, Instr, Op, Rom, check};

/// The bytes of a frame that are still to come, each with its address. It holds the words of one
/// operation.
struct Cursor {
    frame: Frame,
    base: u16,
    address: u16,
    next_op: usize,
    words: [u16; 2],
    /// Which bytes of those words are still to come.
    from: usize,
    to: usize,
}

/// A sign bit over a magnitude of this many bits.
fn sign_and_magnitude(number: i16, bits: u16) -> u16 {
    number.unsigned_abs() | u16::from(number < 0) << bits
}

/// The words of an operation, and how many there are. `place` tells where each operation lies.
pub fn encode(op: Op, place: impl Fn(u16) -> u16) -> ([u16; 2], usize) {
    match op {
        Op::Draw(Instr::Vctr { scale, dx, dy, z }) => {
            let first = u16::from(scale) << 12 | sign_and_magnitude(dy, 10);
            let second = u16::from(z) << 12 | sign_and_magnitude(dx, 10);
            ([first, second], 2)
        }
        Op::Draw(Instr::Labs { x, y, scale }) => ([0xA000 | y, u16::from(scale) << 12 | x], 2),
        Op::Draw(Instr::Svec { scale, dx, dy, z }) => {
            let weights = u16::from(scale - 2);
            let word = 0xF000
                | (weights & 1) << 11
                | sign_and_magnitude(i16::from(dy), 2) << 8
                | u16::from(z) << 4
                | (weights >> 1) << 3
                | sign_and_magnitude(i16::from(dx), 2);
            ([word, 0], 1)
        }
        Op::CallRom(a) => ([0xC000 | a, 0], 1),
        Op::JumpRom(a) => ([0xE000 | a, 0], 1),
        Op::Call(i) => ([0xC000 | place(i), 0], 1),
        Op::Jump(i) => ([0xE000 | place(i), 0], 1),
        Op::Return => ([0xD000, 0], 1),
        Op::Halt => ([0xB000, 0], 1),
    }
}

impl Cursor {
    fn new(frame: Frame, base: u16) -> Cursor {
        Cursor {
            frame,
            base,
            address: 2 * base,
            next_op: 0,
            words: [0; 2],
            from: 0,
            to: 0,
        }
    }

    /// The word address of an operation.
    fn place(&self, i: u16) -> u16 {
        let before = &self.frame.ops[..usize::from(i)];
        self.base + before.iter().map(|op| op.words() as u16).sum::<u16>()
    }

    /// How many bytes are still to come.
    fn left(&self) -> u16 {
        2 * (self.base + self.frame.words) - self.address
    }

    fn next(&mut self) -> Option<(u16, u8)> {
        if self.from == self.to {
            let op = *self.frame.ops.get(self.next_op)?;
            let (words, count) = encode(op, |i| self.place(i));
            self.words = words;
            self.next_op += 1;
            self.from = 0;
            self.to = 2 * count;
        }
        let byte = self.words[self.from / 2].to_le_bytes()[self.from % 2];
        let item = (self.address, byte);
        self.from += 1;
        self.address += 1;
        Some(item)
    }
}

/// What a tick does.
#[derive(Clone, Copy)]
#[allow(dead_code)]
pub enum Action {
    Peek,
    Wrote(u16, u8),
    Read(bool),
    Sent,
    Idle,
}

enum Phase {
    Start,
    Booting,
    Resting,
    Writing(Cursor),
    Flipping,
    Waiting,
    Sending,
}

/// The driver on the processor's side.
pub struct Driver {
    phase: Phase,
    /// The current half's first word.
    base: u16,
    flipped: bool,
}

/// What a driver keeps, as it is saved.
#[allow(dead_code)]
pub struct State {
    /// How far it is: 0 at its reset, 1 booting, 2 idle, 3 writing a frame, 4 before the flip that
    /// follows byte 000, 5 waiting, 6 before it sends a strobe.
    pub phase: u8,
    /// The first words of the current half, and of that which the frame is written into.
    pub base: u16,
    pub frame_base: u16,
    pub flipped: bool,
    /// How many bytes of the frame are still to be written.
    pub left: u16,
}

impl Driver {
    pub fn new() -> Driver {
        Driver {
            phase: Phase::Start,
            base: 0x001,
            flipped: false,
        }
    }

    /// What it keeps, but the frame that it writes.
    #[allow(dead_code)]
    pub fn state(&self) -> State {
        let (phase, frame_base, left) = match &self.phase {
            Phase::Start => (0, self.base ^ 0x200, 0),
            Phase::Booting => (1, self.base ^ 0x200, 0),
            Phase::Resting => (2, self.base ^ 0x200, 0),
            Phase::Writing(cursor) => (3, cursor.base, cursor.left()),
            Phase::Flipping => (4, self.base ^ 0x200, 0),
            Phase::Waiting => (5, self.base ^ 0x200, 0),
            Phase::Sending => (6, self.base ^ 0x200, 0),
        };
        State {
            phase,
            base: self.base,
            frame_base,
            flipped: self.flipped,
            left,
        }
    }

    /// The operations of the frame that it writes.
    #[allow(dead_code)]
    pub fn written(&self) -> &[Op] {
        match &self.phase {
            Phase::Writing(cursor) => &cursor.frame.ops,
            _ => &[],
        }
    }

    /// A driver that keeps this, with the frame of this draft where it writes one, if one can.
    #[allow(dead_code)]
    pub fn resumed(state: &State, ops: &[Op], rom: &Rom) -> Option<Driver> {
        let phase = match state.phase {
            0 if !state.flipped => Phase::Start,
            1 if !state.flipped => Phase::Booting,
            2 => Phase::Resting,
            3 if state.frame_base == state.base ^ 0x200 => {
                let mut cursor = Cursor::new(check(ops, rom).ok()?, state.frame_base);
                let passed = cursor.left().checked_sub(state.left)?;
                for _ in 0..passed {
                    cursor.next();
                }
                Phase::Writing(cursor)
            }
            4 if !state.flipped => Phase::Flipping,
            5 if state.flipped => Phase::Waiting,
            6 if state.flipped => Phase::Sending,
            _ => return None,
        };
        Some(Driver {
            phase,
            base: state.base,
            flipped: state.flipped,
        })
    }

    /// Takes a frame for the other half. It is refused where the driver isn't idle.
    pub fn offer(&mut self, frame: Frame) -> bool {
        let Phase::Resting = self.phase else {
            return false;
        };
        self.phase = Phase::Writing(Cursor::new(frame, self.base ^ 0x200));
        true
    }

    /// Asks for another run of the published frame: None where there is none, and whether the
    /// driver was idle.
    #[allow(dead_code)]
    pub fn redraw(&mut self) -> Option<bool> {
        if !self.flipped {
            return None;
        }
        let Phase::Resting = self.phase else {
            return Some(false);
        };
        self.phase = Phase::Waiting;
        Some(true)
    }

    /// Does one action.
    pub fn tick(&mut self, halted: bool, byte1: u8) -> Action {
        match &mut self.phase {
            Phase::Start => {
                self.base = if byte1 & 2 == 0 { 0x001 } else { 0x201 };
                self.phase = Phase::Booting;
                Action::Peek
            }
            Phase::Booting => self.read(halted, Phase::Resting),
            Phase::Resting => Action::Idle,
            Phase::Writing(cursor) => match cursor.next() {
                Some((address, byte)) => Action::Wrote(address, byte),
                None if self.flipped => self.flip(),
                None => {
                    self.phase = Phase::Flipping;
                    Action::Wrote(0, 1)
                }
            },
            Phase::Flipping => self.flip(),
            Phase::Waiting => self.read(halted, Phase::Sending),
            Phase::Sending => {
                self.phase = Phase::Resting;
                Action::Sent
            }
        }
    }

    /// Publishes the frame in the other half.
    fn flip(&mut self) -> Action {
        self.base ^= 0x200;
        self.flipped = true;
        self.phase = Phase::Waiting;
        Action::Wrote(1, if self.base == 0x001 { 0xE0 } else { 0xE2 })
    }

    /// Reads the flag, and goes on where it shows halted.
    fn read(&mut self, halted: bool, then: Phase) -> Action {
        if halted {
            self.phase = then;
        }
        Action::Read(halted)
    }
}
