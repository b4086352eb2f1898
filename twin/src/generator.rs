//! The generator in plain Rust, for the plain twins.

/// Where the beam is, and the global scale.
#[derive(Clone, Copy)]
pub struct Beam {
    pub x: u32,
    pub y: u32,
    pub scale: u8,
}

/// A line that was drawn.
#[derive(Clone, Copy)]
#[allow(dead_code)]
pub struct Stroke {
    pub x0: u32,
    pub y0: u32,
    pub x1: u32,
    pub y1: u32,
    pub z: u8,
}

/// What an instruction does to the beam, also where nothing is seen.
#[allow(dead_code)]
pub struct Move {
    pub to: Beam,
    pub z: u8,
    /// Whether a LABS places the beam.
    pub placed: bool,
    /// The address of the instruction's first word.
    pub address: u16,
}

/// Why a run broke.
#[derive(Clone, Copy)]
#[allow(dead_code)]
pub enum GenFault {
    StackOver,
    StackUnder,
    Hole,
}

impl GenFault {
    /// The number by which texts name the fault.
    #[allow(dead_code)]
    pub fn number(self) -> u32 {
        match self {
            GenFault::StackOver => 1,
            GenFault::StackUnder => 2,
            GenFault::Hole => 3,
        }
    }
}

/// What a byte led to.
#[allow(dead_code)]
pub enum Taken {
    Low,
    Word,
    Done(Vec<Stroke>),
    Broke(GenFault),
}

/// A generator that is handed one byte a call: the low byte of a word, and then its high byte.
pub struct Generator {
    place: u16,
    held: Option<u16>,
    /// The low byte of the next word.
    low: Option<u8>,
    stack: [u16; 4],
    saved: usize,
    beam: Beam,
    strokes: Vec<Stroke>,
    open: bool,
    /// Whether the stack is four registers in a circle, so that no call and no return breaks a run.
    wraps: bool,
}

/// What a generator keeps, as it is saved: its strokes are those of an open run.
#[allow(dead_code)]
#[derive(Clone)]
pub struct State {
    pub open: bool,
    /// The address of the next word.
    pub at: u16,
    pub held: Option<u16>,
    pub low: Option<u8>,
    /// The newest one comes last.
    pub return_addresses: Vec<u16>,
    pub beam: Beam,
    pub strokes: Vec<Stroke>,
}

/// A number by its sign bit and its magnitude.
fn signed(sign: u16, magnitude: u16) -> i32 {
    let magnitude = i32::from(magnitude);
    if sign == 0 { magnitude } else { -magnitude }
}

impl Generator {
    pub fn new() -> Generator {
        Generator {
            place: 0,
            held: None,
            low: None,
            stack: [0; 4],
            saved: 0,
            beam: Beam {
                x: 0,
                y: 0,
                scale: 0,
            },
            strokes: Vec::new(),
            open: false,
            wraps: false,
        }
    }

    /// A generator whose stack wraps.
    #[allow(dead_code)]
    pub fn wrapping() -> Generator {
        Generator {
            wraps: true,
            ..Generator::new()
        }
    }

    #[allow(dead_code)]
    pub fn wraps(&self) -> bool {
        self.wraps
    }

    /// Halts, and drops the strokes and the low byte of an open run.
    #[allow(dead_code)]
    pub fn reset(&mut self) {
        self.strokes.clear();
        self.low = None;
        self.open = false;
    }

    pub fn start(&mut self) {
        self.strokes.clear();
        self.place = 0;
        self.held = None;
        self.low = None;
        if !self.wraps {
            self.saved = 0;
        }
        self.open = true;
    }

    pub fn wants(&self) -> Option<u16> {
        if !self.open {
            return None;
        }
        Some(match self.held {
            None => self.place,
            Some(_) => (self.place + 1) % 4096,
        })
    }

    /// Where the beam is.
    #[allow(dead_code)]
    pub fn beam(&self) -> Beam {
        self.beam
    }

    /// The open run's strokes so far.
    #[allow(dead_code)]
    pub fn strokes(&self) -> &[Stroke] {
        &self.strokes
    }

    /// Whether the next byte is the high one of its word.
    pub fn wants_high(&self) -> bool {
        self.low.is_some()
    }

    /// The first word of the instruction whose second word comes next.
    #[allow(dead_code)]
    pub fn first_word(&self) -> Option<u16> {
        self.held
    }

    /// The return addresses, the newest last.
    #[allow(dead_code)]
    pub fn return_addresses(&self) -> Vec<u16> {
        if self.wraps {
            (self.saved..self.saved + 4)
                .map(|at| self.stack[at % 4])
                .collect()
        } else {
            self.stack[..self.saved].to_vec()
        }
    }

    /// What it keeps.
    #[allow(dead_code)]
    pub fn state(&self) -> State {
        State {
            open: self.open,
            at: (self.place + u16::from(self.held.is_some())) % 4096,
            held: self.held,
            low: self.low,
            return_addresses: self.return_addresses(),
            beam: self.beam,
            strokes: if self.open {
                self.strokes.clone()
            } else {
                Vec::new()
            },
        }
    }

    /// A generator that keeps this, if one can, whose stack wraps or not: then the four registers
    /// are the return addresses.
    #[allow(dead_code)]
    pub fn resumed(state: State, wraps: bool) -> Option<Generator> {
        let is_address = |address: &u16| *address < 4096;
        if !is_address(&state.at)
            || wraps && state.return_addresses.len() != 4
            || state.held.is_some_and(|word| word >= 0xB000)
            || (state.low.is_some() && !state.open)
            || !state.return_addresses.iter().all(is_address)
            || state.beam.x.max(state.beam.y) >= 2_097_152
            || state.beam.scale > 15
        {
            return None;
        }
        let saved = state.return_addresses.len();
        let mut stack = [0; 4];
        stack[..saved].copy_from_slice(&state.return_addresses);
        Some(Generator {
            place: (state.at + 4096 - u16::from(state.held.is_some())) % 4096,
            held: state.held,
            low: state.low,
            stack,
            saved: if wraps { 0 } else { saved },
            beam: state.beam,
            strokes: state.strokes,
            open: state.open,
            wraps,
        })
    }

    /// The move that this byte, the next one, would make.
    #[allow(dead_code)]
    pub fn move_by(&self, byte: Option<u8>) -> Option<Move> {
        if !self.open {
            return None;
        }
        let word = u16::from_le_bytes([self.low?, byte?]);
        let (z, placed) = match self.held {
            Some(first) if first < 0xA000 => (word >> 12, false),
            Some(_) => (0, true),
            None if word >= 0xF000 => (word >> 4 & 0xF, false),
            None => return None,
        };
        // Another one takes the byte.
        let mut other = Generator {
            strokes: Vec::new(),
            ..*self
        };
        other.take_byte(byte);
        Some(Move {
            to: other.beam,
            z: z as u8,
            placed,
            address: self.place,
        })
    }

    fn vector(&mut self, local: u8, dx: i32, dy: i32, unit: i64, z: u8) {
        let effective = (self.beam.scale + local) % 16;
        let unit = if effective <= 9 { unit << effective } else { 0 };
        let (x0, y0) = (self.beam.x, self.beam.y);
        self.beam.x = (i64::from(x0) + i64::from(dx) * unit).rem_euclid(2_097_152) as u32;
        self.beam.y = (i64::from(y0) + i64::from(dy) * unit).rem_euclid(2_097_152) as u32;
        if z != 0 {
            let (x1, y1) = (self.beam.x, self.beam.y);
            self.strokes.push(Stroke { x0, y0, x1, y1, z });
        }
    }

    fn go_on(&mut self, place: u16) -> Taken {
        self.place = place % 4096;
        Taken::Word
    }

    fn broke(&mut self, fault: GenFault) -> Taken {
        self.open = false;
        Taken::Broke(fault)
    }

    fn take_two(&mut self, first: u16, second: u16) -> Taken {
        if first < 0xA000 {
            let dy = signed(first >> 10 & 1, first & 0x3FF);
            let dx = signed(second >> 10 & 1, second & 0x3FF);
            self.vector((first >> 12) as u8, dx, dy, 1, (second >> 12) as u8);
        } else {
            self.beam = Beam {
                x: 512 * u32::from(second & 0xFFF),
                y: 512 * u32::from(first & 0xFFF),
                scale: (second >> 12) as u8,
            };
        }
        self.go_on(self.place + 2)
    }

    fn take_one(&mut self, word: u16) -> Taken {
        match word >> 12 {
            0xB => {
                self.open = false;
                Taken::Done(std::mem::take(&mut self.strokes))
            }
            0xC if self.wraps => {
                self.stack[self.saved] = (self.place + 1) % 4096;
                self.saved = (self.saved + 1) % 4;
                self.go_on(word & 0xFFF)
            }
            0xD if self.wraps => {
                self.saved = (self.saved + 3) % 4;
                self.go_on(self.stack[self.saved])
            }
            0xC if self.saved == self.stack.len() => self.broke(GenFault::StackOver),
            0xC => {
                self.stack[self.saved] = (self.place + 1) % 4096;
                self.saved += 1;
                self.go_on(word & 0xFFF)
            }
            0xD if self.saved == 0 => self.broke(GenFault::StackUnder),
            0xD => {
                self.saved -= 1;
                self.go_on(self.stack[self.saved])
            }
            0xE => self.go_on(word & 0xFFF),
            _ => {
                let local = 2 + 2 * (word >> 3 & 1) + (word >> 11 & 1);
                let dy = signed(word >> 10 & 1, word >> 8 & 3);
                let dx = signed(word >> 2 & 1, word & 3);
                self.vector(local as u8, dx, dy, 256, (word >> 4 & 0xF) as u8);
                self.go_on(self.place + 1)
            }
        }
    }

    fn take(&mut self, word: u16) -> Taken {
        match self.held.take() {
            Some(first) => self.take_two(first, word),
            None if word < 0xB000 => {
                self.held = Some(word);
                Taken::Word
            }
            None => self.take_one(word),
        }
    }

    #[inline]
    pub fn take_byte(&mut self, byte: Option<u8>) -> Taken {
        let Some(byte) = byte else {
            self.low = None;
            return self.broke(GenFault::Hole);
        };
        match self.low.take() {
            None => {
                self.low = Some(byte);
                Taken::Low
            }
            Some(low) => self.take(u16::from_le_bytes([low, byte])),
        }
    }
}
