//! What a run draws, for the judges of logs in plain Rust.

/// The first word of half 0, and the one after its last.
const HALF_0: std::ops::Range<u16> = 0x001..0x200;

/// The same of half 1.
const HALF_1: std::ops::Range<u16> = 0x201..0x400;

/// What the open run draws.
#[derive(Clone, Copy)]
pub enum Run {
    /// No run is open.
    Closed,
    /// It has fetched no whole word.
    Begun,
    /// A half, of which 0 is false.
    Draws(bool),
    /// Something else.
    Elsewhere,
}

/// The half that a word of the RAM is in, if it is in one.
fn half_of(word: u16) -> Option<bool> {
    if HALF_0.contains(&word) {
        Some(false)
    } else {
        HALF_1.contains(&word).then_some(true)
    }
}

impl Run {
    /// What a run draws whose first word is this one.
    fn of_first(address: u16, word: u16) -> Run {
        // Word zero is a jump.
        if address != 0 || word >> 12 != 0xE {
            return Run::Elsewhere;
        }
        half_of(word & 0xFFF).map_or(Run::Elsewhere, Run::Draws)
    }

    /// What is drawn after the fetch of a word.
    pub fn after_fetch(self, address: u16, word: u16) -> Run {
        match self {
            Run::Begun => Run::of_first(address, word),
            _ => self,
        }
    }

    /// Whether a write of a byte there tears what is drawn.
    pub fn is_torn_by(self, address: u16) -> bool {
        matches!(self, Run::Draws(half) if half_of(address / 2) == Some(half))
    }
}
