//! Consistent runs, in the log of any system: the twin's rule. It keeps of each byte when it was
//! read and when it changed, by the numbers of lines, and a run is consistent where all its
//! bytes have one in common.

use std::collections::HashMap;

/// The bytes of the RAM.
const RAM_BYTES: usize = 0x800;

/// The bytes of the words that have an address of 12 bits.
const ALL_BYTES: usize = 0x2000;

/// A line of a log.
#[derive(Clone, Copy, Debug, PartialEq, Eq)]
pub enum Line {
    Passed,
    Started,
    /// A word address, and its low byte.
    Low(u16, u8),
    /// A word address, and its word.
    Fetched(u16, u16),
    /// The same, and the word is a HALT.
    Done(u16, u16),
    /// A byte address, and the byte.
    Wrote(u16, u8),
    /// The run is over, without a picture.
    Ended,
    /// The whole system was reset.
    Reset,
}

/// How the newest run stands.
#[derive(Clone, Copy, Debug, PartialEq, Eq)]
pub enum Standing {
    NoRun,
    OneMoment,
    NoMoment,
    Whole,
    Torn,
}

/// The open run: the moments that it may be of, from `least` to `most`, as numbers of lines. A byte
/// that it reads after a change can't be of a moment before that; a byte that changes after it was
/// read can't be of a moment after that.
#[derive(Default)]
struct Run {
    least: u64,
    most: Option<u64>,
    read: HashMap<usize, u64>,
}

/// A log, up to some line.
#[derive(Default)]
pub struct Moments {
    lines: u64,
    told: HashMap<usize, u8>,
    changed: HashMap<usize, u64>,
    /// The low byte that waits for its high byte, after its word address.
    waits: Option<(u16, u8)>,
    run: Option<Run>,
}

impl Run {
    fn has_moment(&self) -> bool {
        self.most.is_none_or(|most| self.least <= most)
    }
}

impl Moments {
    /// The bytes that a line reads.
    fn read_by(&self, line: Line) -> Vec<(usize, u8)> {
        match line {
            Line::Low(address, byte) => vec![(2 * usize::from(address), byte)],
            Line::Fetched(address, word) | Line::Done(address, word) => {
                let [low, high] = word.to_le_bytes();
                let at = 2 * usize::from(address);
                let mut bytes = vec![(at + 1, high)];
                if self.waiting(address).is_none() {
                    bytes.push((at, low));
                }
                bytes
            }
            _ => Vec::new(),
        }
    }

    /// The low byte of a word that waits, if it does.
    fn waiting(&self, address: u16) -> Option<u8> {
        let (at, byte) = self.waits?;
        (at == address).then_some(byte)
    }

    /// Whether a line tells another low byte of a word than the line before did.
    fn splits(&self, line: Line) -> bool {
        let (Line::Fetched(address, word) | Line::Done(address, word)) = line else {
            return false;
        };
        let [low, _] = word.to_le_bytes();
        self.waiting(address).unwrap_or(low) != low
    }

    /// Reads a byte. Whether it is another than was told.
    fn read(&mut self, at: usize, byte: u8) -> bool {
        if let Some(run) = &mut self.run {
            let changed = self.changed.get(&at).copied().unwrap_or(0);
            run.least = run.least.max(changed);
            run.read.insert(at, self.lines);
        }
        at < ALL_BYTES && self.told.insert(at, byte).is_some_and(|told| told != byte)
    }

    fn write(&mut self, at: usize, byte: u8) {
        if at >= RAM_BYTES || self.told.insert(at, byte) == Some(byte) {
            return;
        }
        self.changed.insert(at, self.lines);
        if let Some(run) = &mut self.run
            && run.read.contains_key(&at)
        {
            let before = self.lines - 1;
            run.most = Some(run.most.map_or(before, |most| most.min(before)));
        }
    }

    fn end(&mut self) -> Option<Run> {
        self.waits = None;
        self.run.take()
    }

    /// Tells of a line. How the newest run stands then, and whether the line reads what was not
    /// written.
    pub fn tell(&mut self, line: Line) -> (Standing, bool) {
        self.lines += 1;
        let mut contradicts = self.splits(line);
        for (at, byte) in self.read_by(line) {
            contradicts |= self.read(at, byte);
        }
        let standing = match line {
            Line::Done(..) => match self.end() {
                None => Standing::NoRun,
                Some(run) if run.has_moment() => Standing::Whole,
                Some(_) => Standing::Torn,
            },
            _ => {
                self.change(line);
                self.standing()
            }
        };
        (standing, contradicts)
    }

    /// What a line that is no HALT changes, beside what it reads.
    fn change(&mut self, line: Line) {
        match line {
            Line::Started => {
                self.end();
                self.run = Some(Run::default());
            }
            Line::Low(address, byte) => self.waits = Some((address, byte)),
            Line::Fetched(..) => self.waits = None,
            Line::Wrote(address, byte) => self.write(usize::from(address), byte),
            Line::Ended => {
                self.end();
            }
            Line::Reset => {
                self.told.clear();
                self.end();
            }
            Line::Passed | Line::Done(..) => {}
        }
    }

    /// Whether a run is open.
    pub fn is_open(&self) -> bool {
        self.run.is_some()
    }

    fn standing(&self) -> Standing {
        match &self.run {
            None => Standing::NoRun,
            Some(run) if run.has_moment() => Standing::OneMoment,
            Some(_) => Standing::NoMoment,
        }
    }
}
