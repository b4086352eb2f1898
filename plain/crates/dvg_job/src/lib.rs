//! What the program `dvg` can be asked to do: a job for each of its commands, and the form in which
//! the command writes. `dvg_args` finds in the arguments which job it is, and `dvg_tool` does it.
//! The engines take these forms as they are.
#![no_std]

extern crate plain_std as std;

mod form {
//! The forms in which commands write.
use dvg_mem::Half;

/// What `picture` writes of a run beside how it ends, and in which unit.
#[derive(Clone, Copy, Debug, PartialEq, Eq, Hash)]
pub struct PictureForm {
    /// Whether each instruction that is run is told, with the beam after it and its stroke, always
    /// in 1/512 of a screen unit.
    pub all: bool,
    /// Whether each move is written, blank moves and those of a LABS included.
    pub moves: bool,
    /// Whether moves, and the strokes of a picture, are in whole units, as the counters of
    /// `dvg_gen` have them, and not in 1/512.
    pub units: bool,
}

impl PictureForm {
    /// How the run ends alone, in 1/512 of a unit: what is written without an option.
    pub const PLAIN: PictureForm = PictureForm {
        all: false,
        moves: false,
        units: false,
    };
}

/// How large pictures are shown, and how fast. The program `dvg` takes 10 to 400 percent and rates
/// of 1 to 60; what is written is defined for all values.
#[derive(Clone, Copy, Debug, PartialEq, Eq, Hash)]
pub struct Show {
    /// The size in percent. At 100 a screen unit is a pixel.
    pub percent: u16,
    /// How many pictures are shown a second, where there are several.
    pub rate: u16,
}

/// What is laid out of a sketch.
#[derive(Clone, Copy, Debug, PartialEq, Eq, Hash)]
pub enum LayForm {
    /// The bytes of each frame as it lies in this half.
    Bytes(Half),
    /// The words of each frame as it lies in half 0, as text for an assembler.
    Table,
    /// The bytes of the ROM.
    Rom,
    /// The names of the ROM with their word addresses.
    Equates,
    /// The frames as drafts without names, after the lines of the ROM. They aren't checked.
    Draft,
}

/// How a log is judged.
#[derive(Clone, Copy, Debug, PartialEq, Eq, Hash)]
pub enum LogRule {
    /// By the halves of the RAM, up to the first write that tears a picture.
    Halves,
    /// By whether each run is consistent, up to the first that isn't.
    Moments,
    /// The same, and each run that isn't is told.
    AllMoments,
}
}
mod task {
//! The jobs.
use crate::form::{LayForm, LogRule, PictureForm, Show};

/// What the program has to do.
#[derive(Clone, Copy, Debug, PartialEq, Eq, Hash)]
pub enum Job {
    /// List the instructions of words.
    List,
    /// List the instructions of words. The first stands at the word address `address`, 000 to FFF.
    ListAt { address: u16 },
    /// Write a ROM as text.
    Rom,
    /// Show what a dump of the memory draws, as `form` says.
    Picture { form: PictureForm },
    /// Draw what a dump of the memory draws as SVG, in the size `percent`, 10 to 400.
    PictureSvg { percent: u16 },
    /// Check the draft of a text. With `bound`, the bound of a good one is printed, too.
    Check { bound: bool },
    /// Play a trace, with every entry where `all` is set, else its pictures alone. With `banked`
    /// the RAM is kept in banks, else in one array.
    Play { all: bool, banked: bool },
    /// Play a trace, and draw its pictures as SVG, in the size and at the rate of `show`. With
    /// `banked` the RAM is kept in banks, else in one array.
    PlaySvg { banked: bool, show: Show },
    /// Say whether a log tears a picture, by `rule`. With a `base`, 0000 to FFFF, bytes are written
    /// at addresses of the processor, of which this is the RAM's first.
    Torn { rule: LogRule, base: Option<u16> },
    /// Draw the frames of a sketch as SVG, in the size and at the rate of `show`.
    Render { show: Show },
    /// Check the frames of a sketch.
    RenderCheck,
    /// Lay out the frames, the ROM or the names of a sketch, as `form` says.
    Lay { form: LayForm },
    /// Say for which kind an input is taken, and what is wrong with it first.
    Explain,
    /// Say whether a run of a game's bytes may tear a picture. With `notes` what was noted of its
    /// instructions is told, too.
    Game { notes: bool },
}
}

pub use form::{LayForm, LogRule, PictureForm, Show};
pub use task::Job;
