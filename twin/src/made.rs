//! What `render` and `lay` make of a sketch in plain Rust, for the plain twin.

use crate::draw::Refusal;
use crate::sketch::Sketch;
use crate::svg::Show;
use std::io::{self, Write};

/// What is made of a sketch.
pub enum Made {
    Checks,
    Svg(Show),
    /// The bytes as they lie in this half.
    Bytes(usize),
    Table,
    Rom,
    Equates,
    Drafts,
}

impl Made {
    /// Refuses a sketch of which that can't be made.
    pub fn refuse<'a>(&self, sketch: &Sketch<'a>) -> Result<(), Refusal<'a>> {
        match self {
            Made::Checks | Made::Drafts => Ok(()),
            Made::Svg(_) => sketch.check_drawn(),
            Made::Table => sketch.check().and_then(|()| sketch.check_table()),
            _ => sketch.check(),
        }
    }

    /// Writes it of a sketch that isn't refused, and answers whether all is good that was asked
    /// about.
    pub fn write(&self, sketch: &Sketch, writer: &mut impl Write) -> io::Result<bool> {
        match self {
            Made::Checks => return sketch.write_checks(writer),
            Made::Svg(show) => sketch.write_svg(*show, writer),
            Made::Bytes(half) => sketch.write_bytes(*half, writer),
            Made::Table => sketch.write_table(writer),
            Made::Rom => sketch.write_rom(writer),
            Made::Equates => sketch.write_equates(writer),
            Made::Drafts => sketch.write_drafts(writer),
        }?;
        Ok(true)
    }
}
