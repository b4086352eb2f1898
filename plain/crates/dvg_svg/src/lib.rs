//! Pictures as SVG, written through a watched writer (the text is this project's own choice).
//!
//! The unit of the SVG is 1/512 of a screen unit, and y goes up. All 1,024 screen units of both
//! axes are seen, with half a unit around them. Nothing here takes memory.
#![no_std]

extern crate plain_std as std;

mod parts {
//! Texts that are written in parts.
use dvg_io::{StreamFailed, Watched, write_whole};
use std::io::Write;

/// Writes `parts` to `writer`, one after the other.
pub(crate) fn write_parts<W: Write>(
    parts: &[&[u8]],
    writer: &mut Watched<W>,
) -> Result<(), StreamFailed> {
    for part in parts {
        write_whole(writer, part)?;
    }
    Ok(())
}
}
mod pictures {
//! Pictures that are written.
use std::prelude::*;

use crate::parts::write_parts;
use dvg_gen::Stroke;
use dvg_io::{StreamFailed, Watched, write_whole};
use dvg_job::Show;
use dvg_print::Line;
use itoa::Buffer;
use std::alloc::Allocator;
use std::io::Write;

/// The background, and what the strokes have in common: each is two units wide. So it is in the
/// other writers of SVG: twin/src/svg.rs, core/svg.awk, board/emulator/film.py and
/// python/gerbilargent.py.
const SCREEN: &[u8] = b"<rect x=\"-256\" y=\"-256\" width=\"524288\" height=\"524288\"/>\n\
<g transform=\"matrix(1 0 0 -1 0 523776)\" fill=\"none\" stroke=\"#fff\" stroke-width=\"1024\" \
stroke-linecap=\"round\">\n";

/// What ends a group.
const GROUP_END: &[u8] = b"</g>\n";

/// What comes after the pictures.
const END: &[u8] = b"</g>\n</svg>\n";

// Returns the side of a picture in pixels, by its size `percent`: 1,024 at 100 percent.
fn side(percent: u16) -> u32 {
    1024 * u32::from(percent) / 100
}

// Writes the line that begins an SVG to `writer`, with the size `percent`.
fn write_size<W: Write>(percent: u16, writer: &mut Watched<W>) -> Result<(), StreamFailed> {
    let mut buffer = Buffer::new();
    let side = buffer.format(side(percent)).as_bytes();
    write_parts(
        &[
            b"<svg xmlns=\"http://www.w3.org/2000/svg\" width=\"",
            side,
            b"\" height=\"",
            side,
            b"\" viewBox=\"-256 -256 524288 524288\">\n",
        ],
        writer,
    )
}

// Writes the line of `title` to `writer`, if there is one.
fn write_title<W: Write>(title: Option<&[u8]>, writer: &mut Watched<W>) -> Result<(), StreamFailed> {
    match title {
        Some(title) => write_parts(&[b"<title>", title, b"</title>\n"], writer),
        None => Ok(()),
    }
}

// Writes what comes before the pictures to `writer`, with the size `percent` and with `title`, if
// there is one.
fn write_begin<W: Write>(
    percent: u16,
    title: Option<&[u8]>,
    writer: &mut Watched<W>,
) -> Result<(), StreamFailed> {
    write_size(percent, writer)?;
    write_title(title, writer)?;
    write_whole(writer, SCREEN)
}

// Writes a line to `writer` for each of `strokes`.
fn write_strokes<W: Write>(strokes: &[Stroke], writer: &mut Watched<W>) -> Result<(), StreamFailed> {
    let mut line = Line::new();
    for stroke in strokes {
        line.become_path(*stroke);
        write_whole(writer, line.as_bytes())?;
    }
    Ok(())
}

// Returns how long one of several pictures is seen, in milliseconds, at `rate` pictures a second.
// That is 0 at the rate 0.
fn seen(rate: u16) -> u16 {
    if rate == 0 { 0 } else { 1000 / rate }
}

// Returns how long the first of several pictures is hidden, in milliseconds, at `rate` pictures a
// second. `last` is the number of the last picture, counted from 0.
fn hidden(rate: u16, last: usize) -> u128 {
    u128::from(seen(rate)) * last as u128
}

// Writes the lines that show the first of several pictures in its turn to `writer`. `last` is the
// number of the last picture, counted from 0.
fn write_first_turn<W: Write>(
    rate: u16,
    last: usize,
    writer: &mut Watched<W>,
) -> Result<(), StreamFailed> {
    let mut last_text = Buffer::new();
    let mut seen_text = Buffer::new();
    let mut hidden_text = Buffer::new();
    write_parts(
        &[
            b"<g>\n<set id=\"p0\" attributeName=\"opacity\" to=\"1\" begin=\"0s;p",
            last_text.format(last).as_bytes(),
            b".end\" dur=\"",
            seen_text.format(seen(rate)).as_bytes(),
            b"ms\"/>\n<set attributeName=\"visibility\" to=\"hidden\" begin=\"p0.end\" dur=\"",
            hidden_text.format(hidden(rate, last)).as_bytes(),
            b"ms\"/>\n",
        ],
        writer,
    )
}

// Writes the lines to `writer` that show picture `number` in its turn, which is not the first,
// after picture `before`.
fn write_later_turn<W: Write>(
    rate: u16,
    before: usize,
    number: usize,
    writer: &mut Watched<W>,
) -> Result<(), StreamFailed> {
    let mut number_text = Buffer::new();
    let mut before_text = Buffer::new();
    let mut seen_text = Buffer::new();
    write_parts(
        &[
            b"<g visibility=\"hidden\">\n<set id=\"p",
            number_text.format(number).as_bytes(),
            b"\" attributeName=\"visibility\" to=\"visible\" begin=\"p",
            before_text.format(before).as_bytes(),
            b".end\" dur=\"",
            seen_text.format(seen(rate)).as_bytes(),
            b"ms\"/>\n",
        ],
        writer,
    )
}

// Writes the lines to `writer` that show picture `number` in its turn. `last` is the number of the
// last picture, counted from 0.
fn write_turn<W: Write>(
    rate: u16,
    last: usize,
    number: usize,
    writer: &mut Watched<W>,
) -> Result<(), StreamFailed> {
    if number == 0 {
        write_first_turn(rate, last, writer)
    } else {
        write_later_turn(rate, number - 1, number, writer)
    }
}

// Writes picture `number`, one of several, to `writer`, with its `strokes`. `last` is the number of
// the last picture, counted from 0.
fn write_group<W: Write>(
    rate: u16,
    last: usize,
    number: usize,
    strokes: &[Stroke],
    writer: &mut Watched<W>,
) -> Result<(), StreamFailed> {
    write_turn(rate, last, number, writer)?;
    write_strokes(strokes, writer)?;
    write_whole(writer, GROUP_END)
}

// Writes several `pictures` to `writer`, at `rate` pictures a second.
fn write_groups<A: Allocator, W: Write>(
    rate: u16,
    pictures: &[Vec<Stroke, A>],
    writer: &mut Watched<W>,
) -> Result<(), StreamFailed> {
    let last = pictures.len().saturating_sub(1);
    for (number, picture) in pictures.iter().enumerate() {
        write_group(rate, last, number, picture.as_slice(), writer)?;
    }
    Ok(())
}

// Writes `pictures` to `writer`: one alone, or several that are shown in turn, `rate` a second.
fn write_pictures<A: Allocator, W: Write>(
    rate: u16,
    pictures: &[Vec<Stroke, A>],
    writer: &mut Watched<W>,
) -> Result<(), StreamFailed> {
    if pictures.len() == 1 {
        write_strokes(pictures[0].as_slice(), writer)
    } else {
        write_groups(rate, pictures, writer)
    }
}

/// Writes a picture as SVG to `writer`, in the size `percent`: `title`, if there is one, and a line
/// for each of `strokes`. `title` is text that XML takes as it is.
pub fn write_svg<W: Write>(
    percent: u16,
    title: Option<&[u8]>,
    strokes: &[Stroke],
    writer: &mut Watched<W>,
) -> Result<(), StreamFailed> {
    write_begin(percent, title, writer)?;
    write_strokes(strokes, writer)?;
    write_whole(writer, END)
}

/// Writes `pictures` as one SVG to `writer`, in the size and at the rate that `show` says. A single
/// picture is written as `write_svg` does without a title. Several are written as a group each,
/// which are shown in turn and then from the first one again. Of two pictures or more the first one
/// is seen where nothing moves.
pub fn write_svgs<A: Allocator, W: Write>(
    show: Show,
    pictures: &[Vec<Stroke, A>],
    writer: &mut Watched<W>,
) -> Result<(), StreamFailed> {
    write_begin(show.percent, None, writer)?;
    write_pictures(show.rate, pictures, writer)?;
    write_whole(writer, END)
}
}

pub use pictures::{write_svg, write_svgs};
