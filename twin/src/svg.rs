//! Pictures as SVG in plain Rust, for the plain twin. All of it is this project's own choice.
//!
//! Numbers are in 1/512 of a screen unit. The screen's 1,024 units are shown, and half a unit
//! around them.

use crate::generator::Stroke;
use crate::lines::Line;
use std::io::{self, Write};

/// How many places an axis has: 4,096 units.
const AXIS: u32 = 2_097_152;

/// The side of what is shown, and where it begins along both axes.
const SHOWN: &str = "x=\"-256\" y=\"-256\" width=\"524288\" height=\"524288\"";
const VIEW: &str = "-256 -256 524288 524288";

/// What comes before strokes: y goes upwards, and a stroke is two units wide, as in each writer of
/// SVG that crates/dvg_svg/src/pictures.rt names.
const STROKES: &str = "<g transform=\"matrix(1 0 0 -1 0 523776)\" fill=\"none\" stroke=\"#fff\" \
                       stroke-width=\"1024\" stroke-linecap=\"round\">\n";

/// How large pictures are shown, in percent, and how many a second.
#[derive(Clone, Copy)]
pub struct Show {
    pub percent: u32,
    pub rate: u32,
}

/// A position, where those of the upper half of an axis are negative.
fn centred(position: u32) -> i32 {
    if position < AXIS / 2 {
        position as i32
    } else {
        position as i32 - AXIS as i32
    }
}

/// The shorter way from one position to another.
fn way(from: u32, to: u32) -> i32 {
    centred(to.wrapping_sub(from) % AXIS)
}

/// Writes the line of a stroke: where it begins, the way to its end, and its intensity.
fn write_stroke(stroke: &Stroke, writer: &mut impl Write) -> io::Result<()> {
    let mut line = Line::new();
    line.text(b"<path d=\"M");
    line.signed(centred(stroke.x0));
    line.push(b' ');
    line.signed(centred(stroke.y0));
    line.push(b'l');
    line.signed(way(stroke.x0, stroke.x1));
    line.push(b' ');
    line.signed(way(stroke.y0, stroke.y1));
    line.text(b"\" opacity=\"");
    if stroke.z < 15 {
        line.push(b'.');
        line.decimal(5 * (u32::from(stroke.z) + 5));
    } else {
        line.text(b"1.0");
    }
    line.text(b"\"/>\n");
    line.write(writer)
}

fn write_strokes(strokes: &[Stroke], writer: &mut impl Write) -> io::Result<()> {
    strokes
        .iter()
        .try_for_each(|stroke| write_stroke(stroke, writer))
}

/// Writes what comes before the strokes.
fn write_begin(title: Option<&str>, percent: u32, writer: &mut impl Write) -> io::Result<()> {
    let side = 1024 * percent / 100;
    writeln!(
        writer,
        "<svg xmlns=\"http://www.w3.org/2000/svg\" width=\"{side}\" height=\"{side}\" \
         viewBox=\"{VIEW}\">"
    )?;
    if let Some(title) = title {
        writeln!(writer, "<title>{title}</title>")?;
    }
    writeln!(writer, "<rect {SHOWN}/>")?;
    writer.write_all(STROKES.as_bytes())
}

/// Writes what comes after the strokes.
fn write_end(writer: &mut impl Write) -> io::Result<()> {
    writer.write_all(b"</g>\n</svg>\n")
}

/// Writes one picture, with a title where there is one.
pub fn write_svg(
    title: Option<&str>,
    strokes: &[Stroke],
    percent: u32,
    writer: &mut impl Write,
) -> io::Result<()> {
    write_begin(title, percent, writer)?;
    write_strokes(strokes, writer)?;
    write_end(writer)
}

/// Writes when a picture of several is seen. The first is seen where nothing moves.
fn write_turn(number: usize, count: usize, rate: u32, writer: &mut impl Write) -> io::Result<()> {
    let last = count - 1;
    let shown = 1000 / rate;
    if number > 0 {
        let before = number - 1;
        return writeln!(
            writer,
            "<g visibility=\"hidden\">\n<set id=\"p{number}\" attributeName=\"visibility\" \
             to=\"visible\" begin=\"p{before}.end\" dur=\"{shown}ms\"/>"
        );
    }
    let hidden = u64::from(shown) * last as u64;
    writeln!(
        writer,
        "<g>\n<set id=\"p0\" attributeName=\"opacity\" to=\"1\" begin=\"0s;p{last}.end\" \
         dur=\"{shown}ms\"/>\n<set attributeName=\"visibility\" to=\"hidden\" begin=\"p0.end\" \
         dur=\"{hidden}ms\"/>"
    )
}

/// Writes pictures, which are shown in turn where there are several.
pub fn write_svgs<Picture: AsRef<[Stroke]>>(
    pictures: impl ExactSizeIterator<Item = Picture>,
    show: Show,
    writer: &mut impl Write,
) -> io::Result<()> {
    let count = pictures.len();
    write_begin(None, show.percent, writer)?;
    for (number, picture) in pictures.enumerate() {
        if count > 1 {
            write_turn(number, count, show.rate, writer)?;
        }
        write_strokes(picture.as_ref(), writer)?;
        if count > 1 {
            writer.write_all(b"</g>\n")?;
        }
    }
    write_end(writer)
}
