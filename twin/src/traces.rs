//! Texts of traces in plain Rust, for the plain twin.

use crate::frames::{MOST, Op, Rom};
use crate::memory::BYTES;
use crate::texts::{MOST_TEXT_BYTES, RomText, TextFault, hex, last, natural, read_op};
use crate::world::{Event, Trace};

/// The most events of a trace.
const MOST_EVENTS: usize = 65_536;

/// What a line of a trace spells.
enum EventLine {
    Times(fn() -> Event, usize),
    ResetAll(u8),
}

/// A count after a name: 1 to 9999, or none for 1.
fn count<'a>(parts: &mut impl Iterator<Item = &'a [u8]>) -> Option<usize> {
    match parts.next() {
        None => Some(1),
        Some(part) => natural(part, 9999)
            .filter(|count| *count > 0)
            .map(|count| count as usize),
    }
}

/// The events that a line spells.
fn read_event(line: &[u8]) -> Option<EventLine> {
    let mut parts = line.split(|byte| *byte == b' ');
    let repeated = match parts.next()? {
        b"redraw" => EventLine::Times(|| Event::Redraw, 1),
        b"tick" => EventLine::Times(|| Event::Tick, count(&mut parts)?),
        b"strobe" => EventLine::Times(|| Event::Strobe, count(&mut parts)?),
        b"fetch" => EventLine::Times(|| Event::Fetch, count(&mut parts)?),
        b"resetgen" => EventLine::Times(|| Event::ResetGen, 1),
        b"resetcpu" => EventLine::Times(|| Event::ResetCpu, 1),
        b"resetall" => EventLine::ResetAll(hex(parts.next()?, 2)? as u8),
        _ => return None,
    };
    last(parts, repeated)
}

/// The events and the ROM that a text denotes.
pub fn read_trace(text: &[u8]) -> Result<(Trace, Rom), TextFault> {
    if text.len() > MOST_TEXT_BYTES {
        return Err(TextFault::TooLong);
    }
    let mut rom = RomText::new();
    let mut trace = Trace::default();
    // For each byte the number of its image.
    let mut resets = [None; 256];
    // Where the operations of the open offer begin.
    let mut opened = None;
    // The part after the last LF is no line where it is empty, and such a line is passed over.
    for (line, number) in text.split(|byte| *byte == b'\n').zip(1..) {
        if line.is_empty() || line[0] == b'#' {
            continue;
        }
        if let Some(first) = opened {
            if line != b"end" {
                add_op(&mut trace.ops, first, line, number)?;
                continue;
            }
            if trace.events.len() == MOST_EVENTS {
                return Err(TextFault::Many(number));
            }
            trace.events.push(Event::Offer(trace.ops.len() - first));
            opened = None;
        } else if line == b"offer" {
            opened = Some(trace.ops.len());
        } else if let Some(repeated) = read_event(line) {
            add_events(repeated, &mut resets, &mut trace).ok_or(TextFault::Many(number))?;
        } else if !trace.events.is_empty() || rom.read(line).is_none() {
            return Err(TextFault::Syntax(number));
        }
    }
    match opened {
        Some(_) => Err(TextFault::Unended),
        None => Ok((trace, rom.into_rom())),
    }
}

/// Adds the operation of one line more to the offer that begins there.
fn add_op(ops: &mut Vec<Op>, first: usize, line: &[u8], number: usize) -> Result<(), TextFault> {
    let op = read_op(line).ok_or(TextFault::Syntax(number))?;
    if ops.len() - first == MOST {
        return Err(TextFault::Full(number));
    }
    ops.push(op);
    Ok(())
}

/// Adds the events of a line. None where there would be too many.
fn add_events(
    repeated: EventLine,
    resets: &mut [Option<u32>; 256],
    trace: &mut Trace,
) -> Option<()> {
    let count = match repeated {
        EventLine::Times(_, count) => count,
        EventLine::ResetAll(_) => 1,
    };
    if trace.events.len() + count > MOST_EVENTS {
        return None;
    }
    match repeated {
        EventLine::Times(event, count) => trace.events.extend((0..count).map(|_| event())),
        EventLine::ResetAll(byte) => {
            let number = *resets[usize::from(byte)].get_or_insert_with(|| {
                trace.images.push(Box::new([byte; BYTES]));
                trace.images.len() as u32 - 1
            });
            trace.events.push(Event::ResetAll(number));
        }
    }
    Some(())
}
