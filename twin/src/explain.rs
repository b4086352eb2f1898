//! What is told of a fault in a sketch or a log, in plain Rust, for the plain twin: the text of its
//! line. What is expected there only the program says, and tests/cases holds that.

use crate::sketch::SketchFault;

/// The most characters of a line that are shown.
const MOST_SHOWN: usize = 60;

/// The text of a line: printable ASCII without blanks at its ends, and the first of it if it's
/// long.
pub fn shown(line: &[u8]) -> String {
    let line = line.strip_suffix(b"\r").unwrap_or(line);
    let printed: String = line
        .iter()
        .map(|byte| match byte {
            b'\t' => ' ',
            0x20..0x7F => char::from(*byte),
            _ => '?',
        })
        .collect();
    let printed = printed.trim_matches(' ');
    if printed.len() > MOST_SHOWN {
        format!("{}..", &printed[..MOST_SHOWN])
    } else {
        printed.to_string()
    }
}

/// What is told of a fault of this text, without what is expected there.
pub fn explain(fault: SketchFault, text: &[u8]) -> String {
    let (SketchFault::Syntax(number)
    | SketchFault::Twice(number)
    | SketchFault::Full(number)
    | SketchFault::OutOfRom(number)
    | SketchFault::Overlap(number)
    | SketchFault::Unknown(number)) = fault
    else {
        return fault.to_string();
    };
    let line = text.split(|byte| *byte == b'\n').nth(number - 1);
    format!("{fault}: {}", shown(line.unwrap_or_default()))
}

/// What the program says on standard error, without what it expects of a line: all that the twin
/// says, too.
pub fn without_expected(error: &[u8]) -> Vec<u8> {
    let lines = error.split_inclusive(|byte| *byte == b'\n');
    lines
        .filter(|line| !line.starts_with(b"dvg: expected "))
        .flatten()
        .copied()
        .collect()
}
