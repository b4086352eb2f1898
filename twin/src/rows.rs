//! What a line of a sketch spells, in plain Rust, for the plain twin.
//!
//! A line's tokens are what spaces and tabs part, without the comment that `#` begins and without
//! one CR at the end. Letters are small by now.

use crate::frames::Op;
use crate::texts::{hex, op_of_parts};

/// The most bytes of a name.
const MOST_NAME_BYTES: usize = 32;

/// An operation that wants a place.
#[derive(Clone, Copy)]
pub enum Goes {
    Call,
    Jump,
    CallRom,
    JumpRom,
}

/// What a row does: an operation as a draft has it, or one whose target has a name.
#[derive(Clone, Copy)]
pub enum Doing<'a> {
    Plainly(Op),
    ByName(Goes, &'a [u8]),
}

impl Doing<'_> {
    /// How many words it takes.
    pub fn words(self) -> usize {
        match self {
            Doing::Plainly(op) => op.words(),
            Doing::ByName(..) => 1,
        }
    }
}

/// What a line of a sketch spells.
pub enum RowLine<'a> {
    /// A name, what is done, or both.
    Row(Option<&'a [u8]>, Option<Doing<'a>>),
    /// A frame begins, which may have a name.
    Frame(Option<&'a [u8]>),
    /// A section of the ROM begins, perhaps at an address.
    Rom(Option<u16>),
}

/// The tokens of a line.
pub fn tokens_of(line: &[u8]) -> impl Iterator<Item = &[u8]> {
    let line = line.strip_suffix(b"\r").unwrap_or(line);
    let comment = line.iter().position(|byte| *byte == b'#');
    let content = &line[..comment.unwrap_or(line.len())];
    content
        .split(|byte| matches!(byte, b' ' | b'\t'))
        .filter(|token| !token.is_empty())
}

/// Whether these bytes are a name.
fn is_name(bytes: &[u8]) -> bool {
    let is_inner = |byte: &u8| matches!(byte, b'a'..=b'z' | b'0'..=b'9' | b'_');
    bytes.first().is_some_and(u8::is_ascii_lowercase)
        && bytes.iter().all(is_inner)
        && bytes.len() <= MOST_NAME_BYTES
        && hex(bytes, 3).is_none()
}

/// The name that a line's first token gives, if it gives one.
fn given_name(token: &[u8]) -> Option<&[u8]> {
    token.strip_suffix(b":").filter(|name| is_name(name))
}

/// The tokens of a line without the name that it gives, with a space between each two.
pub fn said(line: &[u8]) -> String {
    let mut tokens = tokens_of(line).peekable();
    tokens.next_if(|token| given_name(token).is_some());
    let tokens: Vec<_> = tokens.map(String::from_utf8_lossy).collect();
    tokens.join(" ")
}

/// What tokens do.
fn read_doing<'a>(tokens: &[&'a [u8]]) -> Option<Doing<'a>> {
    if let Some(op) = op_of_parts(tokens.iter().copied()) {
        return Some(Doing::Plainly(op));
    }
    let [token, name] = tokens else {
        return None;
    };
    let goes = match *token {
        b"call" => Goes::Call,
        b"jump" => Goes::Jump,
        b"callrom" => Goes::CallRom,
        b"jumprom" => Goes::JumpRom,
        _ => return None,
    };
    is_name(name).then_some(Doing::ByName(goes, name))
}

/// What these tokens, of which there is one at least, spell.
pub fn read_row<'a>(tokens: &[&'a [u8]]) -> Option<RowLine<'a>> {
    match tokens {
        [b".frame"] => Some(RowLine::Frame(None)),
        [b".frame", name] => is_name(name).then_some(RowLine::Frame(Some(name))),
        [b".rom"] => Some(RowLine::Rom(None)),
        [b".rom", digits] => hex(digits, 3).map(|address| RowLine::Rom(Some(address))),
        [first, rest @ ..] => match (given_name(first), rest) {
            (None, _) => read_doing(tokens).map(|doing| RowLine::Row(None, Some(doing))),
            (name, []) => Some(RowLine::Row(name, None)),
            (name, _) => read_doing(rest).map(|doing| RowLine::Row(name, Some(doing))),
        },
        [] => None,
    }
}
