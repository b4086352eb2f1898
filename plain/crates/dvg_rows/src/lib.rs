//! The lines of a sketch, one at a time: the tokens of a line, and the row or the beginning of a
//! section that they spell. And what is kept from line to line: the rows of a section, with the
//! lines that they come from, the names that are given, and the words of the ROM that are taken.
//! Each name that rows give is looked up at once.
#![no_std]

extern crate plain_std as std;

mod given_names {
//! Names that were given.
use dvg_read::LineFault;
use indexmap::IndexSet;
use std::alloc::Allocator;
use std::hash::{BuildHasherDefault, FoldHasher};

/// The names that were given, in order, each once.
pub struct GivenNames<'a, A: Allocator + Copy> {
    /// The names.
    pub given: IndexSet<&'a [u8], BuildHasherDefault<FoldHasher>, A>,
}

impl<'a, A: Allocator + Copy> GivenNames<'a, A> {
    /// Returns a list of no names, with its memory from `alloc`.
    pub fn new(alloc: A) -> GivenNames<'a, A> {
        GivenNames {
            given: IndexSet::new(alloc),
        }
    }

    /// Removes all names, and keeps their room.
    pub fn clear(&mut self) {
        self.given.clear();
    }

    /// Adds `name`, if there is one. Returns `NameGivenAgain` where it was given before, and
    /// `Memory` where an allocation fails.
    pub fn give(&mut self, name: Option<&'a [u8]>) -> Result<(), LineFault> {
        let Some(name) = name else {
            return Ok(());
        };
        match self.given.insert(name) {
            Ok(true) => Ok(()),
            Ok(false) => Err(LineFault::NameGivenAgain),
            Err(_) => Err(LineFault::Memory),
        }
    }

    /// Returns how many names were given.
    pub fn len(&self) -> usize {
        self.given.len()
    }

    /// Whether `name` was given, after so many others as `place` says.
    pub fn has_at(&self, place: usize, name: &[u8]) -> bool {
        match self.given.get_index(place) {
            Some(given) => *given == name,
            None => false,
        }
    }

    /// Returns how many names were given before `name`, if it was given. The time doesn't grow with
    /// how many there are.
    #[must_use]
    pub fn place_of(&self, name: &[u8]) -> Option<usize> {
        self.given.get_index_of(name)
    }
}
}
mod line_tokens {
//! The tokens of a line.
use arrayvec::ArrayVec;
use dvg_read::LineFault;

/// The most tokens that a line of a sketch has: a line `rom` that gives eight words has so many.
pub const MAX_TOKENS: usize = 10;

/// Returns the tokens of `line`, which are separated by spaces and tabs, without its comment and
/// without one CR at its end. Returns `None` exactly where there are more than ten.
#[must_use]
pub fn tokens_of(line: &[u8]) -> Option<ArrayVec<&[u8], MAX_TOKENS>> {
    let mut found = ArrayVec::new();
    match find_tokens(line, &mut found) {
        Ok(()) => Some(found),
        Err(_) => None,
    }
}

/// Puts the tokens of `line` into `found`, as `tokens_of` returns them, in place of those that were
/// found before. Returns `Syntax` exactly where there are more than ten.
pub fn find_tokens<'a>(
    line: &'a [u8],
    found: &mut ArrayVec<&'a [u8], MAX_TOKENS>,
) -> Result<(), LineFault> {
    let mut rest = without_indent(without_cr(line));
    found.clear();
    while let Some(end) = token_end(rest) {
        keep(&rest[..end], found)?;
        if rest[end] == b'#' {
            return Ok(());
        }
        rest = &rest[end + 1..];
    }
    keep(rest, found)
}

// Adds `token` to `found`, unless it has no byte. Returns `Syntax` where `found` has ten already.
fn keep<'a>(token: &'a [u8], found: &mut ArrayVec<&'a [u8], MAX_TOKENS>) -> Result<(), LineFault> {
    if !token.is_empty() && found.try_push(token).is_err() {
        return Err(LineFault::Syntax);
    }
    Ok(())
}

// Returns the place in `text` of the first byte that ends a token, or `None` where the whole of
// `text` is one.
fn token_end(text: &[u8]) -> Option<usize> {
    let mut place = 0;
    while place < text.len() {
        if ends_token(text[place]) {
            return Some(place);
        }
        place += 1;
    }
    None
}

// Whether `byte` is a space, a tab or the `#` of a comment. Most bytes are above all three.
fn ends_token(byte: u8) -> bool {
    byte <= b'#' && (byte == b' ' || byte == b'\t' || byte == b'#')
}

// Returns `line` without a CR at its end.
fn without_cr(line: &[u8]) -> &[u8] {
    if line.is_empty() || line[line.len() - 1] != b'\r' {
        line
    } else {
        &line[..line.len() - 1]
    }
}

// Returns what stands in `line` after its first eight bytes, if those are spaces: most rows begin
// so. Else returns `line`.
fn without_indent(line: &[u8]) -> &[u8] {
    if line.starts_with(b"        ") {
        &line[8..]
    } else {
        line
    }
}
}
mod name_numbers {
//! The numbers of the names of a section.
use std::prelude::*;

use crate::given_names::GivenNames;
use crate::name_table::NameTable;
use crate::number::op_count;
use crate::row::Row;
use dvg_code::OutOfMemory;
use std::alloc::Allocator;

/// The number of each name.
pub(crate) enum NameNumbers<'r, 'a, A: Allocator + Copy> {
    /// A table has them.
    Told(NameTable<'a, A>),
    /// They are listed, in the order in which the names were given.
    Listed(&'r GivenNames<'a, A>, Vec<usize, A>),
}

impl<'r, 'a, A: Allocator + Copy> NameNumbers<'r, 'a, A> {
    /// Returns the number of `name`, if it has one.
    #[must_use]
    pub fn get(&self, name: &[u8]) -> Option<usize> {
        match self {
            NameNumbers::Told(table) => table.get(name),
            NameNumbers::Listed(given, numbers) => match given.place_of(name) {
                Some(place) => numbers.get(place).copied(),
                None => None,
            },
        }
    }
}

/// Whether the names that `rows` give are `given`, in order.
pub(crate) fn are_given<A: Allocator + Copy>(rows: &[Row], given: &GivenNames<'_, A>) -> bool {
    let all = given.len();
    let mut count = 0;
    for row in rows {
        let Some(next) = place_after(given, count, row.name) else {
            return false;
        };
        count = next;
    }
    count == all
}

// Returns the place after `name`, if there is a name and it was given at this `place`; `place`, if
// there is none; and else `None`.
fn place_after<A: Allocator + Copy>(
    given: &GivenNames<'_, A>,
    place: usize,
    name: Option<&[u8]>,
) -> Option<usize> {
    match name {
        Some(name) => {
            if given.has_at(place, name) {
                Some(place + 1)
            } else {
                None
            }
        }
        None => Some(place),
    }
}

/// Returns the number of each name that `rows` give, in order: as many operations stand before its
/// row. Returns `OutOfMemory` where an allocation fails.
pub(crate) fn list_numbers<A: Allocator>(
    alloc: A,
    rows: &[Row],
) -> Result<Vec<usize, A>, OutOfMemory> {
    let mut numbers = Vec::new(alloc);
    let mut count = 0;
    for row in rows {
        push_number(&mut numbers, row.name, count)?;
        count += op_count(row);
    }
    Ok(numbers)
}

// Adds `number` to `numbers`, if it is that of a `name`.
fn push_number<A: Allocator>(
    numbers: &mut Vec<usize, A>,
    name: Option<&[u8]>,
    number: usize,
) -> Result<(), OutOfMemory> {
    if name.is_some() {
        numbers.push(number)?;
    }
    Ok(())
}
}
mod name_table {
//! Names with numbers.
use dvg_code::OutOfMemory;
use indexmap::IndexMap;
use std::alloc::Allocator;
use std::hash::{BuildHasherDefault, FoldHasher};

/// Names, each with a number. The time to find one doesn't grow with how many there are.
pub(crate) struct NameTable<'a, A: Allocator + Copy> {
    numbers: IndexMap<&'a [u8], usize, BuildHasherDefault<FoldHasher>, A>,
}

impl<'a, A: Allocator + Copy> NameTable<'a, A> {
    /// Returns a table of no names, with its memory from `alloc`.
    pub fn new(alloc: A) -> NameTable<'a, A> {
        NameTable {
            numbers: IndexMap::new(alloc),
        }
    }

    /// Gives `name` the number `number`, if there is a name and it has none yet. Returns
    /// `OutOfMemory` where an allocation fails.
    pub fn put(&mut self, name: Option<&'a [u8]>, number: usize) -> Result<(), OutOfMemory> {
        if let Some(name) = name {
            if self.numbers.get(name).is_none() {
                self.numbers.insert(name, number)?;
            }
        }
        Ok(())
    }

    /// Returns the number of `name`, if it has one.
    #[must_use]
    pub fn get(&self, name: &[u8]) -> Option<usize> {
        self.numbers.get(name).copied()
    }
}
}
mod number {
//! Which operation of a frame a name names.
use crate::given_names::GivenNames;
use crate::name_numbers::{NameNumbers, are_given, list_numbers};
use crate::name_table::NameTable;
use crate::row::Row;
use dvg_code::OutOfMemory;
use std::alloc::Allocator;

/// The rows of a section, and the numbers of all names that they give.
pub struct NamedRows<'r, 'a, A: Allocator + Copy> {
    rows: &'r [Row<'a>],
    numbers: NameNumbers<'r, 'a, A>,
}

impl<'r, 'a, A: Allocator + Copy> NamedRows<'r, 'a, A> {
    /// Collects the names that `rows` give. Where those are `given`, in order, no table is made.
    /// Returns `OutOfMemory` where an allocation fails. The time grows with the number of rows.
    pub fn new(
        alloc: A,
        rows: &'r [Row<'a>],
        given: &'r GivenNames<'a, A>,
    ) -> Result<NamedRows<'r, 'a, A>, OutOfMemory> {
        if are_given(rows, given) {
            let numbers = NameNumbers::Listed(given, list_numbers(alloc, rows)?);
            return Ok(NamedRows { rows, numbers });
        }
        let numbers = NameNumbers::Told(numbers_of(alloc, rows)?);
        Ok(NamedRows { rows, numbers })
    }

    /// Returns the rows, in order.
    pub fn rows(&self) -> &'r [Row<'a>] {
        self.rows
    }
}

/// Returns the number of the operation that `name` names in a frame of `rows`, counted from 0: as
/// many operations stand before the first row that gives it. Returns `None` exactly where no row
/// gives it. The time doesn't grow with the number of rows.
///
/// Where each name is given once, no other number is that of `name`. A name after the last
/// operation has the number of one that isn't there (this project's own choice).
#[must_use]
pub fn number_of<A: Allocator + Copy>(rows: &NamedRows<'_, '_, A>, name: &[u8]) -> Option<usize> {
    rows.numbers.get(name)
}

// Returns the least number of each name that `rows` give, or `OutOfMemory` where an allocation
// fails.
fn numbers_of<'a, A: Allocator + Copy>(
    alloc: A,
    rows: &[Row<'a>],
) -> Result<NameTable<'a, A>, OutOfMemory> {
    let mut numbers = NameTable::new(alloc);
    let mut count = 0;
    for row in rows {
        numbers.put(row.name, count)?;
        count += op_count(row);
    }
    Ok(numbers)
}

/// Returns how many operations `row` has: 0 or 1.
pub(crate) fn op_count(row: &Row) -> usize {
    match row.doing {
        Some(_) => 1,
        None => 0,
    }
}
}
mod part {
//! A section of a sketch that was read.
use std::prelude::*;

use crate::row::{Head, Row};
use crate::source::Source;
use dvg_read::LineFault;
use std::alloc::Allocator;
use std::slice;

/// A section that was read.
pub struct Part<'a, A: Allocator> {
    /// How its line begins it. The section at the top has none.
    pub head: Option<Head<'a>>,
    /// The line that begins it. The section at the top begins with the text's first line.
    pub begin: Source<'a>,
    /// Its rows, in order.
    pub rows: Vec<Row<'a>, A>,
    /// The line of each row.
    pub sources: Vec<Source<'a>, A>,
}

impl<'a, A: Allocator + Copy> Part<'a, A> {
    /// Returns a section without rows, which `begin`, the line of `head`, begins. Its memory comes
    /// from `alloc`.
    pub fn new(alloc: A, head: Option<Head<'a>>, begin: Source<'a>) -> Part<'a, A> {
        Part {
            head,
            begin,
            rows: Vec::new(alloc),
            sources: Vec::new(alloc),
        }
    }

    /// Adds `row`, which stands in the line `source`. Returns `Memory` where an allocation fails.
    pub fn push(&mut self, row: &Row<'a>, source: Source<'a>) -> Result<(), LineFault> {
        if self.rows.extend_from_slice(slice::from_ref(row)).is_err() {
            return Err(LineFault::Memory);
        }
        if self.sources.push(source).is_err() {
            return Err(LineFault::Memory);
        }
        Ok(())
    }

    /// Gives back the unused room of the rows and their lines.
    pub fn fit(&mut self) {
        self.rows.shrink_to_fit();
        self.sources.shrink_to_fit();
    }
}
}
mod rom_area {
//! Which words of the ROM the sections take that were laid.
use dvg_mem::{FIRST_ROM_WORD, ROM_END};
use dvg_read::LineFault;

/// The words that laid sections take, and where the next word is laid.
pub struct RomArea {
    /// The address after the last word of the last section.
    pub next: u16,
    /// The first word address after all words that were given before.
    pub free: u16,
    /// For each word address whether a section lies on it.
    pub is_taken: [bool; ROM_END as usize],
}

impl RomArea {
    /// Returns an area of which no word is taken.
    pub fn new() -> RomArea {
        RomArea {
            next: 0,
            free: FIRST_ROM_WORD,
            is_taken: [false; ROM_END as usize],
        }
    }

    /// Sets the first free word to the word address `free`. This comes before the first section.
    pub fn set_free(&mut self, free: u16) {
        self.free = free;
    }

    /// Begins a section at the word address `address`, or else at the first free word. Returns
    /// `OutOfRom` where that is below `first`, the ROM's first word, or above C00.
    pub fn begin(&mut self, first: u16, address: Option<u16>) -> Result<(), LineFault> {
        let start = match address {
            Some(given) => given,
            None => self.free,
        };
        if start < first || start > ROM_END {
            return Err(LineFault::OutOfRom);
        }
        self.next = start;
        self.free = self.free.max(start);
        Ok(())
    }

    /// Takes `words` more words, at most two, for the last section. Returns `OutOfRom` where they
    /// go past the ROM's end, and `Overlap` where one of them is taken.
    pub fn take(&mut self, words: usize) -> Result<(), LineFault> {
        let first = usize::from(self.next);
        let end = first + words;
        if end > usize::from(ROM_END) {
            return Err(LineFault::OutOfRom);
        }
        if !is_free(&self.is_taken, first, end) {
            return Err(LineFault::Overlap);
        }
        mark(&mut self.is_taken, first, end);
        self.next = end as u16;
        self.free = self.free.max(self.next);
        Ok(())
    }
}

// Whether none of the words from `first` to `end`, `end` excluded, is `taken`.
fn is_free(taken: &[bool], first: usize, end: usize) -> bool {
    for place in first..end {
        if taken[place] {
            return false;
        }
    }
    true
}

// Marks the words from `first` to `end`, `end` excluded, as `taken`.
fn mark(taken: &mut [bool], first: usize, end: usize) {
    for place in first..end {
        taken[place] = true;
    }
}
}
mod row {
//! What a line of a sketch spells. Names are slices of the text. Others say statement for `Row`,
//! directive for `Head` and operand for `Doing`: a row gives a name, or takes words, or both; a
//! head begins a section.
use dvg_frame::Op;
use dvg_read::{hex, read_op_parts};

/// The most bytes of a name (this project's own choice).
const MOST_NAME_BYTES: usize = 32;

/// What a row does: an operation as a plain draft has it, or one whose target is named.
#[derive(Clone, Copy)]
pub enum Doing<'a> {
    /// An operation without a name.
    Plainly(Op),
    /// A call of the operation, or in the ROM of the word, that has this name.
    Calls(&'a [u8]),
    /// A jump to the operation, or in the ROM to the word, that has this name.
    Jumps(&'a [u8]),
    /// A call of the word of the ROM that has this name.
    CallsRom(&'a [u8]),
    /// A jump to the word of the ROM that has this name.
    JumpsRom(&'a [u8]),
}

/// A row of a section: perhaps a name, and perhaps what it does.
#[derive(Clone, Copy)]
pub struct Row<'a> {
    /// The name that it gives to the operation at its place.
    pub name: Option<&'a [u8]>,
    /// What it does.
    pub doing: Option<Doing<'a>>,
}

/// The line that begins a section.
#[derive(Clone, Copy)]
pub enum Head<'a> {
    /// A line `.frame`, perhaps with a name.
    Frame(Option<&'a [u8]>),
    /// A line `.rom`, perhaps with a word address.
    Rom(Option<u16>),
}

/// Returns the row that a line of `tokens` spells, or `None` exactly where it spells none.
#[must_use]
pub fn read_row<'a>(tokens: &[&'a [u8]]) -> Option<Row<'a>> {
    let [first, rest @ ..] = tokens else {
        return None;
    };
    let Some(name) = name_given(first) else {
        let Some(doing) = read_doing(tokens) else {
            return None;
        };
        return Some(Row {
            name: None,
            doing: Some(doing),
        });
    };
    if rest.is_empty() {
        return Some(Row {
            name: Some(name),
            doing: None,
        });
    }
    let Some(doing) = read_doing(rest) else {
        return None;
    };
    Some(Row {
        name: Some(name),
        doing: Some(doing),
    })
}

/// Returns the beginning of a section that a line of `tokens` spells, or `None` exactly where it
/// spells none.
#[must_use]
pub fn read_head<'a>(tokens: &[&'a [u8]]) -> Option<Head<'a>> {
    match tokens {
        [begin] => bare_head(begin),
        [begin, operand] => head_with(begin, operand),
        _ => None,
    }
}

// Returns the section that `begin` alone begins: it has no name and no address.
fn bare_head<'a>(begin: &[u8]) -> Option<Head<'a>> {
    match begin {
        b".frame" => Some(Head::Frame(None)),
        b".rom" => Some(Head::Rom(None)),
        _ => None,
    }
}

// Returns the section that `begin` and `operand` begin: a frame of that name, or a section of the
// ROM at that address.
fn head_with<'a>(begin: &[u8], operand: &'a [u8]) -> Option<Head<'a>> {
    match begin {
        b".frame" => frame_named(operand),
        b".rom" => Some(Head::Rom(Some(hex(operand, 3)?))),
        _ => None,
    }
}

// Returns the beginning of a frame called `name`, if that is a name.
fn frame_named<'a>(name: &'a [u8]) -> Option<Head<'a>> {
    if is_name(name) {
        Some(Head::Frame(Some(name)))
    } else {
        None
    }
}

// Returns what a row of `tokens` does, or `None` exactly where they spell nothing.
fn read_doing<'a>(tokens: &[&'a [u8]]) -> Option<Doing<'a>> {
    if let [command, target] = tokens {
        if is_name(target) {
            return wanting(command, target);
        }
    }
    let op = read_op_parts(tokens)?;
    Some(Doing::Plainly(op))
}

// Returns the operation `command` whose target is called `name`.
fn wanting<'a>(command: &[u8], name: &'a [u8]) -> Option<Doing<'a>> {
    match command {
        b"call" => Some(Doing::Calls(name)),
        b"jump" => Some(Doing::Jumps(name)),
        b"callrom" => Some(Doing::CallsRom(name)),
        b"jumprom" => Some(Doing::JumpsRom(name)),
        _ => None,
    }
}

// Returns the name that `token` gives, which ends with a colon, or `None` exactly where it gives
// none.
fn name_given<'a>(token: &'a [u8]) -> Option<&'a [u8]> {
    let (last, name) = token.split_last()?;
    if *last == b':' && is_name(name) {
        Some(name)
    } else {
        None
    }
}

// Whether `name` is one: a letter, then letters, digits and `_`, at most 32 bytes, and not three
// hexadecimal digits.
fn is_name(name: &[u8]) -> bool {
    begins_with_letter(name)
        && has_name_bytes(name)
        && name.len() <= MOST_NAME_BYTES
        && hex(name, 3).is_none()
}

// Whether `name` begins with a letter.
fn begins_with_letter(name: &[u8]) -> bool {
    match name {
        [first, ..] => first.is_ascii_lowercase(),
        [] => false,
    }
}

// Whether each byte of `name` is a letter, a digit or `_`.
fn has_name_bytes(name: &[u8]) -> bool {
    name.iter().all(
        |byte| { is_name_byte(*byte) },
    )
}

// Whether `byte` is a letter, a digit or `_`.
fn is_name_byte(byte: u8) -> bool {
    byte.is_ascii_lowercase() || byte.is_ascii_digit() || byte == b'_'
}
}
mod sizes {
//! How many words rows take in the ROM.
use crate::row::{Doing, Row};
use dvg_frame::OpKind;

/// Returns how many words `rows` take: two for each VCTR and each LABS, one for each other
/// operation, and none for a name alone.
pub fn size(rows: &[Row]) -> usize {
    let mut words = 0;
    for row in rows {
        words += words_of_row(row);
    }
    words
}

/// Returns how many words `row` takes.
pub fn words_of_row(row: &Row) -> usize {
    match &row.doing {
        Some(doing) => words_of_doing(doing),
        None => 0,
    }
}

// Returns how many words the operation `doing` takes.
fn words_of_doing(doing: &Doing) -> usize {
    match doing {
        Doing::Plainly(op) => words_of_kind(op.kind()),
        Doing::Calls(_) | Doing::Jumps(_) | Doing::CallsRom(_) | Doing::JumpsRom(_) => 1,
    }
}

// Returns how many words an operation of this `kind` takes.
fn words_of_kind(kind: OpKind) -> usize {
    match kind {
        OpKind::Draw(code) => usize::from(code.word_count()),
        _ => 1,
    }
}
}
mod source {
//! Where a row comes from.
/// A line of a sketch.
#[derive(Clone, Copy)]
pub struct Source<'a> {
    /// Its number, counted from 1.
    pub number: usize,
    /// Its bytes, in small letters, without its line end.
    pub line: &'a [u8],
}
}

pub use given_names::GivenNames;
pub use line_tokens::{MAX_TOKENS, find_tokens, tokens_of};
pub use number::{NamedRows, number_of};
pub use part::Part;
pub use rom_area::RomArea;
pub use row::{Doing, Head, Row, read_head, read_row};
pub use sizes::{size, words_of_row};
pub use source::Source;
