//! Lines that the program `dvg` writes, in memory: of instructions, ROMs, verdicts, entries, runs
//! and strokes (all formats are this project's own choice). A line is written without taking
//! memory.
#![no_std]

extern crate plain_std as std;

mod digits {
//! Digits of numbers, in the bytes of a line.
/// The bytes in which a line is made from its end to its front. The longest one has 69.
pub(crate) const BLOCK_BYTES: usize = 96;

/// The bytes in which a number is counted up. No number of 64 bits has more digits.
pub(crate) const NUMBER_BYTES: usize = 24;

/// The digits of each number below 100, two by two.
static PAIRS: [u8; 200] = *b"0001020304050607080910111213141516171819\
    2021222324252627282930313233343536373839404142434445464748495051525354555657585960616263646566\
    676869707172737475767778798081828384858687888990919293949596979899";

// Puts the two digits of `pair`, a number below 100, before `end`.
#[inline(always)]
fn put_pair(bytes: &mut [u8; BLOCK_BYTES], end: usize, pair: u32) {
    let from = 2 * pair as usize;
    let (tens, ones) = (PAIRS[from], PAIRS[from + 1]);
    bytes[end - 2] = tens;
    bytes[end - 1] = ones;
}

// Puts the digits of `number`, which is below 100, before `end`. Returns where they begin.
#[inline(always)]
fn put_first(bytes: &mut [u8; BLOCK_BYTES], end: usize, number: u32) -> usize {
    if number < 10 {
        bytes[end - 1] = b'0' + number as u8;
        return end - 1;
    }
    put_pair(bytes, end, number);
    end - 2
}

// Puts `number` in decimal before `end`. Returns where it begins.
#[inline(always)]
fn put_number(bytes: &mut [u8; BLOCK_BYTES], end: usize, number: u32) -> usize {
    let mut left = number;
    let mut at = end;
    while left >= 100 {
        put_pair(bytes, at, left % 100);
        left /= 100;
        at -= 2;
    }
    put_first(bytes, at, left)
}

// Returns how many digits `number` has, which is below 10,000.
#[inline(always)]
fn small_count(number: u32) -> usize {
    if number < 10 {
        1
    } else if number < 100 {
        2
    } else if number < 1000 {
        3
    } else {
        4
    }
}

// Puts `number`, which is below 10,000, in decimal before `end`. Returns where it begins. All four
// digits are put, so that none waits for how many there are.
#[inline(always)]
pub(crate) fn put_small(bytes: &mut [u8; BLOCK_BYTES], end: usize, number: u32) -> usize {
    put_pair(bytes, end, number % 100);
    put_pair(bytes, end - 2, number / 100);
    end - small_count(number)
}

// Puts `number`, which is below 100, in decimal before `end`. Returns where it begins. Both digits
// are put.
#[inline(always)]
pub(crate) fn put_tiny(bytes: &mut [u8; BLOCK_BYTES], end: usize, number: u32) -> usize {
    put_pair(bytes, end, number);
    if number < 10 { end - 1 } else { end - 2 }
}

// Puts `byte` before `end`. Returns where it is.
#[inline(always)]
pub(crate) fn put_byte(bytes: &mut [u8; BLOCK_BYTES], end: usize, byte: u8) -> usize {
    bytes[end - 1] = byte;
    end - 1
}

// Puts a space and `number` in decimal before `end`. Returns where the space is.
#[inline(always)]
pub(crate) fn put_part(bytes: &mut [u8; BLOCK_BYTES], end: usize, number: u32) -> usize {
    let at = put_number(bytes, end, number);
    put_byte(bytes, at, b' ')
}

// Puts the position `x y` before `end`. Returns where it begins.
pub(crate) fn put_position(bytes: &mut [u8; BLOCK_BYTES], end: usize, x: u32, y: u32) -> usize {
    let at = put_part(bytes, end, y);
    put_number(bytes, at, x)
}

// Adds 1 to the decimal number whose digits are the first `count` of `bytes`, in place. Returns
// false if all were nines: they are zeros then.
#[inline(always)]
pub(crate) fn add_one(bytes: &mut [u8; NUMBER_BYTES], count: usize) -> bool {
    let mut at = count;
    while at > 0 && bytes[at - 1] == b'9' {
        at -= 1;
        bytes[at] = b'0';
    }
    if at > 0 && bytes[at - 1] < b'9' {
        bytes[at - 1] += 1;
        return true;
    }
    false
}
}
mod eight_digits {
//! Numbers below 100,000,000 as texts of eight bytes, made without a branch.
use crate::digits::BLOCK_BYTES;

/// The least number that has no text of eight bytes.
pub(crate) const GREAT: u32 = 100_000_000;

/// What is added to a number of 32 bits, by the count of zeros that it begins with: the upper 32
/// bits of the sum are how many digits it has.
static COUNTS: [u64; 33] = [
    42_949_672_960,
    42_949_672_960,
    41_949_672_960,
    41_949_672_960,
    41_949_672_960,
    38_554_705_664,
    38_554_705_664,
    38_554_705_664,
    34_349_738_368,
    34_349_738_368,
    34_349_738_368,
    34_349_738_368,
    30_063_771_072,
    30_063_771_072,
    30_063_771_072,
    25_769_703_776,
    25_769_703_776,
    25_769_703_776,
    21_474_826_480,
    21_474_826_480,
    21_474_826_480,
    21_474_826_480,
    17_179_868_184,
    17_179_868_184,
    17_179_868_184,
    12_884_901_788,
    12_884_901_788,
    12_884_901_788,
    8_589_934_582,
    8_589_934_582,
    8_589_934_582,
    8_589_934_582,
    8_589_934_582,
];

/// A number, and its text: the last `count` of the eight bytes that make up `bytes`.
pub(crate) struct Digits {
    pub(crate) number: u32,
    bytes: u64,
    count: usize,
}

// Returns how many digits `number` has.
#[inline(always)]
fn digit_count(number: u32) -> usize {
    let zeros = number.leading_zeros() as usize;
    ((u64::from(number) + COUNTS[zeros]) >> 32) as usize
}

// Returns four digits of `number` in each half of the bits, the first ones in the lower half.
#[inline(always)]
fn halves(number: u32) -> u64 {
    u64::from(number / 10_000) + u64::from(number % 10_000) * 0x1_0000_0000
}

// Returns two digits of `number` in each quarter. 10,486 is 2 ^ 20 / 100, rounded up.
#[inline(always)]
fn quarters(number: u32) -> u64 {
    let halves = halves(number);
    let hundreds = ((halves * 10_486) >> 20) & 0x7F_0000_007F;
    hundreds + (halves - 100 * hundreds) * 0x1_0000
}

// Returns a digit of `number` in each byte, as text. 103 is 2 ^ 10 / 10, rounded up.
#[inline(always)]
fn eight_digits(number: u32) -> u64 {
    let quarters = quarters(number);
    let tens = ((quarters * 103) >> 10) & 0x000F_000F_000F_000F;
    tens + (quarters - 10 * tens) * 0x100 + 0x3030_3030_3030_3030
}

/// Returns the text of `number`.
#[inline(always)]
pub(crate) fn digits_of(number: u32) -> Digits {
    Digits {
        number,
        bytes: eight_digits(number),
        count: digit_count(number),
    }
}

/// Puts the text of `digits` before `end`. Returns where it begins.
#[inline(always)]
pub(crate) fn put_digits(bytes: &mut [u8; BLOCK_BYTES], end: usize, digits: &Digits) -> usize {
    bytes[end - 8..end].copy_from_slice(&digits.bytes.to_le_bytes());
    end - digits.count
}
}
mod entry_lines {
//! Lines of entries, which are numbered.
use crate::digits::{NUMBER_BYTES, add_one};
use crate::line::Line;
use dvg_log::Entry;
use itoa::Buffer;

/// The lines that `play --all` writes of entries, one at a time. The digits of the next event's
/// number are kept and counted up in place, the last one apart from the others.
pub struct EntryLines {
    line: Line,
    // The first `count` of these bytes are the digits of the next entry's number before its last
    // one. Nine lines in ten leave them: bytes just written are slow to read together.
    tens: [u8; NUMBER_BYTES],
    count: usize,
    ones: u8,
    // The number of the next entry's event.
    next: usize,
}

// Returns the digits of `number` at the front of an array, and how many they are.
fn digits_of(number: usize) -> ([u8; NUMBER_BYTES], usize) {
    let mut buffer = Buffer::new();
    let text = buffer.format(number).as_bytes();
    let mut bytes = [0; NUMBER_BYTES];
    bytes[..text.len()].copy_from_slice(text);
    (bytes, text.len())
}

// Returns the digits of `number` before its last one, and how many they are.
fn tens_of(number: usize) -> ([u8; NUMBER_BYTES], usize) {
    if number < 10 {
        return ([0; NUMBER_BYTES], 0);
    }
    digits_of(number / 10)
}

impl EntryLines {
    /// Returns a line with no bytes, where `next` is the number of the next entry's event.
    pub fn new(next: usize) -> EntryLines {
        let (tens, count) = tens_of(next);
        EntryLines {
            line: Line::new(),
            tens,
            count,
            ones: b'0' + (next % 10) as u8,
            next,
        }
    }

    /// Returns the bytes of the line.
    #[inline(always)]
    pub fn as_bytes(&self) -> &[u8] {
        self.line.as_bytes()
    }

    /// Becomes the line of `entry`, the next entry. `drew` is how many strokes the run drew, if
    /// `entry` finished one.
    #[inline(always)]
    pub fn become_next<S>(&mut self, entry: &Entry<S>, drew: usize) {
        self.line.clear();
        self.line.front(&self.tens, self.count);
        self.line.text(&[self.ones]);
        self.line.entry(entry, drew);
        self.line.text(b"\n");
        self.count_on();
    }

    /// Becomes the line of `entry`, the next entry, as `become_next` does. The line is that of an
    /// equal entry before it, so nine times in ten only the last digit changes.
    #[inline(always)]
    pub fn become_again<S>(&mut self, entry: &Entry<S>, drew: usize) {
        if self.ones > b'0' {
            self.line.put(self.count, self.ones);
            self.count_on();
            return;
        }
        self.become_tenth(entry, drew);
    }

    // Becomes the line of `entry`, the next entry, as `become_next` does. It isn't inlined, as it
    // is wanted for one equal entry in ten.
    #[inline(never)]
    fn become_tenth<S>(&mut self, entry: &Entry<S>, drew: usize) {
        self.become_next(entry, drew);
    }

    // Goes on to the next number. Nine times in ten only the last digit changes.
    #[inline(always)]
    fn count_on(&mut self) {
        if self.ones < b'9' {
            self.next += 1;
            self.ones += 1;
            return;
        }
        self.next_ten();
    }

    // Goes on to the next number from one that ends with a nine. It isn't inlined, as its caller is
    // faster without it.
    #[inline(never)]
    fn next_ten(&mut self) {
        self.next += 1;
        self.ones = b'0';
        if !add_one(&mut self.tens, self.count) {
            (self.tens, self.count) = tens_of(self.next);
        }
    }
}
}
mod instr_line {
//! Lines of instructions, made from their ends to their fronts.
use crate::digits::{BLOCK_BYTES, put_byte, put_part, put_small, put_tiny};
use crate::eight_digits::{GREAT, digits_of, put_digits};
use crate::line::{glyph, pair};
use dvg_code::{Code, Instr};
use dvg_gen::Beam;

/// The line that `list` or `picture --all` writes of an instruction. It is made from its end to its
/// front, so no byte of a number is moved.
pub struct InstrLine {
    // The line is at the end of these bytes.
    bytes: [u8; BLOCK_BYTES],
    start: usize,
}

// Puts the last three hexadecimal digits of `n` before `end`. Returns where they begin.
#[inline(always)]
fn put_hex_3(bytes: &mut [u8; BLOCK_BYTES], end: usize, n: usize) -> usize {
    let (second, last) = pair((n % 256) as u8);
    let ones = put_byte(bytes, end, last);
    let middle = put_byte(bytes, ones, second);
    put_byte(bytes, middle, glyph(n / 256 % 16))
}

// Puts ` ` and `name`, which has four letters, before `end`. Returns where the space is.
#[inline(always)]
fn put_name(bytes: &mut [u8; BLOCK_BYTES], end: usize, name: &[u8; 4]) -> usize {
    bytes[end - 4..end].copy_from_slice(name);
    put_byte(bytes, end - 4, b' ')
}

// Puts a space and `n`, which is below 10,000, before `end`. Returns where the space is.
#[inline(always)]
fn put_unsigned(bytes: &mut [u8; BLOCK_BYTES], end: usize, n: u16) -> usize {
    let at = put_small(bytes, end, u32::from(n));
    put_byte(bytes, at, b' ')
}

// Puts a space and `n`, which is below 100, before `end`. Returns where the space is.
#[inline(always)]
fn put_short(bytes: &mut [u8; BLOCK_BYTES], end: usize, n: u8) -> usize {
    let at = put_tiny(bytes, end, u32::from(n));
    put_byte(bytes, at, b' ')
}

// Puts `n`, of which the magnitude is below 10,000, in decimal before `end`. Returns where it
// begins. The sign is put in any case, as that takes less time than to look whether it must be.
#[inline(always)]
fn put_integer(bytes: &mut [u8; BLOCK_BYTES], end: usize, n: i16) -> usize {
    let digits = put_small(bytes, end, u32::from(n.unsigned_abs()));
    let sign = put_byte(bytes, digits, b'-');
    if n < 0 { sign } else { digits }
}

// Puts a space and `n`, of which the magnitude is below 10,000, before `end`. Returns where the
// space is.
#[inline(always)]
fn put_signed(bytes: &mut [u8; BLOCK_BYTES], end: usize, n: i16) -> usize {
    let at = put_integer(bytes, end, n);
    put_byte(bytes, at, b' ')
}

// Puts a space and a star before `end` unless `canonical`. Returns where what is put begins. The
// bytes are put in any case.
#[inline(always)]
fn put_star(bytes: &mut [u8; BLOCK_BYTES], end: usize, canonical: bool) -> usize {
    let star = put_byte(bytes, end, b'*');
    let space = put_byte(bytes, star, b' ');
    if canonical { end } else { space }
}

// Puts `name`, the name of a vector, and its numbers `scale`, `dx`, `dy` and `z` before `end`.
// Returns where they begin.
#[inline(always)]
fn put_vector(
    bytes: &mut [u8; BLOCK_BYTES],
    end: usize,
    name: &[u8; 4],
    scale: u8,
    dx: i16,
    dy: i16,
    z: u8,
) -> usize {
    let fourth = put_short(bytes, end, z);
    let third = put_signed(bytes, fourth, dy);
    let second = put_signed(bytes, third, dx);
    let first = put_short(bytes, second, scale);
    put_name(bytes, first, name)
}

// Puts `LABS` and its numbers `x`, `y` and `scale` before `end`. Returns where they begin.
#[inline(always)]
fn put_labs(bytes: &mut [u8; BLOCK_BYTES], end: usize, x: u16, y: u16, scale: u8) -> usize {
    let third = put_short(bytes, end, scale);
    let second = put_unsigned(bytes, third, y);
    let first = put_unsigned(bytes, second, x);
    put_name(bytes, first, b"LABS")
}

// Puts `name`, the name of an instruction, and the word address `address` before `end`. Returns
// where they begin.
#[inline(always)]
fn put_addressed(bytes: &mut [u8; BLOCK_BYTES], end: usize, name: &[u8; 4], address: u16) -> usize {
    let digits = put_hex_3(bytes, end, usize::from(address));
    let space = put_byte(bytes, digits, b' ');
    put_name(bytes, space, name)
}

// Puts the name of `instr` and its operands before `end`. Returns where they begin.
#[inline(always)]
fn put_instr(bytes: &mut [u8; BLOCK_BYTES], end: usize, instr: Instr) -> usize {
    match instr {
        Instr::Vctr { scale, dx, dy, z } => put_vector(bytes, end, b"VCTR", scale, dx, dy, z),
        Instr::Labs { x, y, scale } => put_labs(bytes, end, x, y, scale),
        Instr::Halt => put_name(bytes, end, b"HALT"),
        Instr::Jsrl(address) => put_addressed(bytes, end, b"JSRL", address),
        Instr::Rtsl => put_name(bytes, end, b"RTSL"),
        Instr::Jmpl(address) => put_addressed(bytes, end, b"JMPL", address),
        Instr::Svec { scale, dx, dy, z } => {
            put_vector(bytes, end, b"SVEC", scale, i16::from(dx), i16::from(dy), z)
        }
    }
}

// Puts `place` in three hexadecimal digits, the name and operands of `code`, and a star unless its
// words are `canonical`, before `end`. Returns where they begin.
#[inline(always)]
fn put_placed(
    bytes: &mut [u8; BLOCK_BYTES],
    end: usize,
    place: usize,
    code: &Code,
    canonical: bool,
) -> usize {
    let star = put_star(bytes, end, canonical);
    let name = put_instr(bytes, star, code.instr());
    put_hex_3(bytes, name, place)
}

// Puts a space and `n` in decimal before `end`. Returns where the space is.
#[inline(always)]
fn put_any(bytes: &mut [u8; BLOCK_BYTES], end: usize, n: u32) -> usize {
    if n >= GREAT {
        return put_part(bytes, end, n);
    }
    let at = put_digits(bytes, end, &digits_of(n));
    put_byte(bytes, at, b' ')
}

// Puts where `beam` is, in 1/512 units, and its global scale, before `end`. Returns where they
// begin.
#[inline(always)]
fn put_beam(bytes: &mut [u8; BLOCK_BYTES], end: usize, beam: &Beam) -> usize {
    let third = put_any(bytes, end, u32::from(beam.scale));
    let second = put_any(bytes, third, beam.y);
    let first = put_any(bytes, second, beam.x);
    let word = put_byte(bytes, first, b't');
    let at = put_byte(bytes, word, b'a');
    put_byte(bytes, at, b' ')
}

impl InstrLine {
    /// Returns a line with no bytes.
    pub fn new() -> InstrLine {
        InstrLine {
            bytes: [0; BLOCK_BYTES],
            start: BLOCK_BYTES,
        }
    }

    /// Returns the bytes of the line.
    #[inline(always)]
    pub fn as_bytes(&self) -> &[u8] {
        &self.bytes[self.start..]
    }

    /// Becomes the line that `list` writes of the instruction `code` at `place`. It ends with a
    /// star unless the words are `canonical`.
    pub fn become_listed(&mut self, place: usize, code: &Code, canonical: bool) {
        let newline = put_byte(&mut self.bytes, BLOCK_BYTES, b'\n');
        self.start = put_placed(&mut self.bytes, newline, place, code, canonical);
    }

    /// Becomes the line that `picture --all` writes of an instruction that was run: its `address`,
    /// the name and operands of `code`, a star unless its words are `canonical`, and `beam` after
    /// it, in 1/512 units, with the global scale.
    pub fn become_instruction(&mut self, address: u16, code: &Code, canonical: bool, beam: &Beam) {
        let newline = put_byte(&mut self.bytes, BLOCK_BYTES, b'\n');
        let at = put_beam(&mut self.bytes, newline, beam);
        self.start = put_placed(&mut self.bytes, at, usize::from(address), code, canonical);
    }
}
}
mod line {
//! Lines of output, made without taking memory.
use crate::digits::NUMBER_BYTES;
use crate::verdict::{BoundedVerdict, Verdict};
use dvg_frame::{FrameFault, Place};
use itoa::{Buffer, Integer};

/// The most bytes of a line, or of two lines that are one text.
pub(crate) const MOST_BYTES: usize = 256;

/// The number of words in a line of a ROM.
pub const LINE_WORDS: usize = 8;

/// The two hexadecimal digits of each byte.
static PAIRS: [u8; 512] =
    *b"000102030405060708090A0B0C0D0E0F101112131415161718191A1B1C1D1E1F2021222324252627\
    28292A2B2C2D2E2F303132333435363738393A3B3C3D3E3F404142434445464748494A4B4C4D4E4F\
    505152535455565758595A5B5C5D5E5F606162636465666768696A6B6C6D6E6F7071727374757677\
    78797A7B7C7D7E7F808182838485868788898A8B8C8D8E8F909192939495969798999A9B9C9D9E9F\
    A0A1A2A3A4A5A6A7A8A9AAABACADAEAFB0B1B2B3B4B5B6B7B8B9BABBBCBDBEBFC0C1C2C3C4C5C6C7\
    C8C9CACBCCCDCECFD0D1D2D3D4D5D6D7D8D9DADBDCDDDEDFE0E1E2E3E4E5E6E7E8E9EAEBECEDEEEF\
    F0F1F2F3F4F5F6F7F8F9FAFBFCFDFEFF";

/// Returns `digit`, 0 to 15, as a hexadecimal digit in upper case.
#[inline(always)]
pub fn glyph(digit: usize) -> u8 {
    b"0123456789ABCDEF"[digit]
}

// Returns the two hexadecimal digits of `byte`.
#[inline(always)]
pub(crate) fn pair(byte: u8) -> (u8, u8) {
    let from = 2 * byte as usize;
    (PAIRS[from], PAIRS[from + 1])
}

/// A line of output, of at most 256 bytes. The verdict on a torn log is two lines in one.
pub struct Line {
    // The bytes of the line, and after them those of earlier lines, which are never cleared.
    bytes: [u8; MOST_BYTES],
    count: usize,
}

impl Line {
    /// Returns a line with no bytes.
    pub fn new() -> Line {
        Line {
            bytes: [0; MOST_BYTES],
            count: 0,
        }
    }

    /// Returns the bytes of the line.
    #[inline(always)]
    pub fn as_bytes(&self) -> &[u8] {
        &self.bytes[..self.count]
    }

    // Becomes a line with no bytes.
    #[inline(always)]
    pub(crate) fn clear(&mut self) {
        self.count = 0;
    }

    // Appends the first `count` bytes of `text`. All 24 are copied, as that takes less time.
    #[inline(always)]
    pub(crate) fn front(&mut self, text: &[u8; NUMBER_BYTES], count: usize) {
        self.bytes[self.count..self.count + NUMBER_BYTES].copy_from_slice(text);
        self.count += count;
    }

    // Puts `byte` in the place of the one at `at`.
    #[inline(always)]
    pub(crate) fn put(&mut self, at: usize, byte: u8) {
        self.bytes[at] = byte;
    }

    // Appends `text`.
    #[inline(always)]
    pub(crate) fn text(&mut self, text: &[u8]) {
        let end = self.count + text.len();
        self.bytes[self.count..end].copy_from_slice(text);
        self.count = end;
    }

    // Appends a space and `part`.
    #[inline(always)]
    pub(crate) fn part(&mut self, part: &[u8]) {
        self.text(b" ");
        self.text(part);
    }

    // Appends a space and `n` in decimal.
    pub(crate) fn number<I: Integer>(&mut self, n: I) {
        self.part(Buffer::new().format(n).as_bytes());
    }

    // Appends a space and the two hexadecimal digits of `byte`.
    #[inline(always)]
    pub(crate) fn hex_2(&mut self, byte: u8) {
        let (tens, ones) = pair(byte);
        self.text(&[b' ', tens, ones]);
    }

    // Appends the last three hexadecimal digits of `n`.
    #[inline(always)]
    pub(crate) fn hex_3(&mut self, n: usize) {
        self.text(&[glyph(n / 256 % 16), glyph(n / 16 % 16), glyph(n % 16)]);
    }

    // Appends a space and the three hexadecimal digits of the word address `address`.
    #[inline(always)]
    fn address(&mut self, address: u16) {
        let first = glyph(usize::from(address / 256 % 16));
        let (second, last) = pair((address % 256) as u8);
        self.text(&[b' ', first, second, last]);
    }

    // Appends a space and the four hexadecimal digits of `word`.
    #[inline(always)]
    pub(crate) fn hex_4(&mut self, word: u16) {
        let (first, second) = pair((word / 256) as u8);
        let (third, last) = pair((word % 256) as u8);
        self.text(&[b' ', first, second, third, last]);
    }

    // Appends `name`, the name of an instruction, and the word address `address`.
    #[inline(always)]
    pub(crate) fn with_address(&mut self, name: &[u8], address: u16) {
        self.part(name);
        self.address(address);
    }

    // Appends `place`: an operation's number, or a ROM word's address.
    fn place(&mut self, place: Place) {
        match place {
            Place::InFrame(i) => {
                self.part(b"op");
                self.number(i);
            }
            Place::InRom(a) => self.with_address(b"word", a),
        }
    }

    // Appends `name`, which is a fault's number and name, and `place`.
    fn fault_at(&mut self, name: &[u8], place: Place) {
        self.part(name);
        self.place(place);
    }

    // Appends `name`, which is a fault's number and name, and `i`, the number of an operation.
    fn fault_of(&mut self, name: &[u8], i: u16) {
        self.part(name);
        self.number(i);
    }

    // Appends the parts of the text of `fault`.
    pub(crate) fn fault(&mut self, fault: FrameFault) {
        match fault {
            FrameFault::Empty => self.part(b"1 empty"),
            FrameFault::NoLabs => self.part(b"2 no labs"),
            FrameFault::TooLong => self.part(b"3 too long"),
            FrameFault::Target(i) => self.fault_of(b"4 target", i),
            FrameFault::RunsOff(i) => self.fault_of(b"5 runs off", i),
            FrameFault::OutOfRom(place) => self.fault_at(b"6 out of rom", place),
            FrameFault::TooDeep(place) => self.fault_at(b"7 too deep", place),
            FrameFault::NoCaller(place) => self.fault_at(b"8 no caller", place),
            FrameFault::Loops => self.part(b"9 loops"),
        }
    }

    /// Becomes the ROM line of `words`, which are eight, from the word address `address` on.
    pub fn become_rom(&mut self, address: usize, words: &[u16]) {
        self.clear();
        self.text(b"rom ");
        self.hex_3(address);
        for word in words {
            self.hex_4(*word);
        }
        self.text(b"\n");
    }

    /// Becomes the line that `check` writes of `verdict`.
    pub fn become_verdict(&mut self, verdict: Verdict) {
        self.clear();
        match verdict {
            Verdict::Good(words) => {
                self.text(b"ok");
                self.number(words);
                self.part(b"words");
            }
            Verdict::Refused(fault) => {
                self.text(b"fault");
                self.fault(fault);
            }
        }
        self.text(b"\n");
    }

    /// Becomes the line that `check --bound` writes of `verdict`, with the bound of a good draft.
    pub fn become_bounded(&mut self, verdict: BoundedVerdict) {
        self.clear();
        match verdict {
            BoundedVerdict::Good { words, bound } => {
                self.text(b"ok");
                self.number(words);
                self.part(b"words");
                self.number(bound);
                self.part(b"fetches");
            }
            BoundedVerdict::Refused(fault) => {
                self.text(b"fault");
                self.fault(fault);
            }
        }
        self.text(b"\n");
    }
}
}
mod log_line {
//! Lines of what a log shows.
use crate::line::Line;
use dvg_driver::Action;
use dvg_log::Entry;

impl Line {
    // Appends what `action` did.
    #[inline(always)]
    pub(crate) fn action(&mut self, action: Action) {
        match action {
            Action::Peek => self.part(b"peek"),
            Action::Wrote(address, byte) => {
                self.with_address(b"wrote", address);
                self.hex_2(byte);
            }
            Action::Read(true) => self.part(b"read halted"),
            Action::Read(false) => self.part(b"read running"),
            Action::Sent => self.part(b"sent"),
            Action::Idle => self.part(b"idle"),
        }
    }

    // Appends `name`, which says what a fetch led to, its word address `address`, and the `word`
    // there.
    #[inline(always)]
    pub(crate) fn fetched(&mut self, name: &[u8], address: u16, word: u16) {
        self.with_address(name, address);
        self.hex_4(word);
    }

    // Appends what an event led to, `entry`. `drew` is how many strokes the run drew, if `entry`
    // finished one.
    #[inline(always)]
    pub(crate) fn entry<S>(&mut self, entry: &Entry<S>, drew: usize) {
        match entry {
            Entry::Offered => self.part(b"offered"),
            Entry::Refused(fault) => {
                self.part(b"refused");
                self.fault(*fault);
            }
            Entry::Busy => self.part(b"busy"),
            Entry::Asked => self.part(b"asked"),
            Entry::NothingPublished => self.part(b"nothing published"),
            Entry::Acted(action) => self.action(*action),
            Entry::Started => self.part(b"started"),
            Entry::NoStrobe => self.part(b"no strobe"),
            Entry::Low(address, byte) => {
                self.with_address(b"low", *address);
                self.hex_2(*byte);
            }
            Entry::Fetched(address, word) => self.fetched(b"fetched", *address, *word),
            Entry::Done(address, word, _) => {
                self.fetched(b"done", *address, *word);
                self.number(drew);
            }
            Entry::Broke(address, fault) => {
                self.with_address(b"broke", *address);
                self.number(fault.number());
            }
            Entry::Still => self.part(b"still"),
            Entry::Cleared => self.part(b"cleared"),
        }
    }

    /// Becomes the line of a picture of so many `strokes`, which the event of this `number`
    /// finished.
    pub fn become_picture(&mut self, number: usize, strokes: usize) {
        self.clear();
        self.text(b"picture");
        self.number(number);
        self.number(strokes);
        self.text(b"\n");
    }
}
}
mod log_verdict {
//! What `torn` says of a log.
use crate::line::Line;
use dvg_driver::Action;

/// What was counted in the lines of a log, up to the one that decided.
#[derive(Clone, Copy, Debug, PartialEq, Eq, Hash)]
pub struct LogCounts {
    /// Strobes that began a run.
    pub runs: usize,
    /// Runs that drew a half.
    pub drew: usize,
    /// Lines that say that a run ended by a HALT.
    pub halted: usize,
    /// Bytes that the driver wrote.
    pub writes: usize,
}

/// What the judge finds in a log.
#[derive(Clone, Copy, Debug, PartialEq, Eq, Hash)]
pub enum LogFinding {
    /// No byte was written in the half that the open run draws.
    NotTorn,
    /// No such byte was written either, but no run drew a half.
    NoRunDrew,
    /// The first write in such a half: the number of its line, counted from 1, its byte address and
    /// its byte.
    Torn { line: usize, address: u16, byte: u8 },
}

/// What the judge says of a log.
#[derive(Clone, Copy, Debug, PartialEq, Eq, Hash)]
pub struct LogVerdict {
    /// What it finds.
    pub finding: LogFinding,
    /// What it counted: of a torn log up to the line that tears a picture, that one included.
    pub counts: LogCounts,
}

impl Line {
    /// Becomes what `torn` writes of `verdict`: one line, or two for a torn log.
    pub fn become_log_verdict(&mut self, verdict: LogVerdict) {
        self.clear();
        self.finding(verdict.finding);
        self.runs(verdict.counts);
        self.halts(verdict.counts);
    }

    // Appends `finding`, what was found in a log.
    fn finding(&mut self, finding: LogFinding) {
        match finding {
            LogFinding::NotTorn => self.text(b"not torn:"),
            LogFinding::NoRunDrew => self.text(b"no run drew a half:"),
            LogFinding::Torn {
                line,
                address,
                byte,
            } => {
                self.text(b"torn at line");
                self.number(line);
                self.text(b":");
                self.action(Action::Wrote(address, byte));
                self.text(b"\nso far:");
            }
        }
    }

    // Appends, from `counts`, how many runs began and how many of them drew a half.
    fn runs(&mut self, counts: LogCounts) {
        self.number(counts.runs);
        self.text(b" runs,");
        self.number(counts.drew);
        self.text(b" drew a half,");
    }

    // Appends, from `counts`, how many lines say `halted` and how many bytes were written, and the
    // line's end.
    fn halts(&mut self, counts: LogCounts) {
        self.number(counts.halted);
        self.text(b" halted,");
        self.number(counts.writes);
        self.text(b" writes\n");
    }
}
}
mod moment_verdict {
//! What `torn --moments` says of a log.
use crate::line::Line;

/// What a fetch brought.
#[derive(Clone, Copy, Debug, PartialEq, Eq, Hash)]
pub enum Reading {
    /// The low byte of the word at this word address.
    Low(u16, u8),
    /// The word at this word address, whose high byte was fetched.
    Fetched(u16, u16),
}

/// What the judge of moments says of a log, or of a torn run in it.
#[derive(Clone, Copy, Debug, PartialEq, Eq, Hash)]
pub enum MomentVerdict {
    /// Each run that came to its HALT is consistent, and no line contradicts. So many runs began,
    /// so many of them came to their HALT, and so many of these were judged, one or more: they had
    /// fetched past word zero.
    Whole {
        runs: usize,
        halted: usize,
        judged: usize,
    },
    /// The same, but none was judged.
    NoRun {
        runs: usize,
        halted: usize,
    },
    /// A run came to its HALT of which no moment was left after this line: its number, counted from
    /// 1, and what it read.
    Torn {
        line: usize,
        reading: Reading,
    },
    /// This line read another byte than the log told last of it, of the RAM, of the ROM, or of the
    /// low byte that was told of this very word: its number, counted from 1, and what it read.
    Contradicts {
        line: usize,
        reading: Reading,
    },
    /// So many runs that came to their HALT are mixed, each of which was told, and no line
    /// contradicts. So many runs began, and so many of them came to their HALT.
    SomeTorn {
        runs: usize,
        halted: usize,
        torn: usize,
    },
}

impl Line {
    /// Becomes the line that `torn --moments` writes of `verdict`.
    pub fn become_moment_verdict(&mut self, verdict: MomentVerdict) {
        self.clear();
        match verdict {
            MomentVerdict::Whole {
                runs,
                halted,
                judged,
            } => {
                self.text(b"whole:");
                self.runs_halted(runs, halted);
                self.text(b",");
                self.number(judged);
                self.text(b" judged\n");
            }
            MomentVerdict::NoRun { runs, halted } => {
                self.text(b"no run to judge:");
                self.runs_halted(runs, halted);
                self.text(b"\n");
            }
            MomentVerdict::Torn { line, reading } => {
                self.text(b"torn at line");
                self.number(line);
                self.text(b":");
                self.reading(reading);
                self.text(b"\n");
            }
            MomentVerdict::Contradicts { line, reading } => {
                self.text(b"line");
                self.number(line);
                self.text(b" reads what was not written:");
                self.reading(reading);
                self.text(b"\n");
            }
            MomentVerdict::SomeTorn { runs, halted, torn } => {
                self.text(b"in all:");
                self.runs_halted(runs, halted);
                self.text(b",");
                self.number(torn);
                self.text(b" torn\n");
            }
        }
    }

    // Appends that so many runs began and so many came to their HALT.
    fn runs_halted(&mut self, runs: usize, halted: usize) {
        self.number(runs);
        self.text(b" runs,");
        self.number(halted);
        self.text(b" halted");
    }

    // Appends what a fetch brought, `reading`, as a log says it.
    fn reading(&mut self, reading: Reading) {
        match reading {
            Reading::Low(address, byte) => {
                self.with_address(b"low", address);
                self.hex_2(byte);
            }
            Reading::Fetched(address, word) => self.fetched(b"fetched", address, word),
        }
    }
}
}
mod run_line {
//! Lines of what one run of the generator does.
use crate::line::Line;
use dvg_gen::{GenFault, Move};

impl Line {
    /// Becomes the line that `picture --moves` writes of `made`: the address of its instruction,
    /// where it begins and ends, in the unit that it has them, and its intensity.
    pub fn become_move(&mut self, made: &Move) {
        self.clear();
        self.hex_3(usize::from(made.address));
        self.number(made.x0);
        self.number(made.y0);
        self.number(made.x1);
        self.number(made.y1);
        self.number(made.z);
        self.text(b"\n");
    }

    /// Becomes the line that `picture` writes of a run that broke with `fault`, at the fetch of the
    /// word address `address`.
    pub fn become_broke(&mut self, address: u16, fault: GenFault) {
        self.clear();
        self.text(b"broke ");
        self.hex_3(usize::from(address));
        self.number(fault.number());
        self.text(b"\n");
    }

    /// Becomes the line that `picture` writes of a run that has no end.
    pub fn become_endless(&mut self) {
        self.clear();
        self.text(b"endless\n");
    }
}
}
mod stroke_lines {
//! Lines of strokes, of which most begin where the one before ended.
use crate::digits::{BLOCK_BYTES, put_byte, put_part, put_position};
use crate::eight_digits::{Digits, GREAT, digits_of, put_digits};
use dvg_gen::Stroke;

/// What the line of a stroke ends with, by its intensity: four bytes, the lowest one first. Those
/// from the space on count.
static ENDS: [u32; 16] = [
    0x0A30_2030,
    0x0A31_2030,
    0x0A32_2030,
    0x0A33_2030,
    0x0A34_2030,
    0x0A35_2030,
    0x0A36_2030,
    0x0A37_2030,
    0x0A38_2030,
    0x0A39_2030,
    0x0A30_3120,
    0x0A31_3120,
    0x0A32_3120,
    0x0A33_3120,
    0x0A34_3120,
    0x0A35_3120,
];

// A point, with the texts of its numbers.
struct Point {
    x: Digits,
    y: Digits,
}

/// The lines that `play` writes of strokes, one at a time. Each is made from its end to its front,
/// so no byte of a number is moved. The texts of where it ends are kept, as the next one mostly
/// begins there.
pub struct StrokeLines {
    // The line is at the end of these bytes.
    bytes: [u8; BLOCK_BYTES],
    start: usize,
    // Where a stroke before ended, or 0, 0.
    last: Point,
}

// Whether each number of `stroke` has a text of eight bytes, and its intensity one in the table.
#[inline(always)]
fn is_small(stroke: &Stroke) -> bool {
    stroke.x0.max(stroke.y0).max(stroke.x1).max(stroke.y1) < GREAT && stroke.z < 16
}

// Returns the point at `x` and `y`, with the texts of both.
#[inline(always)]
fn point_at(x: u32, y: u32) -> Point {
    Point {
        x: digits_of(x),
        y: digits_of(y),
    }
}

// Puts `point` before `end`. Returns where it begins.
#[inline(always)]
fn put_point(bytes: &mut [u8; BLOCK_BYTES], end: usize, point: &Point) -> usize {
    let at = put_digits(bytes, end, &point.y);
    let space = put_byte(bytes, at, b' ');
    put_digits(bytes, space, &point.x)
}

// Puts where `stroke` begins before `end`. Mostly that is `last`, where the stroke before ended.
// Returns where the text begins.
#[inline(always)]
fn put_start(bytes: &mut [u8; BLOCK_BYTES], end: usize, stroke: &Stroke, last: &Point) -> usize {
    if stroke.x0 == last.x.number && stroke.y0 == last.y.number {
        return put_point(bytes, end, last);
    }
    put_point(bytes, end, &point_at(stroke.x0, stroke.y0))
}

// Puts a space, the intensity `z` and a line end before `end`. Returns where the space is.
#[inline(always)]
fn put_intensity(bytes: &mut [u8; BLOCK_BYTES], end: usize, z: u8) -> usize {
    bytes[end - 4..end].copy_from_slice(&ENDS[z as usize].to_le_bytes());
    if z < 10 { end - 3 } else { end - 4 }
}

// Puts the line of `stroke`, which may be any, before `end`. Returns where it begins.
#[inline(never)]
fn put_any(bytes: &mut [u8; BLOCK_BYTES], end: usize, stroke: &Stroke) -> usize {
    let newline = put_byte(bytes, end, b'\n');
    let to = put_part(bytes, newline, u32::from(stroke.z));
    let middle = put_position(bytes, to, stroke.x1, stroke.y1);
    let space = put_byte(bytes, middle, b' ');
    put_position(bytes, space, stroke.x0, stroke.y0)
}

// Puts the line of `stroke`, whose numbers are small, at the end of `bytes`. `last` is where the
// stroke before ended, and becomes where this one ends. Returns where the line begins.
#[inline(always)]
fn put_small(bytes: &mut [u8; BLOCK_BYTES], stroke: &Stroke, last: &mut Point) -> usize {
    let to = put_intensity(bytes, BLOCK_BYTES, stroke.z);
    let end = point_at(stroke.x1, stroke.y1);
    let middle = put_point(bytes, to, &end);
    let space = put_byte(bytes, middle, b' ');
    let start = put_start(bytes, space, stroke, last);
    *last = end;
    start
}

impl StrokeLines {
    /// Returns a line with no bytes.
    pub fn new() -> StrokeLines {
        StrokeLines {
            bytes: [0; BLOCK_BYTES],
            start: BLOCK_BYTES,
            last: point_at(0, 0),
        }
    }

    /// Returns the bytes of the line.
    #[inline(always)]
    pub fn as_bytes(&self) -> &[u8] {
        &self.bytes[self.start..]
    }

    /// Becomes the line of `stroke`.
    #[inline(always)]
    pub fn become_line(&mut self, stroke: &Stroke) {
        if !is_small(stroke) {
            self.start = put_any(&mut self.bytes, BLOCK_BYTES, stroke);
            return;
        }
        self.start = put_small(&mut self.bytes, stroke, &mut self.last);
    }
}
}
mod svg_line {
//! Lines of pictures as SVG.
use crate::line::Line;
use dvg_gen::Stroke;
use itoa::Buffer;

/// How many places there are along an axis: 4,096 screen units of 512 each.
const AXIS: u32 = 2_097_152;

// Returns the same place as `place` on an axis, from -1,048,576 to 1,048,575.
fn centred(place: u32) -> i32 {
    let n = place % AXIS;
    if n < AXIS / 2 {
        n as i32
    } else {
        n as i32 - AXIS as i32
    }
}

// Returns the shorter way from `from` to `to` along an axis.
fn way(from: u32, to: u32) -> i32 {
    centred(to % AXIS + (AXIS - from % AXIS))
}

impl Line {
    // Appends `n`, a place or a way along an axis, in decimal.
    fn signed(&mut self, n: i32) {
        self.text(Buffer::new().format(n).as_bytes());
    }

    // Appends a point or a way, `x` and `y`.
    fn pair(&mut self, x: i32, y: i32) {
        self.signed(x);
        self.text(b" ");
        self.signed(y);
    }

    // Appends the opacity for the intensity `z`.
    fn opacity(&mut self, z: u8) {
        if z < 15 {
            let hundredths = 5 * (z + 5);
            self.text(b".");
            self.text(Buffer::new().format(hundredths).as_bytes());
        } else {
            self.text(b"1.0");
        }
    }

    /// Becomes the line of `stroke` in an SVG whose unit is 1/512 of a screen unit. It is a path
    /// from where `stroke` begins, -2,048 to 2,047 screen units, the shorter way to where it ends.
    /// The intensity is an opacity from 0.30 to 1 (this project's own choice).
    pub fn become_path(&mut self, stroke: Stroke) {
        self.clear();
        self.text(b"<path d=\"M");
        self.pair(centred(stroke.x0), centred(stroke.y0));
        self.text(b"l");
        self.pair(way(stroke.x0, stroke.x1), way(stroke.y0, stroke.y1));
        self.text(b"\" opacity=\"");
        self.opacity(stroke.z);
        self.text(b"\"/>\n");
    }
}
}
mod verdict {
//! What `check` says of a draft. A verdict with the bound is a type of its own, so `check` can't
//! return one by mistake.
use dvg_frame::FrameFault;

/// What the check says of a draft over a ROM.
#[derive(Clone, Copy, Debug, PartialEq, Eq, Hash)]
pub enum Verdict {
    /// It may be drawn, and has this many words.
    Good(u16),
    /// It is refused, for this fault.
    Refused(FrameFault),
}

/// What the check says of a draft over a ROM, with the bound of a good one.
#[derive(Clone, Copy, Debug, PartialEq, Eq, Hash)]
pub enum BoundedVerdict {
    /// It may be drawn. `words` is how many words it has. `bound` is how many words the generator
    /// fetches in the whole run, word zero included.
    Good { words: u16, bound: u64 },
    /// It is refused, for this fault.
    Refused(FrameFault),
}

impl BoundedVerdict {
    /// Returns the verdict without its bound.
    pub fn verdict(self) -> Verdict {
        match self {
            BoundedVerdict::Good { words, .. } => Verdict::Good(words),
            BoundedVerdict::Refused(fault) => Verdict::Refused(fault),
        }
    }
}
}

pub use entry_lines::EntryLines;
pub use instr_line::InstrLine;
pub use line::{LINE_WORDS, Line, glyph};
pub use log_verdict::{LogCounts, LogFinding, LogVerdict};
pub use moment_verdict::{MomentVerdict, Reading};
pub use stroke_lines::StrokeLines;
pub use verdict::{BoundedVerdict, Verdict};
