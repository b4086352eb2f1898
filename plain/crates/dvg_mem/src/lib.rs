//! The memory that the processor and the vector generator share, and its map.
//!
//! The processor sees 2,048 bytes of vector RAM at $4000 to $47FF and 2,048 bytes of vector ROM at
//! $5000 to $57FF, or 4,096 at $4800 to $57FF. The generator sees the same memory as words, at
//! addresses of 12 bits: word `w` is the bytes at $4000 + `2w` (low) and $4000 + `2w` + 1 (high).
//! Byte addresses of the RAM are offsets, 000 to 7FF; word addresses are 000 to FFF.
//!
//! | Words | Area |
//! |---|---|
//! | 000 | word zero, where each run begins: E001 or E201 once a frame was published |
//! | 001 to 1FF | half 0 |
//! | 200 | RAM that is not used (this project's own choice) |
//! | 201 to 3FF | half 1 |
//! | 400 to 7FF | hole, or the first half of a ROM of 4,096 bytes (this project's own choice) |
//! | 800 to BFF | ROM |
//! | C00 to FFF | hole (this project's own choice) |
//!
//! The RAM at 000 to 3FF and the ROM at 800 to BFF are those of Asteroids (Atari's schematics).
//! Boards of Asteroids Deluxe have a ROM of 4,096 bytes, which is at 400 to BFF here (this
//! project's own choice).
#![no_std]

extern crate plain_std as std;

mod areas {
//! The areas of the generator's address space.
use crate::half::Half;

/// What a word address belongs to.
#[derive(Clone, Copy, Debug, PartialEq, Eq, Hash)]
#[cfg_attr(feature = "serde", derive(serde::Serialize, serde::Deserialize))]
pub enum Area {
    /// Word zero, where each run begins.
    Zero,
    /// A half of the vector RAM, which holds a frame.
    Frame(Half),
    /// The word of the RAM between the halves, which no frame uses (this project's own choice).
    Unused,
    /// The vector ROM.
    Rom,
    /// An address at which no memory answers (this project's own choice).
    Hole,
}
}
mod banked {
//! A store in four parts. None of them has bytes of both halves.
use std::prelude::*;

use crate::half::Half;
use crate::image::Image;
use crate::store::Store;
use crate::{HALF_BYTES, WORD_BYTES};
use dvg_code::OutOfMemory;
use std::alloc::{Allocator, Global};

// The addresses of half 0's first byte, of the byte after half 0, and of half 1's first byte.
const HALF_0: usize = WORD_BYTES;

const UNUSED: usize = HALF_0 + HALF_BYTES;

const HALF_1: usize = UNUSED + WORD_BYTES;

/// A store that keeps word zero, half 0, the word that no frame uses and half 1 each on its own, as
/// two banks of memory do: no part has bytes of both halves.
#[derive(Clone, Debug)]
pub struct Banked<A: Allocator = Global> {
    zero: [u8; WORD_BYTES],
    half_0: Box<[u8; HALF_BYTES], A>,
    unused: [u8; WORD_BYTES],
    half_1: Box<[u8; HALF_BYTES], A>,
}

impl<A: Allocator> Banked<A> {
    /// Returns the 1,022 bytes of `half`, from its first word's low byte on, as they lie in the
    /// store.
    pub fn half(&self, half: Half) -> &[u8] {
        match half {
            Half::H0 => self.half_0.as_slice(),
            Half::H1 => self.half_1.as_slice(),
        }
    }
}

impl<A: Allocator + Copy> Store for Banked<A> {
    type Alloc = A;

    fn make(alloc: A, image: &Image<A>) -> Result<Banked<A>, OutOfMemory> {
        let Ok(half_0) = Box::new(alloc, [0; HALF_BYTES]) else {
            return Err(OutOfMemory);
        };
        let Ok(half_1) = Box::new(alloc, [0; HALF_BYTES]) else {
            return Err(OutOfMemory);
        };
        let mut banked = Banked {
            zero: [0; WORD_BYTES],
            half_0,
            unused: [0; WORD_BYTES],
            half_1,
        };
        banked.load(image);
        Ok(banked)
    }

    fn read(&self, a: u16) -> u8 {
        let a = usize::from(a);
        if a < HALF_0 {
            self.zero[a]
        } else if a < UNUSED {
            self.half_0[a - HALF_0]
        } else if a < HALF_1 {
            self.unused[a - UNUSED]
        } else {
            self.half_1[a - HALF_1]
        }
    }

    fn write(&mut self, a: u16, b: u8) {
        let a = usize::from(a);
        if a < HALF_0 {
            self.zero[a] = b;
        } else if a < UNUSED {
            self.half_0[a - HALF_0] = b;
        } else if a < HALF_1 {
            self.unused[a - UNUSED] = b;
        } else {
            self.half_1[a - HALF_1] = b;
        }
    }

    fn load(&mut self, image: &Image<A>) {
        let (zero, rest) = image.bytes().split_at(WORD_BYTES);
        let (half_0, rest) = rest.split_at(HALF_BYTES);
        let (unused, half_1) = rest.split_at(WORD_BYTES);
        self.zero.copy_from_slice(zero);
        self.half_0.copy_from_slice(half_0);
        self.unused.copy_from_slice(unused);
        self.half_1.copy_from_slice(half_1);
    }
}
}
mod fetching {
//! What the generator finds at an address.
use crate::rom::Rom;
use crate::store::Store;
use crate::{FIRST_LARGE_ROM_WORD, ROM_END};

/// Returns a byte of the word at the word address `w`, which has 12 bits: the high byte where
/// `high` is true, otherwise the low one. The word lies in `store`, the RAM, or in `rom`. Returns
/// `None` exactly for a hole.
#[must_use]
pub fn fetch_byte<S: Store>(store: &S, rom: &Rom<S::Alloc>, w: u16, high: bool) -> Option<u8> {
    if w < FIRST_LARGE_ROM_WORD {
        let place = if high { 2 * w + 1 } else { 2 * w };
        return Some(store.read(place));
    }
    if rom.first() <= w && w < ROM_END {
        let [low_byte, high_byte] = rom.word(w).to_le_bytes();
        return Some(if high { high_byte } else { low_byte });
    }
    None
}

/// Returns the word at the word address `w`, which has 12 bits, in `store`, the RAM, or in `rom`.
/// Returns `None` exactly for a hole.
#[must_use]
pub fn fetch<S: Store>(store: &S, rom: &Rom<S::Alloc>, w: u16) -> Option<u16> {
    if w < FIRST_LARGE_ROM_WORD {
        let low = store.read(2 * w);
        let high = store.read(2 * w + 1);
        return Some(u16::from_le_bytes([low, high]));
    }
    if rom.first() <= w && w < ROM_END {
        return Some(rom.word(w));
    }
    None
}
}
mod flat {
//! A store in one array of bytes.
use std::prelude::*;

use crate::MEMORY_BYTES;
use crate::image::Image;
use crate::store::Store;
use dvg_code::OutOfMemory;
use std::alloc::{Allocator, Global};

/// A store that keeps its bytes in one array. An image of one byte everywhere is only noted, and
/// fills the array at the first write.
#[derive(Clone, Debug)]
pub struct Flat<A: Allocator = Global> {
    bytes: Box<[u8; MEMORY_BYTES], A>,
    // The byte that stands everywhere, while the array still has other bytes.
    everywhere: Option<u8>,
}

impl<A: Allocator + Copy> Store for Flat<A> {
    type Alloc = A;

    fn make(alloc: A, image: &Image<A>) -> Result<Flat<A>, OutOfMemory> {
        let mut copy = [0; MEMORY_BYTES];
        copy.copy_from_slice(image.bytes());
        match Box::new(alloc, copy) {
            Ok(bytes) => Ok(Flat {
                bytes,
                everywhere: None,
            }),
            Err(_) => Err(OutOfMemory),
        }
    }

    #[inline(always)]
    fn read(&self, a: u16) -> u8 {
        match self.everywhere {
            Some(byte) => byte,
            None => self.bytes[usize::from(a)],
        }
    }

    #[inline(always)]
    fn write(&mut self, a: u16, b: u8) {
        match self.everywhere {
            Some(byte) => {
                fill(self.bytes.as_mut_slice(), byte);
                self.everywhere = None;
                self.bytes[usize::from(a)] = b;
            }
            None => self.bytes[usize::from(a)] = b,
        }
    }

    fn load(&mut self, image: &Image<A>) {
        match image.filled() {
            Some(byte) => self.everywhere = Some(byte),
            None => {
                self.bytes.copy_from_slice(image.bytes());
                self.everywhere = None;
            }
        }
    }
}

// Replaces each of `bytes` with `byte`.
#[inline(never)]
fn fill(bytes: &mut [u8], byte: u8) {
    for i in 0..bytes.len() {
        bytes[i] = byte;
    }
}
}
mod half {
//! The two halves of the vector RAM.
/// One half of the vector RAM. The processor writes a frame into one while the generator draws the
/// other.
#[derive(Clone, Copy, Debug, PartialEq, Eq, Hash)]
#[cfg_attr(feature = "serde", derive(serde::Serialize, serde::Deserialize))]
pub enum Half {
    /// Words 001 to 1FF.
    H0,
    /// Words 201 to 3FF.
    H1,
}

impl Half {
    /// Returns the word address of the half's first word: 001 or 201.
    pub fn base(self) -> u16 {
        match self {
            Half::H0 => 0x001,
            Half::H1 => 0x201,
        }
    }

    /// Returns the other half.
    pub fn other(self) -> Half {
        match self {
            Half::H0 => Half::H1,
            Half::H1 => Half::H0,
        }
    }

    /// Returns the high byte of word zero that names this half, as that of a jump to its first
    /// word: E0 of E001, or E2 of E201.
    pub fn high(self) -> u8 {
        match self {
            Half::H0 => 0xE0,
            Half::H1 => 0xE2,
        }
    }

    /// Returns the half that `high` names, as the high byte of word zero. Only bit 1 counts: it is
    /// 0 for half 0, and 1 for half 1.
    pub fn of_high(high: u8) -> Half {
        if high / 2 % 2 == 0 {
            Half::H0
        } else {
            Half::H1
        }
    }

    /// Returns the half in which word `w` lies, or `None` for word zero, word 200 and all from 400
    /// on.
    #[must_use]
    pub fn of_word(w: u16) -> Option<Half> {
        match w {
            0x001..=0x1FF => Some(Half::H0),
            0x201..=0x3FF => Some(Half::H1),
            _ => None,
        }
    }
}
}
mod image {
//! What a memory holds.
use std::prelude::*;

use crate::MEMORY_BYTES;
use std::alloc::{AllocError, Allocator, Global};
use thiserror::Error;

/// Why a memory was not made.
#[derive(Clone, Copy, Debug, PartialEq, Eq, Error, Hash)]
#[cfg_attr(feature = "serde", derive(serde::Serialize, serde::Deserialize))]
pub enum MemFault {
    /// The number of bytes isn't that of the memory: 2,048, or for a ROM 2,048 or 4,096.
    #[error("there are not as many bytes as the memory has")]
    Size,
    /// An allocation failed.
    #[error("out of memory")]
    OutOfMemory,
}

// What an image keeps in its block of memory.
#[derive(Clone, Debug)]
struct Held {
    bytes: [u8; MEMORY_BYTES],
    /// The byte that stands everywhere, if that was seen: then a store is filled, and nothing is
    /// copied.
    filled: Option<u8>,
}

/// The 2,048 bytes that a vector RAM holds. The block of memory has what is known of them, too, so
/// an image itself is no more than a pointer.
#[derive(Debug)]
#[derive(Clone)]
pub struct Image<A: Allocator = Global> {
    held: Box<Held, A>,
}

/// A copy of the bytes. `clone` returns `AllocError` where an allocation fails.
impl<A: Allocator + Clone> Clone for Image<A> {
    fn try_clone(&self) -> Result<Image<A>, AllocError> {
        let alloc = Box::allocator(&self.held).try_clone()?;
        match Image::new(alloc, self.bytes()) {
            Ok(copy) => Ok(copy),
            Err(_) => Err(AllocError),
        }
    }
}

/// Images are equal where their bytes are.
impl<A: Allocator> PartialEq for Image<A> {
    fn eq(&self, other: &Image<A>) -> bool {
        self.bytes() == other.bytes()
    }
}

impl<A: Allocator> Eq for Image<A> {
}

impl<A: Allocator> Image<A> {
    /// Returns the image of `bytes`, which are copied into memory of `alloc`. Returns `Size`
    /// exactly where the length of `bytes` isn't 2,048, and `OutOfMemory` where an allocation
    /// fails.
    pub fn new(alloc: A, bytes: &[u8]) -> Result<Image<A>, MemFault> {
        if bytes.len() != MEMORY_BYTES {
            return Err(MemFault::Size);
        }
        let mut copy = [0; MEMORY_BYTES];
        copy.copy_from_slice(bytes);
        let held = Held {
            bytes: copy,
            filled: only_byte(bytes),
        };
        match Box::new(alloc, held) {
            Ok(held) => Ok(Image { held }),
            Err(_) => Err(MemFault::OutOfMemory),
        }
    }

    /// Replaces the bytes with `bytes`, whose length must be 2,048. They go into the memory that
    /// the image has.
    pub fn copy_from(&mut self, bytes: &[u8]) {
        self.held.bytes.copy_from_slice(bytes);
        self.held.filled = None;
    }

    // Returns the byte that stands everywhere, if that was seen.
    pub(crate) fn filled(&self) -> Option<u8> {
        self.held.filled
    }

    /// Returns the bytes, from address 000 on.
    pub fn bytes(&self) -> &[u8] {
        self.held.bytes.as_slice()
    }
}

// Returns the byte that stands at each place of `bytes`, if there is one. `bytes` isn't empty.
fn only_byte(bytes: &[u8]) -> Option<u8> {
    if bytes[1..] == bytes[..bytes.len() - 1] {
        Some(bytes[0])
    } else {
        None
    }
}
}
mod lookup {
//! The area of an address.
use crate::areas::Area;
use crate::half::Half;
use crate::{FIRST_ROM_WORD, ROM_END};

/// Returns the area of the word address `w`, which has 12 bits, with a ROM of 2,048 bytes.
/// `Rom::area` returns it for any ROM.
pub fn area(w: u16) -> Area {
    area_in_map(FIRST_ROM_WORD, w)
}

// Returns the area of the word address `w`, which has 12 bits. `first` is the address of the ROM's
// first word, and lies after the RAM.
pub(crate) fn area_in_map(first: u16, w: u16) -> Area {
    match w {
        0x000 => Area::Zero,
        0x001..=0x1FF => Area::Frame(Half::H0),
        0x200 => Area::Unused,
        0x201..=0x3FF => Area::Frame(Half::H1),
        _ if first <= w && w < ROM_END => Area::Rom,
        _ => Area::Hole,
    }
}
}
mod rom {
//! The vector ROM.
use std::prelude::*;

use crate::areas::Area;
use crate::image::MemFault;
use crate::lookup::area_in_map;
use crate::{FIRST_LARGE_ROM_WORD, FIRST_ROM_WORD, LARGE_ROM_BYTES, MEMORY_BYTES, ROM_END};
use dvg_code::word_at;
use std::alloc::{AllocError, Allocator, Global};

/// The bytes of a vector ROM: 2,048 of the words 800 to BFF, as in Asteroids, or 4,096 of the words
/// 400 to BFF, as on boards of Asteroids Deluxe (the second map is this project's own choice).
#[derive(Clone, Debug)]
pub struct Rom<A: Allocator = Global> {
    bytes: Vec<u8, A>,
}

impl<A: Allocator> Rom<A> {
    /// Returns the ROM of `bytes`, which are copied into memory of `alloc`. Returns `Size` exactly
    /// where the length of `bytes` is neither 2,048 nor 4,096, and `OutOfMemory` where an
    /// allocation fails.
    pub fn new(alloc: A, bytes: &[u8]) -> Result<Rom<A>, MemFault> {
        if bytes.len() != MEMORY_BYTES && bytes.len() != LARGE_ROM_BYTES {
            return Err(MemFault::Size);
        }
        // As one block: `to_vec` would copy each byte by itself.
        let mut copy = Vec::new(alloc);
        match copy.extend_from_slice(bytes) {
            Ok(()) => Ok(Rom { bytes: copy }),
            Err(_) => Err(MemFault::OutOfMemory),
        }
    }

    /// Replaces the bytes with `bytes`. If there are as many of them, they go into the memory that
    /// the ROM has; otherwise memory is taken from `alloc`.
    ///
    /// Returns `Size` exactly where the length of `bytes` is neither 2,048 nor 4,096, and
    /// `OutOfMemory` where an allocation fails. After an error nothing has changed.
    pub fn copy_from(&mut self, alloc: A, bytes: &[u8]) -> Result<(), MemFault> {
        if bytes.len() == self.bytes.len() {
            self.bytes.as_mut_slice().copy_from_slice(bytes);
            return Ok(());
        }
        match Rom::new(alloc, bytes) {
            Ok(rom) => {
                *self = rom;
                Ok(())
            }
            Err(fault) => Err(fault),
        }
    }

    /// Returns the word address of the first word: 800 or 400.
    pub fn first(&self) -> u16 {
        if self.bytes.len() == MEMORY_BYTES {
            FIRST_ROM_WORD
        } else {
            FIRST_LARGE_ROM_WORD
        }
    }

    /// Returns the number of words: 1,024 or 2,048.
    pub fn len_words(&self) -> u16 {
        (self.bytes.len() / 2) as u16
    }

    /// Returns the word at the word address `a`, which is `first` to BFF.
    pub fn word(&self, a: u16) -> u16 {
        // Counted back from the end: the last word stands at BFF, whichever size the ROM has.
        let after = usize::from(ROM_END - a);
        word_at(self.bytes.as_slice(), self.bytes.len() / 2 - after)
    }

    /// Returns the ROM of 4,096 bytes that has this one's words from 800 on, and D000, a return, at
    /// 400 to 7FF. This one must have 2,048 bytes. Memory is taken from `alloc`. The only error is
    /// `OutOfMemory`, where an allocation fails.
    pub fn grow(&self, alloc: A) -> Result<Rom<A>, MemFault> {
        let _ = &self.bytes;
        match self.grown_bytes(alloc) {
            Ok(bytes) => Ok(Rom { bytes }),
            Err(_) => Err(MemFault::OutOfMemory),
        }
    }

    // Returns the bytes of 1,024 returns, and then those of this ROM, in memory of `alloc`.
    fn grown_bytes(&self, alloc: A) -> Result<Vec<u8, A>, AllocError> {
        let mut bytes = Vec::with_capacity(alloc, LARGE_ROM_BYTES)?;
        for _word in 0..1024u16 {
            bytes.extend_from_slice(&[0x00, 0xD0])?;
        }
        bytes.extend_from_slice(self.bytes.as_slice())?;
        Ok(bytes)
    }

    /// Returns the area of the word address `w`, which has 12 bits, with this ROM.
    pub fn area(&self, w: u16) -> Area {
        area_in_map(self.first(), w)
    }
}
}
mod store {
//! Stores: the vector RAM, however it is kept.
use std::prelude::*;

use crate::image::Image;
use dvg_code::OutOfMemory;
use std::alloc::Allocator;

/// The vector RAM: 2,048 bytes at the addresses 000 to 7FF, however they are kept. Only `make`
/// takes memory.
pub trait Store: Drop {
    /// What a store takes its room from.
    type Alloc: Allocator + Copy;

    /// Returns a store that holds the bytes of `image`, in memory of `alloc`. Returns `OutOfMemory`
    /// where an allocation fails.
    fn make(alloc: Self::Alloc, image: &Image<Self::Alloc>) -> Result<Self, OutOfMemory>;

    /// Returns the byte at the address `a`, which is below 2,048.
    fn read(&self, a: u16) -> u8;

    /// Replaces the byte at the address `a`, which is below 2,048, with `b`. No other byte changes.
    fn write(&mut self, a: u16, b: u8);

    /// Replaces all bytes with those of `image`.
    fn load(&mut self, image: &Image<Self::Alloc>);
}
}

pub use areas::Area;
pub use banked::Banked;
pub use fetching::{fetch, fetch_byte};
pub use flat::Flat;
pub use half::Half;
pub use image::{Image, MemFault};
pub use lookup::area;
pub use rom::Rom;
pub use store::Store;

/// The bytes of a vector RAM, and of the smaller vector ROM.
pub const MEMORY_BYTES: usize = 2048;

/// The bytes of one half of the vector RAM: 511 words.
pub const HALF_BYTES: usize = 1022;

/// The bytes of a word.
pub(crate) const WORD_BYTES: usize = 2;

/// The bytes of the larger vector ROM.
pub const LARGE_ROM_BYTES: usize = 4096;

/// The word address of the smaller ROM's first word.
pub const FIRST_ROM_WORD: u16 = 0x800;

/// The word address of the larger ROM's first word.
pub const FIRST_LARGE_ROM_WORD: u16 = 0x400;

/// The word address after a ROM's last word.
pub const ROM_END: u16 = 0xC00;

#[path = "../rust.rs"]
mod rust;
