//! The vector RAM in plain Rust, for the plain twins: in one piece, or in banks.

/// The bytes of a RAM.
pub const BYTES: usize = 2048;

/// The word address after a ROM's last word.
pub const ROM_END: usize = 0xC00;

/// The bytes of a half: words 001 to 1FF, or 201 to 3FF.
const HALF_BYTES: usize = 1022;

/// Where the bytes of word 200 begin.
#[allow(dead_code)]
const SPARE: usize = 0x400;

/// A RAM of 2,048 bytes.
pub trait Memory {
    /// A RAM with these bytes.
    fn of(image: &[u8; BYTES]) -> Self;

    /// Takes these bytes in place of all.
    fn load(&mut self, image: &[u8; BYTES]);

    /// The byte at an address below 2,048.
    fn byte(&self, address: usize) -> u8;

    /// Puts a byte at an address below 2,048.
    fn write(&mut self, address: usize, byte: u8);
}

/// All bytes in one piece.
pub struct Flat([u8; BYTES]);

impl Memory for Flat {
    fn of(image: &[u8; BYTES]) -> Flat {
        Flat(*image)
    }

    fn load(&mut self, image: &[u8; BYTES]) {
        self.0 = *image;
    }

    #[inline]
    fn byte(&self, address: usize) -> u8 {
        self.0[address]
    }

    #[inline]
    fn write(&mut self, address: usize, byte: u8) {
        self.0[address] = byte;
    }
}

/// The bytes in four parts, of which none has bytes of both halves.
#[allow(dead_code)]
pub struct Banked {
    word_zero: [u8; 2],
    half_0: Box<[u8; HALF_BYTES]>,
    spare: [u8; 2],
    half_1: Box<[u8; HALF_BYTES]>,
}

impl Memory for Banked {
    fn of(image: &[u8; BYTES]) -> Banked {
        let mut banked = Banked {
            word_zero: [0; 2],
            half_0: Box::new([0; HALF_BYTES]),
            spare: [0; 2],
            half_1: Box::new([0; HALF_BYTES]),
        };
        banked.load(image);
        banked
    }

    fn load(&mut self, image: &[u8; BYTES]) {
        let (low, high) = image.split_at(SPARE);
        self.word_zero.copy_from_slice(&low[..2]);
        self.half_0.copy_from_slice(&low[2..]);
        self.spare.copy_from_slice(&high[..2]);
        self.half_1.copy_from_slice(&high[2..]);
    }

    #[inline]
    fn byte(&self, address: usize) -> u8 {
        match address {
            0..2 => self.word_zero[address],
            2..SPARE => self.half_0[address - 2],
            SPARE..0x402 => self.spare[address - SPARE],
            _ => self.half_1[address - SPARE - 2],
        }
    }

    #[inline]
    fn write(&mut self, address: usize, byte: u8) {
        *match address {
            0..2 => &mut self.word_zero[address],
            2..SPARE => &mut self.half_0[address - 2],
            SPARE..0x402 => &mut self.spare[address - SPARE],
            _ => &mut self.half_1[address - SPARE - 2],
        } = byte;
    }
}
