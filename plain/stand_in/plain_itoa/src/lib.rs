//! What the sources use of `itoa`.
#![no_std]

/// The digits of each number below 100, two by two.
const PAIRS: [[u8; 2]; 100] = {
    let mut pairs = [[b'0'; 2]; 100];
    let mut number = 0;
    while number < 100 {
        pairs[number] = [b'0' + (number / 10) as u8, b'0' + (number % 10) as u8];
        number += 1;
    }
    pairs
};

/// Room for a number.
pub struct Buffer([u8; 40]);

/// A whole number.
pub trait Integer: Copy {
    /// Whether it is below 0, and its size.
    fn parts(self) -> (bool, u128);
}

macro_rules! integers {
    ($($t:ty)*) => {$(
        impl Integer for $t {
            #[allow(unused_comparisons)]
            fn parts(self) -> (bool, u128) {
                (self < 0, self.abs_diff(0) as u128)
            }
        }
    )*};
}

integers!(u8 u16 u32 u64 u128 usize i8 i16 i32 i64 isize);

impl Buffer {
    /// Room for a number.
    #[allow(clippy::new_without_default)]
    pub fn new() -> Buffer {
        Buffer([0; 40])
    }

    /// The digits of a number, after a minus where it is below 0.
    pub fn format<I: Integer>(&mut self, n: I) -> &str {
        let (negative, mut size) = n.parts();
        let mut at = self.0.len();
        // Few numbers have more than 64 bits, and the others divide faster by themselves.
        while size > u64::MAX as u128 {
            at -= 1;
            self.0[at] = b'0' + (size % 10) as u8;
            size /= 10;
        }
        let mut size = size as u64;
        while size >= 100 {
            at -= 2;
            self.0[at..at + 2].copy_from_slice(&PAIRS[(size % 100) as usize]);
            size /= 100;
        }
        if size >= 10 {
            at -= 2;
            self.0[at..at + 2].copy_from_slice(&PAIRS[size as usize]);
        } else {
            at -= 1;
            self.0[at] = b'0' + size as u8;
        }
        if negative {
            at -= 1;
            self.0[at] = b'-';
        }
        // SAFETY: they are digits, and perhaps a minus.
        unsafe { core::str::from_utf8_unchecked(&self.0[at..]) }
    }
}
