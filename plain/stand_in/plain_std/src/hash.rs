//! Hashes.
pub use core::hash::{BuildHasher, BuildHasherDefault, Hash, Hasher};

/// An odd number without a pattern: the fraction of the golden ratio.
const MIXED_BY: u64 = 0x9E37_79B9_7F4A_7C15;

/// A fast hash, of a fixed seed: each eight bytes are multiplied in, and the product is folded.
#[derive(Clone, Copy, Debug, Default)]
pub struct FoldHasher {
    state: u64,
}

impl FoldHasher {
    fn mix(&mut self, word: u64) {
        let product = u128::from(self.state ^ word ^ MIXED_BY) * u128::from(MIXED_BY);
        self.state = product as u64 ^ (product >> 64) as u64;
    }
}

impl Hasher for FoldHasher {
    fn write(&mut self, bytes: &[u8]) {
        let mut words = bytes.chunks_exact(8);
        for word in &mut words {
            self.mix(u64::from_le_bytes(word.try_into().unwrap_or_default()));
        }
        let rest = words.remainder();
        if !rest.is_empty() {
            self.mix(
                rest.iter()
                    .rfold(0, |mixed, byte| mixed << 8 | u64::from(*byte)),
            );
        }
    }

    fn write_usize(&mut self, number: usize) {
        self.mix(number as u64);
    }

    fn finish(&self) -> u64 {
        self.state
    }
}
