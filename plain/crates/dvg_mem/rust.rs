//! What Rust's users have beside the sources: the digest of a ROM, and images and ROMs as serde
//! writes and reads them. By hand; tested, not proved.
use crate::rom::Rom;
use dvg_code::digest;
use std::alloc::Allocator;

impl<A: Allocator> Rom<A> {
    /// Returns the digest of its bytes, by which the saved state of a world names its ROM.
    pub fn digest(&self) -> u64 {
        digest(bytes_of(self))
    }
}

/// Returns the bytes of a ROM, in order.
fn bytes_of<A: Allocator>(rom: &Rom<A>) -> impl Iterator<Item = u8> {
    let addresses = rom.first()..rom.first() + rom.len_words();
    addresses.flat_map(|address| rom.word(address).to_le_bytes())
}

/// An image, and a ROM, is the list of its bytes, and is refused where they are of another number.
#[cfg(feature = "serde")]
mod forms {
    use crate::image::Image;
    use crate::rom::Rom;
    use serde::de::{Deserialize, Deserializer, Error};
    use serde::ser::{Serialize, Serializer};
    use std::alloc::Allocator;
    use std::prelude::*;

    impl<A: Allocator> Serialize for Image<A> {
        fn serialize<S: Serializer>(&self, serializer: S) -> Result<S::Ok, S::Error> {
            serializer.collect_seq(self.bytes())
        }
    }

    impl<'de, A: Allocator + Default> Deserialize<'de> for Image<A> {
        fn deserialize<D: Deserializer<'de>>(deserializer: D) -> Result<Image<A>, D::Error> {
            let bytes = Vec::<u8, A>::deserialize(deserializer)?;
            Image::new(A::default(), &bytes).map_err(Error::custom)
        }
    }

    impl<A: Allocator> Serialize for Rom<A> {
        fn serialize<S: Serializer>(&self, serializer: S) -> Result<S::Ok, S::Error> {
            serializer.collect_seq(super::bytes_of(self))
        }
    }

    impl<'de, A: Allocator + Default> Deserialize<'de> for Rom<A> {
        fn deserialize<D: Deserializer<'de>>(deserializer: D) -> Result<Rom<A>, D::Error> {
            let bytes = Vec::<u8, A>::deserialize(deserializer)?;
            Rom::new(A::default(), &bytes).map_err(Error::custom)
        }
    }
}
