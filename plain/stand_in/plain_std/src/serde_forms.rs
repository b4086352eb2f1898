//! Vectors and boxes as serde writes and reads them: a list, and what the box holds.
use crate::alloc::{Allocator, Box, Vec};
use core::fmt;
use core::marker::PhantomData;
use serde::de::{Deserialize, Deserializer, Error, SeqAccess, Visitor};
use serde::ser::{Serialize, Serializer};

impl<T: Serialize, A: Allocator> Serialize for Vec<T, A> {
    fn serialize<S: Serializer>(&self, serializer: S) -> Result<S::Ok, S::Error> {
        serializer.collect_seq(self)
    }
}

impl<'de, T: Deserialize<'de>, A: Allocator + Default> Deserialize<'de> for Vec<T, A> {
    fn deserialize<D: Deserializer<'de>>(deserializer: D) -> Result<Vec<T, A>, D::Error> {
        deserializer.deserialize_seq(Items(PhantomData))
    }
}

/// What is handed the elements of a list.
struct Items<T, A>(PhantomData<(T, A)>);

impl<'de, T: Deserialize<'de>, A: Allocator + Default> Visitor<'de> for Items<T, A> {
    type Value = Vec<T, A>;

    fn expecting(&self, f: &mut fmt::Formatter<'_>) -> fmt::Result {
        f.write_str("a list")
    }

    fn visit_seq<S: SeqAccess<'de>>(self, mut items: S) -> Result<Vec<T, A>, S::Error> {
        let mut vector = Vec::new(A::default());
        while let Some(item) = items.next_element()? {
            vector.push(item).map_err(Error::custom)?;
        }
        Ok(vector)
    }
}

impl<T: ?Sized + Serialize, A: Allocator> Serialize for Box<T, A> {
    fn serialize<S: Serializer>(&self, serializer: S) -> Result<S::Ok, S::Error> {
        (**self).serialize(serializer)
    }
}

impl<'de, T: Deserialize<'de>, A: Allocator + Default> Deserialize<'de> for Box<T, A> {
    fn deserialize<D: Deserializer<'de>>(deserializer: D) -> Result<Box<T, A>, D::Error> {
        Box::new(A::default(), T::deserialize(deserializer)?).map_err(Error::custom)
    }
}
