//! What the sources use of `indexmap`: a map and a set that keep their entries in the order in
//! which they came. Like Rattle's, each takes an allocator, and what takes memory answers a
//! `Result`.
#![no_std]

use plain_std::alloc::{AllocError, AllocFailed, Allocator, Global, Vec};
use plain_std::hash::{BuildHasher, BuildHasherDefault, FoldHasher, Hash};

/// What is looked up in the place of a key, of which it has the hash.
pub trait Equivalent<K>: Copy + Hash {
    /// Whether it stands for the key.
    fn equivalent(self, key: &K) -> bool;
}

impl<T: Eq + Hash> Equivalent<&[T]> for &[T] {
    fn equivalent(self, key: &&[T]) -> bool {
        self == *key
    }
}

/// A map.
pub struct IndexMap<K, V, S = BuildHasherDefault<FoldHasher>, A: Allocator = Global> {
    entries: Vec<(K, V), A>,
    // For each place the number of its entry, counted from 1, or 0. Half of them are 0, or more.
    places: Vec<u32, A>,
    hash_builder: S,
}

impl<K, V, S: Default, A: Allocator + Copy> IndexMap<K, V, S, A> {
    /// An empty map. The first entry takes memory.
    pub fn new(alloc: A) -> IndexMap<K, V, S, A> {
        IndexMap {
            entries: Vec::new(alloc),
            places: Vec::new(alloc),
            hash_builder: S::default(),
        }
    }
}

impl<K: Copy + Eq + Hash, V, S: BuildHasher, A: Allocator> IndexMap<K, V, S, A> {
    /// The value of a key.
    pub fn get<Q: Equivalent<K>>(&self, key: Q) -> Option<&V> {
        Some(&self.entries[self.get_index_of(key)?].1)
    }

    /// How many keys came before this one.
    pub fn get_index_of<Q: Equivalent<K>>(&self, key: Q) -> Option<usize> {
        if self.entries.is_empty() {
            return None;
        }
        let place = self.place_of(self.hash_builder.hash_one(key), |kept| key.equivalent(kept));
        (self.places[place] as usize).checked_sub(1)
    }

    /// Gives a key this value, in place of the one that it had, which comes back. A new key goes
    /// last.
    pub fn insert(&mut self, key: K, value: V) -> Result<Option<V>, AllocFailed<(K, V)>> {
        if self.reserve_one().is_err() {
            return Err(AllocFailed((key, value)));
        }
        let place = self.place_of(self.hash_builder.hash_one(key), |kept| *kept == key);
        let number = self.places[place] as usize;
        if number != 0 {
            let kept = &mut self.entries[number - 1].1;
            return Ok(Some(core::mem::replace(kept, value)));
        }
        self.entries.push((key, value))?;
        self.places[place] = self.entries.len() as u32;
        Ok(None)
    }

    /// Forgets all entries, and keeps their room.
    pub fn clear(&mut self) {
        self.entries.clear();
        self.places.fill(0);
    }

    // The place of the key of this hash that `is_key` knows, or the free one where it would be.
    fn place_of(&self, hash: u64, is_key: impl Fn(&K) -> bool) -> usize {
        let last = self.places.len() - 1;
        let mut place = hash as usize & last;
        loop {
            let number = self.places[place] as usize;
            if number == 0 || is_key(&self.entries[number - 1].0) {
                return place;
            }
            place = (place + 1) & last;
        }
    }

    // Room for one entry more.
    fn reserve_one(&mut self) -> Result<(), AllocError> {
        if self.entries.len() * 2 < self.places.len() {
            return Ok(());
        }
        let room = (self.places.len() * 2).max(8);
        if u32::try_from(room).is_err() {
            return Err(AllocError);
        }
        self.places.resize(room, 0)?;
        self.places.fill(0);
        for number in 0..self.entries.len() {
            let hash = self.hash_builder.hash_one(self.entries[number].0);
            let place = self.place_of(hash, |_| false);
            self.places[place] = number as u32 + 1;
        }
        Ok(())
    }
}

/// A set.
pub struct IndexSet<T, S = BuildHasherDefault<FoldHasher>, A: Allocator = Global> {
    map: IndexMap<T, (), S, A>,
}

impl<T, S: Default, A: Allocator + Copy> IndexSet<T, S, A> {
    /// An empty set. The first value takes memory.
    pub fn new(alloc: A) -> IndexSet<T, S, A> {
        IndexSet {
            map: IndexMap::new(alloc),
        }
    }
}

impl<T: Copy + Eq + Hash, S: BuildHasher, A: Allocator> IndexSet<T, S, A> {
    /// Forgets all values, and keeps their room.
    pub fn clear(&mut self) {
        self.map.clear();
    }

    /// Adds a value. Whether it is new.
    pub fn insert(&mut self, value: T) -> Result<bool, AllocFailed<T>> {
        match self.map.insert(value, ()) {
            Ok(old) => Ok(old.is_none()),
            Err(AllocFailed((value, ()))) => Err(AllocFailed(value)),
        }
    }

    /// How many values there are.
    pub fn len(&self) -> usize {
        self.map.entries.len()
    }

    /// Returns whether there is no item.
    pub fn is_empty(&self) -> bool {
        self.len() == 0
    }

    /// The value after so many others.
    pub fn get_index(&self, index: usize) -> Option<&T> {
        Some(&self.map.entries.get(index)?.0)
    }

    /// How many values came before this one.
    pub fn get_index_of<Q: Equivalent<T>>(&self, value: Q) -> Option<usize> {
        self.map.get_index_of(value)
    }
}
