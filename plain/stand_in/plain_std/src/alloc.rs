//! Allocators, boxes and vectors.
use crate::floor;
use core::error::Error;
use core::fmt;
use core::hash::{Hash, Hasher};
use core::ops::{Deref, DerefMut};
use heap::vec;

pub use crate::floor::{Allocator, Global};

/// The crate whose `Allocator` this one's is. Its `AllocError` is another one than ours.
#[cfg(feature = "allocator-api2")]
pub use allocator_api2;

/// Memory was refused.
#[derive(Clone, Copy, Debug, PartialEq, Eq)]
pub struct AllocError;

impl fmt::Display for AllocError {
    fn fmt(&self, f: &mut fmt::Formatter<'_>) -> fmt::Result {
        f.write_str("out of memory")
    }
}

impl Error for AllocError {}

#[cfg(feature = "allocator-api2")]
impl From<allocator_api2::alloc::AllocError> for AllocError {
    fn from(_refused: allocator_api2::alloc::AllocError) -> AllocError {
        AllocError
    }
}

/// Memory was refused for a value, which comes back.
#[derive(Clone, Copy, PartialEq, Eq)]
pub struct AllocFailed<T>(pub T);

impl<T> fmt::Debug for AllocFailed<T> {
    fn fmt(&self, f: &mut fmt::Formatter<'_>) -> fmt::Result {
        f.write_str("AllocFailed")
    }
}

impl<T> fmt::Display for AllocFailed<T> {
    fn fmt(&self, f: &mut fmt::Formatter<'_>) -> fmt::Result {
        AllocError.fmt(f)
    }
}

impl<T> Error for AllocFailed<T> {}

impl<T> From<AllocFailed<T>> for AllocError {
    fn from(_refused: AllocFailed<T>) -> AllocError {
        AllocError
    }
}

/// What may be let go: in Rust each value.
pub trait Drop: Sized {}

impl<T> Drop for T {}

/// A copy, for which memory may be refused. Rattle calls it `clone`.
pub trait Clone: Sized {
    /// The copy.
    fn try_clone(&self) -> Result<Self, AllocError>;
}

impl<T: Copy> Clone for T {
    fn try_clone(&self) -> Result<T, AllocError> {
        Ok(*self)
    }
}

/// A value in memory of its own.
pub struct Box<T: ?Sized, A: Allocator = Global>(floor::Box<T, A>);

impl<T, A: Allocator> Box<T, A> {
    /// The value in memory of its own, or back where that is refused.
    pub fn new(alloc: A, value: T) -> Result<Box<T, A>, AllocFailed<T>> {
        floor::boxed(alloc, value).map(Box).map_err(AllocFailed)
    }
}

impl<T> Box<T> {
    /// Where the value is, which is to be freed by `from_raw`.
    pub fn into_raw(this: Box<T>) -> *mut T {
        floor::into_raw(this.0)
    }

    /// The box of a value.
    ///
    /// # Safety
    /// The pointer is one that `into_raw` gave, and comes back once.
    pub unsafe fn from_raw(alloc: Global, at: *mut T) -> Box<T> {
        // SAFETY: as said above.
        Box(unsafe { floor::from_raw(alloc, at) })
    }
}

impl<T: ?Sized, A: Allocator> Box<T, A> {
    /// The allocator.
    pub fn allocator(this: &Box<T, A>) -> &A {
        floor::Box::allocator(&this.0)
    }
}

impl<T: ?Sized, A: Allocator> Deref for Box<T, A> {
    type Target = T;

    fn deref(&self) -> &T {
        &self.0
    }
}

impl<T: ?Sized, A: Allocator> DerefMut for Box<T, A> {
    fn deref_mut(&mut self) -> &mut T {
        &mut self.0
    }
}

/// Texts in small letters. Rust's slices have `to_ascii_lowercase`, which is handed no allocator.
pub trait Lowercase {
    /// The same text with small letters in place of capitals.
    fn to_ascii_lowercase_in<A: Allocator>(&self, alloc: A) -> Result<Vec<u8, A>, AllocError>;
}

impl Lowercase for [u8] {
    fn to_ascii_lowercase_in<A: Allocator>(&self, alloc: A) -> Result<Vec<u8, A>, AllocError> {
        let mut made = Vec::from_slice(alloc, self)?;
        made.make_ascii_lowercase();
        Ok(made)
    }
}

/// A vector.
pub struct Vec<T, A: Allocator = Global> {
    items: floor::Vec<T, A>,
}

impl<T, A: Allocator> Vec<T, A> {
    /// A vector of nothing.
    pub const fn new(alloc: A) -> Vec<T, A> {
        Vec {
            items: floor::Vec::new_in(alloc),
        }
    }

    /// A vector of nothing, with room.
    pub fn with_capacity(alloc: A, room: usize) -> Result<Vec<T, A>, AllocError> {
        let mut made = Vec::new(alloc);
        made.items.try_reserve_exact(room).map_err(|_| AllocError)?;
        Ok(made)
    }

    /// Gives back the room that is left, unless that is refused.
    pub fn shrink_to_fit(&mut self) {
        floor::shrink(&mut self.items);
    }

    /// The allocator.
    pub fn allocator(&self) -> &A {
        self.items.allocator()
    }

    /// The elements.
    pub fn as_slice(&self) -> &[T] {
        &self.items
    }

    /// The elements.
    pub fn as_mut_slice(&mut self) -> &mut [T] {
        &mut self.items
    }

    /// How many elements there is room for.
    pub fn capacity(&self) -> usize {
        self.items.capacity()
    }

    /// Room for more elements.
    pub fn reserve(&mut self, room: usize) -> Result<(), AllocError> {
        self.items.try_reserve(room).map_err(|_| AllocError)
    }

    /// One element more, or back where memory is refused.
    pub fn push(&mut self, item: T) -> Result<(), AllocFailed<T>> {
        if self.items.len() == self.items.capacity() && self.items.try_reserve(1).is_err() {
            return Err(AllocFailed(item));
        }
        self.items.push(item);
        Ok(())
    }

    /// One element more, for which there is room.
    pub fn push_reserved(&mut self, item: T) {
        self.items.push(item);
    }

    /// The last element.
    pub fn pop(&mut self) -> Option<T> {
        self.items.pop()
    }

    /// Takes the elements away but the first of them, this many.
    pub fn truncate(&mut self, length: usize) {
        self.items.truncate(length);
    }

    /// Takes the elements away.
    pub fn clear(&mut self) {
        self.items.clear();
    }
}

impl<T: Copy, A: Allocator> Vec<T, A> {
    /// A vector of these elements.
    pub fn from_slice(alloc: A, items: &[T]) -> Result<Vec<T, A>, AllocError> {
        let mut made = Vec::with_capacity(alloc, items.len())?;
        made.items.extend_from_slice(items);
        Ok(made)
    }

    /// These elements more.
    pub fn extend_from_slice(&mut self, items: &[T]) -> Result<(), AllocError> {
        self.reserve(items.len())?;
        self.items.extend_from_slice(items);
        Ok(())
    }

    /// This many elements, by cutting or by more of this one.
    pub fn resize(&mut self, length: usize, item: T) -> Result<(), AllocError> {
        self.reserve(length.saturating_sub(self.items.len()))?;
        self.items.resize(length, item);
        Ok(())
    }
}

impl<T, A: Allocator> Deref for Vec<T, A> {
    type Target = [T];

    fn deref(&self) -> &[T] {
        &self.items
    }
}

impl<T, A: Allocator> DerefMut for Vec<T, A> {
    fn deref_mut(&mut self) -> &mut [T] {
        &mut self.items
    }
}

impl<T, A: Allocator> AsRef<[T]> for Vec<T, A> {
    fn as_ref(&self) -> &[T] {
        self
    }
}

impl<T, A: Allocator> IntoIterator for Vec<T, A> {
    type Item = T;
    type IntoIter = <floor::Vec<T, A> as IntoIterator>::IntoIter;

    fn into_iter(self) -> Self::IntoIter {
        self.items.into_iter()
    }
}

impl<'a, T, A: Allocator> IntoIterator for &'a Vec<T, A> {
    type Item = &'a T;
    type IntoIter = core::slice::Iter<'a, T>;

    fn into_iter(self) -> core::slice::Iter<'a, T> {
        self.items.iter()
    }
}

impl<'a, T, A: Allocator> IntoIterator for &'a mut Vec<T, A> {
    type Item = &'a mut T;
    type IntoIter = core::slice::IterMut<'a, T>;

    fn into_iter(self) -> core::slice::IterMut<'a, T> {
        self.items.iter_mut()
    }
}

/// The elements of a vector of Rust's own, without a copy.
impl<T> From<vec::Vec<T>> for Vec<T> {
    fn from(items: vec::Vec<T>) -> Vec<T> {
        Vec {
            items: floor::of_heap(items),
        }
    }
}

/// The elements as a vector of Rust's own: without a copy, but with the feature `allocator-api2`.
impl<T, A: Allocator> From<Vec<T, A>> for vec::Vec<T> {
    fn from(vector: Vec<T, A>) -> vec::Vec<T> {
        floor::to_heap(vector.items)
    }
}

impl<T: PartialEq, A: Allocator> PartialEq<[T]> for Vec<T, A> {
    fn eq(&self, other: &[T]) -> bool {
        self.as_slice() == other
    }
}

impl<T: PartialEq, A: Allocator, const N: usize> PartialEq<[T; N]> for Vec<T, A> {
    fn eq(&self, other: &[T; N]) -> bool {
        self.as_slice() == other
    }
}

/// Vectors and boxes are compared, hashed and printed as what they hold.
impl<T: PartialEq, A: Allocator> PartialEq for Vec<T, A> {
    fn eq(&self, other: &Vec<T, A>) -> bool {
        self.as_slice() == other.as_slice()
    }
}

impl<T: Eq, A: Allocator> Eq for Vec<T, A> {}

impl<T: Hash, A: Allocator> Hash for Vec<T, A> {
    fn hash<H: Hasher>(&self, state: &mut H) {
        self.as_slice().hash(state);
    }
}

impl<T: fmt::Debug, A: Allocator> fmt::Debug for Vec<T, A> {
    fn fmt(&self, f: &mut fmt::Formatter<'_>) -> fmt::Result {
        self.as_slice().fmt(f)
    }
}

impl<T: ?Sized + PartialEq, A: Allocator> PartialEq for Box<T, A> {
    fn eq(&self, other: &Box<T, A>) -> bool {
        **self == **other
    }
}

impl<T: ?Sized + Eq, A: Allocator> Eq for Box<T, A> {}

impl<T: ?Sized + Hash, A: Allocator> Hash for Box<T, A> {
    fn hash<H: Hasher>(&self, state: &mut H) {
        (**self).hash(state);
    }
}

impl<T: ?Sized + fmt::Debug, A: Allocator> fmt::Debug for Box<T, A> {
    fn fmt(&self, f: &mut fmt::Formatter<'_>) -> fmt::Result {
        (**self).fmt(f)
    }
}

/// Rust's own traits, whose calls take memory that can't be refused: they end the process there.
impl<T: core::clone::Clone, A: Allocator + core::clone::Clone> core::clone::Clone for Vec<T, A> {
    fn clone(&self) -> Vec<T, A> {
        Vec {
            items: core::clone::Clone::clone(&self.items),
        }
    }
}

impl<T: core::clone::Clone, A: Allocator + core::clone::Clone> core::clone::Clone for Box<T, A> {
    fn clone(&self) -> Box<T, A> {
        Box(core::clone::Clone::clone(&self.0))
    }
}

impl<T> FromIterator<T> for Vec<T> {
    fn from_iter<I: IntoIterator<Item = T>>(items: I) -> Vec<T> {
        vec::Vec::from_iter(items).into()
    }
}

impl<T, A: Allocator> Extend<T> for Vec<T, A> {
    fn extend<I: IntoIterator<Item = T>>(&mut self, items: I) {
        self.items.extend(items);
    }
}

impl<T> Default for Vec<T> {
    fn default() -> Vec<T> {
        Vec::new(Global)
    }
}
