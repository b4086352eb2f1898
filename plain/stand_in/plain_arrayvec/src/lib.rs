//! What the sources use of `arrayvec`: a vector of at most this many elements, in an array.
#![no_std]

use core::mem::MaybeUninit;
use core::ops::{Deref, DerefMut};

/// There is no room.
#[derive(Clone, Copy, Debug, PartialEq, Eq)]
pub struct CapacityError<T = ()>(pub T);

/// A vector of at most `N` elements that are copied freely.
#[derive(Clone, Copy)]
pub struct ArrayVec<T: Copy, const N: usize> {
    len: usize,
    at: [MaybeUninit<T>; N],
}

impl<T: Copy, const N: usize> Default for ArrayVec<T, N> {
    fn default() -> ArrayVec<T, N> {
        ArrayVec::new()
    }
}

impl<T: Copy, const N: usize> ArrayVec<T, N> {
    /// A vector of nothing.
    pub const fn new() -> ArrayVec<T, N> {
        ArrayVec {
            len: 0,
            at: [MaybeUninit::uninit(); N],
        }
    }

    /// Whether it has its most elements.
    pub fn is_full(&self) -> bool {
        self.len == N
    }

    /// For how many elements more there is room.
    pub fn remaining_capacity(&self) -> usize {
        N - self.len
    }

    /// One element more, or back where there is no room.
    pub fn try_push(&mut self, item: T) -> Result<(), CapacityError<T>> {
        if self.len == N {
            return Err(CapacityError(item));
        }
        self.at[self.len] = MaybeUninit::new(item);
        self.len += 1;
        Ok(())
    }

    /// One element more. Panics where there is no room.
    pub fn push(&mut self, item: T) {
        assert!(self.try_push(item).is_ok());
    }

    /// The last element, taken away.
    pub fn pop(&mut self) -> Option<T> {
        self.len = self.len.checked_sub(1)?;
        // SAFETY: the elements below the length before were put in.
        Some(unsafe { self.at[self.len].assume_init() })
    }

    /// Takes the elements away.
    pub fn clear(&mut self) {
        self.len = 0;
    }

    /// The elements.
    pub fn as_slice(&self) -> &[T] {
        // SAFETY: the elements below the length were put in.
        unsafe { core::slice::from_raw_parts(self.at.as_ptr().cast(), self.len) }
    }

    /// The elements.
    pub fn as_mut_slice(&mut self) -> &mut [T] {
        // SAFETY: as above.
        unsafe { core::slice::from_raw_parts_mut(self.at.as_mut_ptr().cast(), self.len) }
    }

    /// These elements more, or none where there is no room for all.
    pub fn try_extend_from_slice(&mut self, items: &[T]) -> Result<(), CapacityError> {
        if N - self.len < items.len() {
            return Err(CapacityError(()));
        }
        for (place, item) in self.at[self.len..].iter_mut().zip(items) {
            *place = MaybeUninit::new(*item);
        }
        self.len += items.len();
        Ok(())
    }
}

impl<T: Copy, const N: usize> ArrayVec<T, N> {
    /// These elements more, or those for which there is room and an error.
    pub fn extend<I: IntoIterator<Item = T>>(&mut self, items: I) -> Result<(), CapacityError<T>> {
        for item in items {
            self.try_push(item)?;
        }
        Ok(())
    }
}

impl<T: Copy, const N: usize> Deref for ArrayVec<T, N> {
    type Target = [T];

    fn deref(&self) -> &[T] {
        self.as_slice()
    }
}

impl<T: Copy, const N: usize> DerefMut for ArrayVec<T, N> {
    fn deref_mut(&mut self) -> &mut [T] {
        self.as_mut_slice()
    }
}

impl<T: Copy + core::fmt::Debug, const N: usize> core::fmt::Debug for ArrayVec<T, N> {
    fn fmt(&self, f: &mut core::fmt::Formatter<'_>) -> core::fmt::Result {
        self.as_slice().fmt(f)
    }
}

impl<T: Copy + PartialEq, const N: usize> PartialEq for ArrayVec<T, N> {
    fn eq(&self, other: &ArrayVec<T, N>) -> bool {
        self.as_slice() == other.as_slice()
    }
}

impl<T: Copy + Eq, const N: usize> Eq for ArrayVec<T, N> {}

impl<T: Copy + core::hash::Hash, const N: usize> core::hash::Hash for ArrayVec<T, N> {
    fn hash<H: core::hash::Hasher>(&self, state: &mut H) {
        self.as_slice().hash(state);
    }
}

impl<'a, T: Copy, const N: usize> IntoIterator for &'a ArrayVec<T, N> {
    type Item = &'a T;
    type IntoIter = core::slice::Iter<'a, T>;

    fn into_iter(self) -> core::slice::Iter<'a, T> {
        self.as_slice().iter()
    }
}
