//! What vectors and boxes stand on: those of Rust's `alloc`, beside an allocator that says nothing.
use core::alloc::Layout;
use core::mem::ManuallyDrop;
use core::ops::{Deref, DerefMut};
use heap::vec;

mod sealed {
    pub trait Sealed {}

    impl Sealed for super::Global {}

    impl<A: super::Allocator> Sealed for &A {}
}

/// What hands out memory. Here all of it comes from Rust's global allocator, and nothing else can
/// be one: with the feature `allocator-api2` this is the trait of that crate.
pub trait Allocator: sealed::Sealed {}

/// Rust's global allocator.
#[derive(Clone, Copy, Debug, Default, PartialEq, Eq)]
pub struct Global;

impl Allocator for Global {}

impl<A: Allocator> Allocator for &A {}

/// A vector of `alloc`, and an allocator.
#[derive(Clone)]
pub struct Vec<T, A> {
    alloc: A,
    items: vec::Vec<T>,
}

impl<T, A> Vec<T, A> {
    pub const fn new_in(alloc: A) -> Vec<T, A> {
        Vec {
            alloc,
            items: vec::Vec::new(),
        }
    }

    pub fn allocator(&self) -> &A {
        &self.alloc
    }
}

impl<T, A> Deref for Vec<T, A> {
    type Target = vec::Vec<T>;

    fn deref(&self) -> &vec::Vec<T> {
        &self.items
    }
}

impl<T, A> DerefMut for Vec<T, A> {
    fn deref_mut(&mut self) -> &mut vec::Vec<T> {
        &mut self.items
    }
}

impl<T, A> IntoIterator for Vec<T, A> {
    type Item = T;
    type IntoIter = vec::IntoIter<T>;

    fn into_iter(self) -> vec::IntoIter<T> {
        self.items.into_iter()
    }
}

/// Gives back the room that is left, unless that is refused.
pub fn shrink<T, A>(vector: &mut Vec<T, A>) {
    let (length, room) = (vector.items.len(), vector.items.capacity());
    let (Ok(old), Ok(new)) = (Layout::array::<T>(room), Layout::array::<T>(length)) else {
        return;
    };
    if new.size() == 0 {
        vector.items.shrink_to_fit();
    } else if new.size() < old.size() {
        let mut items = ManuallyDrop::new(core::mem::take(&mut vector.items));
        let at = items.as_mut_ptr();
        // SAFETY: the block is that of the vector, which is made again of what it became: a
        // smaller one with the same elements, or, where that is refused, the same one.
        vector.items = unsafe {
            match heap::alloc::realloc(at.cast(), old, new.size()).cast::<T>() {
                smaller if smaller.is_null() => vec::Vec::from_raw_parts(at, length, room),
                smaller => vec::Vec::from_raw_parts(smaller, length, length),
            }
        };
    }
}

/// A vector of Rust's own, with its elements where they are.
pub fn of_heap<T>(items: vec::Vec<T>) -> Vec<T, Global> {
    let alloc = Global;
    Vec { alloc, items }
}

/// The elements, where they are, as a vector of Rust's own.
pub fn to_heap<T, A>(vector: Vec<T, A>) -> vec::Vec<T> {
    vector.items
}

/// A box of `alloc`, and an allocator.
#[derive(Clone)]
pub struct Box<T: ?Sized, A> {
    alloc: A,
    value: heap::boxed::Box<T>,
}

impl<T: ?Sized, A> Box<T, A> {
    pub fn allocator(this: &Box<T, A>) -> &A {
        &this.alloc
    }
}

impl<T: ?Sized, A> Deref for Box<T, A> {
    type Target = T;

    fn deref(&self) -> &T {
        &self.value
    }
}

impl<T: ?Sized, A> DerefMut for Box<T, A> {
    fn deref_mut(&mut self) -> &mut T {
        &mut self.value
    }
}

/// The value in memory of its own, or back where that is refused.
pub fn boxed<T, A>(alloc: A, value: T) -> Result<Box<T, A>, T> {
    let layout = Layout::new::<T>();
    if layout.size() == 0 {
        let value = heap::boxed::Box::new(value);
        return Ok(Box { alloc, value });
    }
    // SAFETY: the layout has bytes; the pointer is to memory of this layout, which is written
    // before it is a box.
    let value = unsafe {
        let at = heap::alloc::alloc(layout).cast::<T>();
        if at.is_null() {
            return Err(value);
        }
        at.write(value);
        heap::boxed::Box::from_raw(at)
    };
    Ok(Box { alloc, value })
}

/// Where the value is, which is to be freed by `from_raw`.
pub fn into_raw<T>(this: Box<T, Global>) -> *mut T {
    heap::boxed::Box::into_raw(this.value)
}

/// The box of a value, which `into_raw` gave.
pub unsafe fn from_raw<T>(alloc: Global, at: *mut T) -> Box<T, Global> {
    // SAFETY: the caller's.
    let value = unsafe { heap::boxed::Box::from_raw(at) };
    Box { alloc, value }
}
