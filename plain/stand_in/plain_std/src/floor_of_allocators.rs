//! What vectors and boxes stand on with the feature `allocator-api2`: those of that crate, whose
//! memory is an allocator's.
use core::alloc::Layout;
use core::mem::ManuallyDrop;
use core::ptr::NonNull;
use heap::vec;

pub use allocator_api2::alloc::{Allocator, Global};
pub use allocator_api2::boxed::Box;
pub use allocator_api2::vec::Vec;

/// Gives back the room that is left, unless that is refused.
pub fn shrink<T, A: Allocator>(vector: &mut Vec<T, A>) {
    let (length, room) = (vector.len(), vector.capacity());
    let (Ok(old), Ok(new)) = (Layout::array::<T>(room), Layout::array::<T>(length)) else {
        return;
    };
    if new.size() == 0 {
        vector.shrink_to_fit();
        return;
    }
    let Some(block) = NonNull::new(vector.as_mut_ptr().cast()) else {
        return;
    };
    // SAFETY: the block is that of the vector, and is left alone where this is refused.
    let smaller = match unsafe { vector.allocator().shrink(block, old, new) } {
        Ok(smaller) => smaller.cast().as_ptr(),
        Err(_) => return,
    };
    // SAFETY: the block became a smaller one with the same elements, of which the vector is made
    // again, with its own allocator. Nothing in between can panic.
    unsafe {
        let (_, _, _, alloc) = core::ptr::read(vector).into_raw_parts_with_alloc();
        let made = Vec::from_raw_parts_in(smaller, length, length, alloc);
        core::ptr::write(vector, made);
    }
}

/// A vector of Rust's own, with its elements where they are.
pub fn of_heap<T>(items: vec::Vec<T>) -> Vec<T, Global> {
    let mut items = ManuallyDrop::new(items);
    let (at, length, room) = (items.as_mut_ptr(), items.len(), items.capacity());
    // SAFETY: `Global` takes memory as a vector of Rust's own does, which doesn't free it.
    unsafe { Vec::from_raw_parts_in(at, length, room, Global) }
}

/// The elements as a vector of Rust's own. They are moved, as their memory may be another
/// allocator's.
pub fn to_heap<T, A: Allocator>(vector: Vec<T, A>) -> vec::Vec<T> {
    vector.into_iter().collect()
}

/// The value in memory of its own, or back where that is refused.
pub fn boxed<T, A: Allocator>(alloc: A, value: T) -> Result<Box<T, A>, T> {
    match Box::try_new_uninit_in(alloc) {
        Ok(room) => Ok(Box::write(room, value)),
        Err(_) => Err(value),
    }
}

/// Where the value is, which is to be freed by `from_raw`.
pub fn into_raw<T>(this: Box<T, Global>) -> *mut T {
    Box::into_raw(this)
}

/// The box of a value, which `into_raw` gave.
pub unsafe fn from_raw<T>(alloc: Global, at: *mut T) -> Box<T, Global> {
    // SAFETY: the caller's.
    unsafe { Box::from_raw_in(at, alloc) }
}
