//! The device, for C: `dvg_new` makes one, `dvg_turn` asks it, `dvg_free` frees it.
//!
//! What C owes, as nothing checks it: it hands `dvg_turn` and `dvg_free` a pointer that `dvg_new`
//! wrote and that it hasn't freed, and gives one device to one call at a time. What `out` points to
//! holds a pointer, as null, before the call. A `Global` takes no bytes, so C passes nothing for
//! one.
#![no_std]

extern crate plain_std as std;

use std::prelude::*;

use dvg_device::Device;
use std::alloc::Global;

/// What C sees of a device: no more than where it lies.
#[repr(C)]
pub struct Handle {
    unused: u8,
}

/// Makes a device, and hands it to C. Returns 0 after writing the device's pointer to `out`, or 2
/// where an allocation fails, and then `out` is as it was. Memory is taken from `alloc`.
#[unsafe(no_mangle)]
pub extern "C" fn dvg_new(alloc: Global, out: &mut *mut Handle) -> u32 {
    match made(alloc) {
        Some(device) => {
            *out = Box::into_raw(device) as *mut Handle;
            0
        }
        None => 2,
    }
}

// Returns a new device in a box of its own, in memory of `alloc`, or `None` where an allocation
// fails.
fn made(alloc: Global) -> Option<Box<Device>> {
    Box::new(alloc, Device::new(alloc)).ok()
}

/// Lets the device at `at` do `request`, and returns the number of the reply.
#[unsafe(no_mangle)]
pub unsafe extern "C" fn dvg_turn(at: *mut Handle, request: u64) -> u64 {
    (*(at as *mut Device)).turn(request)
}

/// Frees the device at `at`, with all that it has. Its memory goes back to `alloc`.
#[unsafe(no_mangle)]
pub unsafe extern "C" fn dvg_free(alloc: Global, at: *mut Handle) {
    freed(Box::from_raw(alloc, at as *mut Device));
}

// Drops `_device`, the box.
fn freed(_device: Box<Device>) {}
