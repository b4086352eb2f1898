//! A library for C stands on no `std`: it takes memory by the three functions of
//! `include/dvg_heap.h`, and a panic ends the process. No call of the library panics.
use core::alloc::{GlobalAlloc, Layout};
use core::ffi::c_void;
use core::panic::PanicInfo;
use core::ptr::null_mut;

/// A block of memory, or that it was refused: `dvg_block` of `include/dvg_heap.h`.
#[repr(C)]
struct Block {
    ok: bool,
    block: *mut c_void,
}

unsafe extern "C" {
    fn rattle_alloc(bytes: usize, align: usize) -> Block;
    fn rattle_realloc(old: *mut c_void, kept: usize, bytes: usize, align: usize) -> Block;
    fn rattle_dealloc(block: *mut c_void);
    fn abort() -> !;
}

impl Block {
    /// Where it is; null where it was refused.
    fn place(self) -> *mut u8 {
        if self.ok {
            self.block.cast()
        } else {
            null_mut()
        }
    }
}

/// The heap of the program that the library is linked into.
struct Heap;

// SAFETY: the functions are those of `include/dvg_heap.h`, which says what they owe.
unsafe impl GlobalAlloc for Heap {
    unsafe fn alloc(&self, layout: Layout) -> *mut u8 {
        // SAFETY: a layout has a size and an alignment that can be had.
        unsafe { rattle_alloc(layout.size(), layout.align()).place() }
    }

    unsafe fn dealloc(&self, block: *mut u8, _layout: Layout) {
        // SAFETY: the block is one that this heap gave.
        unsafe { rattle_dealloc(block.cast()) }
    }

    unsafe fn realloc(&self, block: *mut u8, layout: Layout, bytes: usize) -> *mut u8 {
        let kept = layout.size().min(bytes);
        // SAFETY: the block is one that this heap gave, of this layout.
        unsafe { rattle_realloc(block.cast(), kept, bytes, layout.align()).place() }
    }
}

#[global_allocator]
static HEAP: Heap = Heap;

#[panic_handler]
fn panic(_info: &PanicInfo<'_>) -> ! {
    // SAFETY: C's `abort` may be called at any time.
    unsafe { abort() }
}
