//! What the sources use of Rattle's standard library, over Rust's. Tested, not proved.
//!
//! A call that takes memory is handed an allocator and answers a `Result`. All memory comes from
//! Rust's global allocator, or, with the feature `allocator-api2`, from the one that is handed
//! over. `core` and `alloc` are enough. The feature `io` adds readers and writers, and needs Rust's
//! own `std`; `program` adds a program's streams and words; `c` adds what a library for C needs
//! where `io` isn't there; `serde` has vectors and boxes written and read by that crate.
#![no_std]

extern crate alloc as heap;
#[cfg(feature = "io")]
extern crate std as host;

pub mod alloc;
#[cfg(all(feature = "c", not(feature = "io")))]
mod c;
#[cfg(not(feature = "allocator-api2"))]
mod floor;
#[cfg(feature = "allocator-api2")]
#[path = "floor_of_allocators.rs"]
mod floor;
pub mod hash;
#[cfg(feature = "io")]
pub mod io;
#[cfg(feature = "program")]
pub mod runtime;
#[cfg(feature = "serde")]
mod serde_forms;
#[cfg(feature = "program")]
pub mod time;

pub use core::{convert, fmt, iter, marker, mem, slice, str};
#[cfg(feature = "program")]
pub use host::process;
#[cfg(feature = "program")]
pub use runtime::env;

/// The names that each Rattle source has without a `use`.
pub mod prelude {
    pub use crate::alloc::{Box, Clone, Drop, Lowercase, Vec};
    #[cfg(feature = "program")]
    pub use crate::runtime::HostRuntime;
    pub use heap::string::String;
}
