//! Nothing. It is in this workspace's Cargo.lock, and is never built.
#![no_std]

compile_error!("a crate of your own that asks for this feature takes the real serde");
