//! The functions of the C library and its memory, as a static library. It takes its memory of c/goblin_mach.c, as the proved
//! library does. With the profile `c` it doesn't need Rust's std. Other profiles unwind, for which the crate uses std: so it is compiled
//! together with the other packages, but tools/build-c makes the library by `c`.
#![cfg_attr(panic = "abort", no_std)]
#![deny(unsafe_code)]

extern crate alloc;

// Made of the sources in Rattle by tools/erase.
mod generated;
// Written by hand.
mod shim;
