#![doc = include_str!("../README.md")]
#![no_std]
#![deny(unsafe_code)]
#![cfg_attr(
    not(feature = "internals"),
    warn(missing_docs, missing_debug_implementations)
)]

#[cfg(not(target_pointer_width = "64"))]
compile_error!(
    "goblin_mach needs a usize of 64 bits: what is proved of its sources holds for that width"
);

extern crate alloc;
#[cfg(feature = "std")]
extern crate std;

// Written by hand.
mod facade;

// Written by hand: what the generated modules take of Rattle's standard library.
pub(crate) mod shim;
// Made of the sources in Rattle by tools/erase.
pub(crate) mod generated;

// What the feature `internals` lends to goblin_mach_tools and goblin_mach_capi. No part of it is promised to stay as it is.
#[cfg(feature = "internals")]
#[doc(hidden)]
pub use generated::internals;

#[cfg(test)]
mod tests;

#[cfg(feature = "resolve")]
pub use facade::resolve;
pub use facade::{Object, bytes, container, debug, error, mach};
#[cfg(feature = "archive")]
pub use generated::mach_archive as archive;
pub use generated::mach_command_fields as command_fields;
#[cfg(feature = "write")]
pub use generated::mach_fat_writer as write;
#[cfg(feature = "signature")]
pub use generated::mach_signature as signature;
pub use mach::*;
pub use shim::AllocError;

/// The rules of layout: which range of the file each part of an image claims, and each fault of the layout.
#[cfg(feature = "layout")]
pub mod layout {
    pub use crate::generated::mach_layout::*;
    pub use crate::mach::layout::*;
}

/// Verdicts on how an image is hardened. With the feature `audit` also whether a file is sound, and each of its faults.
#[cfg(feature = "signature")]
pub mod audit {
    pub use crate::facade::audit::security;
    pub use crate::generated::mach_audit::*;
}
