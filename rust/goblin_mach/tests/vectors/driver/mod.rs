//! Tries vectors on this crate, by its public calls.
// With the feature `internals` no type may grow, and the arm for other variants is never reached.
#![allow(unreachable_patterns)]

#[cfg(feature = "archive")]
mod archives;
#[cfg(feature = "audit")]
mod audited;
mod calls;
mod dyld;
mod files;
mod image;
#[cfg(feature = "layout")]
mod judged;
mod lines;
mod names;
mod outcome;
#[cfg(feature = "resolve")]
mod resolved;
#[cfg(feature = "signature")]
mod said;
#[cfg(feature = "signature")]
mod signed;
pub mod vector;
#[cfg(feature = "write")]
mod written;

pub use outcome::{Outcome, all_files, print_answers};
