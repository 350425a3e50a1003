//! What the generated modules take of Rattle's standard library, the functions that C calls, and their memory. Written by hand. All
//! `unsafe` code of the crate is here.
pub(crate) mod arrayvec;
mod c;
#[cfg(not(test))]
mod memory;
