//! Methods on slices that read and write values at an offset: those of the crate scroll, by its names.
//!
//! ```
//! use goblin_mach::bytes::{LE, Pread, Pwrite};
//! use goblin_mach::mach::symbols::Nlist64;
//!
//! let mut bytes = [7; 24];
//! let symbol: Nlist64 = bytes.pread_with(8, LE)?;
//! assert_eq!(symbol.n_strx, 0x0707_0707);
//! bytes.pwrite_with(5u16, 0, LE)?;
//! assert_eq!(bytes.pread_with::<u32>(0, LE)?, 0x0707_0005);
//! # Ok::<(), goblin_mach::Error>(())
//! ```
use crate::generated::mach_base::{self as proved, RecordBytes, array_at, bytes_at};
use crate::mach::{Error, Record, Result, ScrollError};
use crate::shim::Inner;
use core::result::Result as Or;

pub use crate::mach::{
    BE, Endian, IntoCtx, LE, SizeWith, Sleb128, TryFromCtx, TryIntoCtx, Uleb128,
};

/// The byte order of this processor.
pub const NATIVE: Endian = if cfg!(target_endian = "little") {
    LE
} else {
    BE
};

/// Reads values at an offset.
pub trait Pread<C, E> {
    /// Reads a value in a context.
    fn pread_with<'a, T: TryFromCtx<'a, C, Error = E>>(&'a self, at: usize, ctx: C) -> Or<T, E>;

    /// Reads a value in a context, and moves the offset to the value's end.
    fn gread_with<'a, T: TryFromCtx<'a, C, Error = E>>(
        &'a self,
        at: &mut usize,
        ctx: C,
    ) -> Or<T, E>;

    /// Reads a value in the default context.
    fn pread<'a, T: TryFromCtx<'a, C, Error = E>>(&'a self, at: usize) -> Or<T, E>
    where
        C: Default,
    {
        self.pread_with(at, C::default())
    }

    /// Reads a value in the default context, and moves the offset to the value's end.
    fn gread<'a, T: TryFromCtx<'a, C, Error = E>>(&'a self, at: &mut usize) -> Or<T, E>
    where
        C: Default,
    {
        self.gread_with(at, C::default())
    }
}

impl<C, E: From<Error>> Pread<C, E> for [u8] {
    fn pread_with<'a, T: TryFromCtx<'a, C, Error = E>>(&'a self, at: usize, ctx: C) -> Or<T, E> {
        proved::pread_with(self, at, ctx)
    }

    fn gread_with<'a, T: TryFromCtx<'a, C, Error = E>>(
        &'a self,
        at: &mut usize,
        ctx: C,
    ) -> Or<T, E> {
        proved::gread_with(self, at, ctx)
    }
}

/// Writes values at an offset.
pub trait Pwrite<C> {
    /// Writes a value in a context. Returns how many bytes were written.
    fn pwrite_with<T: TryIntoCtx<C>>(&mut self, value: T, at: usize, ctx: C) -> Result<usize>;

    /// Writes a value in a context, and moves the offset to the value's end.
    fn gwrite_with<T: TryIntoCtx<C>>(&mut self, value: T, at: &mut usize, ctx: C) -> Result<usize> {
        let written = self.pwrite_with(value, *at, ctx)?;
        *at += written;
        Ok(written)
    }
}

impl<C> Pwrite<C> for [u8] {
    fn pwrite_with<T: TryIntoCtx<C>>(&mut self, value: T, at: usize, ctx: C) -> Result<usize> {
        proved::pwrite_with(self, value, at, ctx)
    }
}

macro_rules! numbers {
    ($($kind:ident)*) => {$(
        impl Record for $kind {
            const SIZE: usize = size_of::<$kind>();

            fn load(bytes: &[u8], le: Endian, _: Inner) -> $kind {
                let bytes = array_at(bytes, 0);
                if le.is_little() { $kind::from_le_bytes(bytes) } else { $kind::from_be_bytes(bytes) }
            }

            fn store(self, le: Endian) -> RecordBytes {
                let bytes = if le.is_little() { self.to_le_bytes() } else { self.to_be_bytes() };
                RecordBytes::new().bytes(&bytes)
            }
        }
    )*};
}

numbers!(u8 u16 u32 u64 i8 i16 i32 i64);

/// Where a text ends.
#[derive(Clone, Copy, Debug)]
pub enum StrCtx {
    /// Before the first such byte, or at the end.
    Delimiter(u8),
    /// Before the first such byte, or after so many bytes.
    DelimiterUntil(u8, usize),
    /// After so many bytes.
    Length(usize),
}

impl Default for StrCtx {
    fn default() -> StrCtx {
        StrCtx::Delimiter(0)
    }
}

impl<'a> TryFromCtx<'a, StrCtx> for &'a str {
    type Error = Error;

    fn try_from_ctx(bytes: &'a [u8], ctx: StrCtx) -> Result<(&'a str, usize)> {
        let before = |stop, held: &[u8]| held.iter().take_while(|byte| **byte != stop).count();
        let (len, after) = match ctx {
            StrCtx::Delimiter(stop) => (before(stop, bytes), 1),
            StrCtx::DelimiterUntil(stop, most) => (before(stop, bytes_at(bytes, 0, most)?), 1),
            StrCtx::Length(len) => (len, 0),
        };
        let (size, msg) = (bytes.len(), "a text is not UTF-8");
        match core::str::from_utf8(bytes_at(bytes, 0, len)?) {
            Ok(text) => Ok((text, len + after)),
            Err(_) => Err(ScrollError::BadInput { size, msg }.into()),
        }
    }
}

impl<'a> TryFromCtx<'a, usize> for &'a [u8] {
    type Error = Error;

    fn try_from_ctx(bytes: &'a [u8], len: usize) -> Result<(&'a [u8], usize)> {
        Ok((bytes_at(bytes, 0, len)?, len))
    }
}
