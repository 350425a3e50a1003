//! What the generated modules take of Rattle's standard library and Rust's doesn't have, or has in another form. Written by
//! hand. All `unsafe` code of the crate is here. Nothing here was proved; the tests of this module test it.
// What no other module uses if features are off.
#![cfg_attr(
    not(all(
        feature = "layout",
        feature = "signature",
        feature = "write",
        feature = "internals"
    )),
    allow(dead_code, unused_imports)
)]

#[cfg(feature = "resolve")]
pub mod indexmap;
mod map;

pub mod byteorder;
pub mod shown;
pub mod simd;

use alloc::collections::TryReserveError;
use alloc::string::String;
use alloc::vec::Vec;
use core::fmt;

pub use map::BTreeMap;
pub(crate) use shown::shown;

/// An argument that only this crate can make, of methods of traits that have conditions on their callers.
#[derive(Clone, Copy, Debug)]
pub struct Inner(pub(crate) ());

/// A method that has conditions on its callers. Only this crate calls it, and by the feature `internals` the crates over it.
#[cfg(not(feature = "internals"))]
macro_rules! inner {
    ($(#[$about:meta])* fn $($rest:tt)*) => { $(#[$about])* pub(crate) fn $($rest)* };
}

/// A method that has conditions on its callers.
#[cfg(feature = "internals")]
macro_rules! inner {
    ($(#[$about:meta])* fn $($rest:tt)*) => { $(#[$about])* #[doc(hidden)] pub fn $($rest)* };
}

pub(crate) use inner;

/// What this crate reads in a byte order. With the feature `scroll` the byte order is a type of scroll, which has no such methods.
pub trait ReadsNumbers {
    fn u16(self, bytes: &[u8]) -> u16;
    fn u32(self, bytes: &[u8]) -> u32;
    fn u64(self, bytes: &[u8]) -> u64;
    fn u8_at(self, bytes: &[u8], place: usize) -> u8;
    fn u16_at(self, bytes: &[u8], place: usize) -> u16;
    fn u32_at(self, bytes: &[u8], place: usize) -> u32;
    fn u64_at(self, bytes: &[u8], place: usize) -> u64;
}

/// Memory was refused.
#[derive(Clone, Copy, Debug, PartialEq, Eq, Hash)]
pub struct AllocError;

impl fmt::Display for AllocError {
    fn fmt(&self, f: &mut fmt::Formatter<'_>) -> fmt::Result {
        f.write_str("out of memory")
    }
}

impl core::error::Error for AllocError {}

impl From<TryReserveError> for AllocError {
    #[cold]
    fn from(_: TryReserveError) -> AllocError {
        AllocError
    }
}

/// A vector that grows, or is refused memory and stays unchanged.
pub trait TryGrow<T> {
    fn try_push(&mut self, item: T) -> Result<(), AllocError>;
    fn try_insert(&mut self, index: usize, item: T) -> Result<(), AllocError>;
    fn try_room(&mut self, more: usize) -> Result<(), AllocError>;
    fn push_reserved(&mut self, item: T);
    fn try_append(&mut self, more: &mut Vec<T>) -> Result<(), AllocError>;
    fn try_extend_from_slice(&mut self, items: &[T]) -> Result<(), AllocError>
    where
        T: Copy;
    fn try_resize(&mut self, len: usize, item: T) -> Result<(), AllocError>
    where
        T: Copy;
}

impl<T> TryGrow<T> for Vec<T> {
    #[inline(always)]
    fn try_push(&mut self, item: T) -> Result<(), AllocError> {
        if self.len() == self.capacity() {
            self.try_reserve(1)?;
        }
        self.push(item);
        Ok(())
    }

    fn try_insert(&mut self, index: usize, item: T) -> Result<(), AllocError> {
        self.try_reserve(1)?;
        self.insert(index, item);
        Ok(())
    }

    #[inline(always)]
    fn try_room(&mut self, more: usize) -> Result<(), AllocError> {
        Ok(self.try_reserve(more)?)
    }

    #[inline(always)]
    fn push_reserved(&mut self, item: T) {
        self.push(item);
    }

    fn try_append(&mut self, more: &mut Vec<T>) -> Result<(), AllocError> {
        self.try_reserve(more.len())?;
        self.append(more);
        Ok(())
    }

    #[inline(always)]
    fn try_extend_from_slice(&mut self, items: &[T]) -> Result<(), AllocError>
    where
        T: Copy,
    {
        self.try_reserve(items.len())?;
        self.extend_from_slice(items);
        Ok(())
    }

    fn try_resize(&mut self, len: usize, item: T) -> Result<(), AllocError>
    where
        T: Copy,
    {
        self.try_reserve(len.saturating_sub(self.len()))?;
        self.resize(len, item);
        Ok(())
    }
}

/// A stable sort that may be refused memory, and then leaves the items in their order.
pub trait TrySort<T> {
    fn try_sort_by_key<K: Ord>(&mut self, key: impl FnMut(&T) -> K) -> Result<(), AllocError>;

    fn try_sort_by_cached_key<K: Ord>(
        &mut self,
        key: impl FnMut(&T) -> K,
    ) -> Result<(), AllocError> {
        self.try_sort_by_key(key)
    }
}

impl<T> TrySort<T> for [T] {
    fn try_sort_by_key<K: Ord>(&mut self, mut key: impl FnMut(&T) -> K) -> Result<(), AllocError> {
        let mut order = Vec::new();
        order.try_reserve_exact(self.len())?;
        order.extend(
            self.iter()
                .enumerate()
                .map(|(index, item)| (key(item), index)),
        );
        order.sort_unstable();
        for at in 0..self.len() {
            // What was at this index has been swapped to where the order of that place says.
            let mut from = order[at].1;
            while from < at {
                from = order[from].1;
            }
            order[at].1 = from;
            self.swap(at, from);
        }
        Ok(())
    }
}

/// `collect(alloc)?` into a vector.
pub trait TryList: Iterator + Sized {
    fn try_list(self) -> Result<Vec<Self::Item>, AllocError> {
        let mut list = Vec::new();
        list.try_reserve(self.size_hint().0)?;
        for item in self {
            list.try_push(item)?;
        }
        Ok(list)
    }
}

impl<I: Iterator> TryList for I {}

/// What lends a slice of bytes or other items.
pub trait AsSlice<T> {
    fn as_slice(&self) -> &[T];
}

impl<T> AsSlice<T> for &[T] {
    fn as_slice(&self) -> &[T] {
        self
    }
}

impl<T, const N: usize> AsSlice<T> for [T; N] {
    fn as_slice(&self) -> &[T] {
        self
    }
}

impl<T, const N: usize> AsSlice<T> for &[T; N] {
    fn as_slice(&self) -> &[T] {
        *self
    }
}

/// `String::from_str(alloc, text)?`.
pub struct TryString;

impl TryString {
    #[inline(always)]
    pub fn from_str(text: &str) -> Result<String, AllocError> {
        let mut made = String::new();
        made.try_reserve_exact(text.len())?;
        made.push_str(text);
        Ok(made)
    }
}

/// `Vec::with_capacity(alloc, len)?`.
pub struct TryVec;

impl TryVec {
    pub fn with_capacity<T>(len: usize) -> Result<Vec<T>, AllocError> {
        let mut made = Vec::new();
        made.try_reserve_exact(len)?;
        Ok(made)
    }
}

/// `vec![in alloc; item; len]?`: as many copies of an item.
pub fn try_vec<T: Copy>(item: T, len: usize) -> Result<Vec<T>, AllocError> {
    let mut made = Vec::new();
    made.try_reserve_exact(len)?;
    made.resize(len, item);
    Ok(made)
}

/// Bytes that are proved to be UTF-8, as a text.
#[cfg(not(feature = "checked"))]
#[allow(unsafe_code)]
#[inline(always)]
pub(crate) fn proved_utf8(bytes: &[u8]) -> &str {
    debug_assert!(core::str::from_utf8(bytes).is_ok());
    // SAFETY: the contracts of the two callers require it, and their callers are proved to meet that.
    unsafe { core::str::from_utf8_unchecked(bytes) }
}

/// Bytes that are proved to be UTF-8, as a text. They are tested all the same.
#[cfg(feature = "checked")]
pub(crate) fn proved_utf8(bytes: &[u8]) -> &str {
    core::str::from_utf8(bytes).expect("proved to be UTF-8")
}

/// A number without a sign, as the number with one that has the same bits.
pub trait ToSigned {
    type Signed;
    fn to_signed(self) -> Self::Signed;
}

impl ToSigned for u32 {
    type Signed = i32;
    #[inline(always)]
    fn to_signed(self) -> i32 {
        self as i32
    }
}

impl ToSigned for u64 {
    type Signed = i64;
    #[inline(always)]
    fn to_signed(self) -> i64 {
        self as i64
    }
}

/// A number with a sign, as the number without one that has the same bits.
pub trait ToUnsigned {
    type Unsigned;
    fn to_unsigned(self) -> Self::Unsigned;
}

impl ToUnsigned for i32 {
    type Unsigned = u32;
    #[inline(always)]
    fn to_unsigned(self) -> u32 {
        self as u32
    }
}

pub mod memchr {
    /// The index of the first byte of this value.
    pub fn memchr(byte: u8, bytes: &[u8]) -> Option<usize> {
        bytes.iter().position(|&b| b == byte)
    }
}

#[cfg(test)]
mod tests {
    use super::*;

    #[test]
    fn sorts_are_stable() {
        let mut seed = 1u32;
        for len in 0..200 {
            let mut items: Vec<(u32, usize)> = (0..len)
                .map(|index| {
                    seed = seed.wrapping_mul(1664525).wrapping_add(1013904223);
                    (seed >> 29, index)
                })
                .collect();
            let mut wanted = items.clone();
            wanted.sort_by_key(|item| item.0);
            items.try_sort_by_key(|item| item.0).unwrap();
            assert_eq!(items, wanted);
        }
    }
}
