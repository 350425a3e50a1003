//! The one vector that is used, of 32 bytes: in two registers of SSE2 or of NEON, which each x86_64 and each aarch64 has, and
//! elsewhere in plain numbers.

#[cfg(all(target_arch = "x86_64", not(feature = "checked")))]
mod sse2;
#[cfg(all(target_arch = "x86_64", not(feature = "checked")))]
use sse2 as here;

#[cfg(all(target_arch = "aarch64", not(feature = "checked")))]
mod neon;
#[cfg(all(target_arch = "aarch64", not(feature = "checked")))]
use {core::arch::aarch64, neon as here};

#[cfg(any(
    test,
    feature = "checked",
    not(any(target_arch = "x86_64", target_arch = "aarch64"))
))]
mod words;
#[cfg(any(
    feature = "checked",
    not(any(target_arch = "x86_64", target_arch = "aarch64"))
))]
use words as here;

#[cfg(test)]
mod tests;

pub use here::u8x32;

pub mod prelude {
    pub use super::{SimdPartialEq, SimdPartialOrd, u8x32};
}

/// Lanes that are equal.
pub trait SimdPartialEq: Sized {
    type Mask;
    fn simd_eq(self, other: Self) -> Self::Mask;
}

/// Lanes that are at least as large.
pub trait SimdPartialOrd: SimdPartialEq {
    fn simd_ge(self, other: Self) -> Self::Mask;
}
