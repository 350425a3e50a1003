//! The vector in two registers of SSE2.
#![allow(unsafe_code)]
use super::{SimdPartialEq, SimdPartialOrd};
use core::arch::x86_64::*;
use core::ops::BitOr;

#[allow(non_camel_case_types)]
#[derive(Clone, Copy)]
pub struct u8x32(__m128i, __m128i);

/// All bits of a lane are set, or none.
#[derive(Clone, Copy)]
pub struct Mask(__m128i, __m128i);

// SAFETY, of each block below: each x86_64 has SSE2, and what is read is in the array.
impl u8x32 {
    #[inline(always)]
    pub fn from_slice(bytes: &[u8]) -> u8x32 {
        let bytes: &[u8; 32] = bytes[..32].try_into().expect("32 bytes");
        let at = bytes.as_ptr().cast::<__m128i>();
        unsafe { u8x32(_mm_loadu_si128(at), _mm_loadu_si128(at.add(1))) }
    }

    #[inline(always)]
    pub fn splat(byte: u8) -> u8x32 {
        let all = unsafe { _mm_set1_epi8(byte as i8) };
        u8x32(all, all)
    }
}

impl SimdPartialEq for u8x32 {
    type Mask = Mask;

    #[inline(always)]
    fn simd_eq(self, other: u8x32) -> Mask {
        unsafe {
            Mask(
                _mm_cmpeq_epi8(self.0, other.0),
                _mm_cmpeq_epi8(self.1, other.1),
            )
        }
    }
}

impl SimdPartialOrd for u8x32 {
    #[inline(always)]
    fn simd_ge(self, other: u8x32) -> Mask {
        let ge = |a, b| unsafe { _mm_cmpeq_epi8(_mm_max_epu8(a, b), a) };
        Mask(ge(self.0, other.0), ge(self.1, other.1))
    }
}

impl BitOr for Mask {
    type Output = Mask;

    #[inline(always)]
    fn bitor(self, other: Mask) -> Mask {
        unsafe { Mask(_mm_or_si128(self.0, other.0), _mm_or_si128(self.1, other.1)) }
    }
}

impl Mask {
    /// Bit k is lane k.
    #[inline(always)]
    pub fn to_bitmask(self) -> u64 {
        let half = |m| u64::from(unsafe { _mm_movemask_epi8(m) } as u32);
        half(self.0) | half(self.1) << 16
    }
}
