//! The vector in two registers of NEON.
#![allow(unsafe_code)]
use super::aarch64::*;
use super::{SimdPartialEq, SimdPartialOrd};
use core::ops::BitOr;

#[allow(non_camel_case_types)]
#[derive(Clone, Copy)]
pub struct u8x32(uint8x16_t, uint8x16_t);

/// All bits of a lane are set, or none.
#[derive(Clone, Copy)]
pub struct Mask(uint8x16_t, uint8x16_t);

/// The bit of each lane, in each half of a register.
const BITS: [u8; 16] = [1, 2, 4, 8, 16, 32, 64, 128, 1, 2, 4, 8, 16, 32, 64, 128];

// SAFETY, of each block below: each aarch64 has NEON, and what is read is in the array.
impl u8x32 {
    #[inline(always)]
    pub fn from_slice(bytes: &[u8]) -> u8x32 {
        let bytes: &[u8; 32] = bytes[..32].try_into().expect("32 bytes");
        let at = bytes.as_ptr();
        unsafe { u8x32(vld1q_u8(at), vld1q_u8(at.add(16))) }
    }

    #[inline(always)]
    pub fn splat(byte: u8) -> u8x32 {
        let all = unsafe { vdupq_n_u8(byte) };
        u8x32(all, all)
    }
}

impl SimdPartialEq for u8x32 {
    type Mask = Mask;

    #[inline(always)]
    fn simd_eq(self, other: u8x32) -> Mask {
        unsafe { Mask(vceqq_u8(self.0, other.0), vceqq_u8(self.1, other.1)) }
    }
}

impl SimdPartialOrd for u8x32 {
    #[inline(always)]
    fn simd_ge(self, other: u8x32) -> Mask {
        unsafe { Mask(vcgeq_u8(self.0, other.0), vcgeq_u8(self.1, other.1)) }
    }
}

impl BitOr for Mask {
    type Output = Mask;

    #[inline(always)]
    fn bitor(self, other: Mask) -> Mask {
        unsafe { Mask(vorrq_u8(self.0, other.0), vorrq_u8(self.1, other.1)) }
    }
}

impl Mask {
    /// Bit k is lane k.
    #[inline(always)]
    pub fn to_bitmask(self) -> u64 {
        let half = |m| unsafe {
            let bits = vandq_u8(m, vld1q_u8(BITS.as_ptr()));
            let (low, high) = (vaddv_u8(vget_low_u8(bits)), vaddv_u8(vget_high_u8(bits)));
            u64::from(low) | u64::from(high) << 8
        };
        half(self.0) | half(self.1) << 16
    }
}
