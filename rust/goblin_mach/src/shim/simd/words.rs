//! The vector in plain numbers.
use super::{SimdPartialEq, SimdPartialOrd};
use core::array::from_fn;
use core::ops::BitOr;

const HIGH: u64 = 0x8080_8080_8080_8080;

/// Four words of eight lanes each, the lowest lane first.
#[allow(non_camel_case_types)]
#[derive(Clone, Copy)]
pub struct u8x32([u64; 4]);

/// The high bit of a lane is set, or none.
#[derive(Clone, Copy)]
pub struct Mask([u64; 4]);

impl u8x32 {
    #[inline(always)]
    pub fn from_slice(bytes: &[u8]) -> u8x32 {
        let bytes = &bytes[..32];
        u8x32(from_fn(|k| {
            let mut word = [0; 8];
            word.copy_from_slice(&bytes[8 * k..8 * k + 8]);
            u64::from_le_bytes(word)
        }))
    }

    #[inline(always)]
    pub fn splat(byte: u8) -> u8x32 {
        u8x32([u64::from(byte) * 0x0101_0101_0101_0101; 4])
    }
}

impl SimdPartialEq for u8x32 {
    type Mask = Mask;

    #[inline(always)]
    fn simd_eq(self, other: u8x32) -> Mask {
        Mask(from_fn(|k| {
            let differ = self.0[k] ^ other.0[k];
            !(((differ & !HIGH) + !HIGH) | differ) & HIGH
        }))
    }
}

impl SimdPartialOrd for u8x32 {
    #[inline(always)]
    fn simd_ge(self, other: u8x32) -> Mask {
        Mask(from_fn(|k| {
            let (a, b) = (self.0[k], other.0[k]);
            let low = (a | HIGH) - (b & !HIGH);
            ((a & !b) | (!(a ^ b) & low)) & HIGH
        }))
    }
}

impl BitOr for Mask {
    type Output = Mask;

    #[inline(always)]
    fn bitor(self, other: Mask) -> Mask {
        Mask(from_fn(|k| self.0[k] | other.0[k]))
    }
}

impl Mask {
    /// Bit k is lane k.
    #[inline(always)]
    pub fn to_bitmask(self) -> u64 {
        let mut bits = 0;
        for k in 0..4 {
            bits |= (((self.0[k] >> 7).wrapping_mul(0x0102_0408_1020_4080)) >> 56) << (8 * k);
        }
        bits
    }
}
