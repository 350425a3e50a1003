//! Each form of the vector against its definition, lane by lane. NEON's is tried on other processors too, over its
//! instructions as ARM defines them.
use alloc::vec::Vec;

#[cfg(not(target_arch = "aarch64"))]
#[path = "neon.rs"]
mod neon;

/// The instructions of NEON that are used.
#[cfg(not(target_arch = "aarch64"))]
#[allow(non_camel_case_types, unsafe_code)]
mod aarch64 {
    use core::array::from_fn;

    pub(super) type uint8x16_t = [u8; 16];
    pub(super) type uint8x8_t = [u8; 8];

    pub(super) unsafe fn vld1q_u8(at: *const u8) -> uint8x16_t {
        unsafe { at.cast::<[u8; 16]>().read() }
    }
    pub(super) unsafe fn vdupq_n_u8(byte: u8) -> uint8x16_t {
        [byte; 16]
    }
    pub(super) unsafe fn vceqq_u8(a: uint8x16_t, b: uint8x16_t) -> uint8x16_t {
        from_fn(|k| if a[k] == b[k] { 0xff } else { 0 })
    }
    pub(super) unsafe fn vcgeq_u8(a: uint8x16_t, b: uint8x16_t) -> uint8x16_t {
        from_fn(|k| if a[k] >= b[k] { 0xff } else { 0 })
    }
    pub(super) unsafe fn vorrq_u8(a: uint8x16_t, b: uint8x16_t) -> uint8x16_t {
        from_fn(|k| a[k] | b[k])
    }
    pub(super) unsafe fn vandq_u8(a: uint8x16_t, b: uint8x16_t) -> uint8x16_t {
        from_fn(|k| a[k] & b[k])
    }
    pub(super) unsafe fn vget_low_u8(a: uint8x16_t) -> uint8x8_t {
        from_fn(|k| a[k])
    }
    pub(super) unsafe fn vget_high_u8(a: uint8x16_t) -> uint8x8_t {
        from_fn(|k| a[k + 8])
    }
    pub(super) unsafe fn vaddv_u8(a: uint8x8_t) -> u8 {
        a.into_iter().fold(0, u8::wrapping_add)
    }
}

use super::{SimdPartialEq, SimdPartialOrd};

/// A slice of 32 bytes, and a byte that is in it in each second round.
fn draws() -> impl Iterator<Item = (Vec<u8>, u8)> {
    let mut seed = 1u64;
    let mut draw = move || {
        seed = seed
            .wrapping_mul(6364136223846793005)
            .wrapping_add(1442695040888963407);
        (seed >> 56) as u8
    };
    (0..20_000usize).map(move |round| {
        let bytes: Vec<u8> = (0..32).map(|_| draw()).collect();
        let byte = if round % 2 == 0 {
            draw()
        } else {
            bytes[round % 32]
        };
        (bytes, byte)
    })
}

macro_rules! lanes {
    ($name:ident, $form:path) => {
        #[test]
        fn $name() {
            use $form as vector;
            for (bytes, byte) in draws() {
                let bits = |test: fn(u8, u8) -> bool| {
                    (0..32).fold(0, |bits, k| bits | u64::from(test(bytes[k], byte)) << k)
                };
                let (x, y) = (vector::from_slice(&bytes), vector::splat(byte));
                assert_eq!(x.simd_eq(y).to_bitmask(), bits(|a, b| a == b));
                assert_eq!(x.simd_ge(y).to_bitmask(), bits(|a, b| a >= b));
                let both = x.simd_eq(y) | x.simd_ge(vector::splat(0x80));
                assert_eq!(both.to_bitmask(), bits(|a, b| a == b || a >= 0x80));
            }
        }
    };
}

lanes!(vector_of_this_processor, super::u8x32);
lanes!(vector_in_words, super::words::u8x32);
#[cfg(not(target_arch = "aarch64"))]
lanes!(vector_in_neon, neon::u8x32);
