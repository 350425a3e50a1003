//! Numbers in bytes, in both orders.

/// An order of bytes.
pub trait ByteOrder {
    fn read_u16(bytes: &[u8]) -> u16;
    fn read_u32(bytes: &[u8]) -> u32;
    fn read_u64(bytes: &[u8]) -> u64;
    fn write_u16(bytes: &mut [u8], x: u16);
    fn write_u32(bytes: &mut [u8], x: u32);
    fn write_u64(bytes: &mut [u8], x: u64);
}

/// The lowest byte first.
pub struct LittleEndian;

/// The highest byte first.
pub struct BigEndian;

fn first<const N: usize>(bytes: &[u8]) -> [u8; N] {
    let mut first = [0; N];
    first.copy_from_slice(&bytes[..N]);
    first
}

macro_rules! byte_order {
    ($order:ident, $from:ident, $to:ident) => {
        impl ByteOrder for $order {
            #[inline(always)]
            fn read_u16(bytes: &[u8]) -> u16 {
                u16::$from(first(bytes))
            }
            #[inline(always)]
            fn read_u32(bytes: &[u8]) -> u32 {
                u32::$from(first(bytes))
            }
            #[inline(always)]
            fn read_u64(bytes: &[u8]) -> u64 {
                u64::$from(first(bytes))
            }
            fn write_u16(bytes: &mut [u8], x: u16) {
                bytes[..2].copy_from_slice(&x.$to());
            }
            fn write_u32(bytes: &mut [u8], x: u32) {
                bytes[..4].copy_from_slice(&x.$to());
            }
            fn write_u64(bytes: &mut [u8], x: u64) {
                bytes[..8].copy_from_slice(&x.$to());
            }
        }
    };
}

byte_order!(LittleEndian, from_le_bytes, to_le_bytes);
byte_order!(BigEndian, from_be_bytes, to_be_bytes);
