//! Tests of what only this crate calls.
use crate::generated::mach_base::{ByteCount, quick_text, quick_uleb};
use alloc::{format, vec};

#[test]
fn quick_numbers() {
    let ten = |first, last| [[first; 9].as_slice(), &[last]].concat();
    let rows = [
        (vec![0xe5, 0x8e, 0x26], Some((624_485, 3))),
        (vec![0x7f, 0x80], Some((127, 1))),
        (vec![0x80, 0x01], Some((128, 2))),
        (vec![0xff, 0xff, 0xff, 0x7f], Some((268_435_455, 4))),
        (vec![0x80, 0x80, 0x80, 0x80, 1, 0], Some((268_435_456, 5))),
        (ten(0x80, 0), Some((0, 10))),
        (ten(0xff, 1), Some((u64::MAX, 10))),
        (vec![], None),
        (vec![0x80], None),
        (ten(0xff, 2), None),
        (vec![0xff; 11], None),
    ];
    for (bytes, want) in rows {
        assert_eq!(quick_uleb(&bytes, 0), want, "{bytes:?}");
    }
}

#[test]
fn quick_texts() {
    assert_eq!(quick_text(b"ab\0c", 0), Some("ab"));
    assert_eq!(quick_text(&[0xc3, 0xa9, 0], 0), Some("é"));
    assert_eq!(quick_text(&[0xff, 0], 0), None);
    assert_eq!(quick_text(b"ab", 2), None);
}

#[test]
fn bytes_are_counted() {
    let bytes = [7; 12_345];
    for (length, want) in [(0, "0 bytes"), (1, "1 bytes"), (12_345, "12345 bytes")] {
        assert_eq!(format!("{:?}", ByteCount(&bytes[..length])), want);
    }
}
