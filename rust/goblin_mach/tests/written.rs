//! What the vectors of fat files don't say: the entry of a file, the order of entries, thousands of them, and the record of 64
//! bits with fields set by hand.
#![cfg(feature = "write")]
mod archives;

use archives::archive;
use goblin_mach::fat::FatArch;
use goblin_mach::write::{FAT_MAGIC_64, FatArch64, FatEntry, SIZEOF_FAT_ARCH_64};
use goblin_mach::write::{fat_order, write_fat, write_fat64};
use goblin_mach::{Error, ScrollError, describe};

/// A header with nothing after it, for x86_64, little-endian.
const X86_64: [u8; 32] =
    *b"\xcf\xfa\xed\xfe\x07\0\0\x01\x03\0\0\0\x02\0\0\0\0\0\0\0\0\0\0\0\0\0\0\0\0\0\0\0";

/// The same for arm64.
const ARM64: [u8; 32] =
    *b"\xcf\xfa\xed\xfe\x0c\0\0\x01\0\0\0\0\x02\0\0\0\0\0\0\0\0\0\0\0\0\0\0\0\0\0\0\0";

/// The same for PowerPC, big-endian.
const POWERPC: [u8; 28] = *b"\xfe\xed\xfa\xce\0\0\0\x12\0\0\0\0\0\0\0\x02\0\0\0\0\0\0\0\0\0\0\0\0";

fn entry(cputype: u32, cpusubtype: u32, align: u32, bytes: &[u8]) -> FatEntry<'_> {
    FatEntry {
        cputype,
        cpusubtype,
        align,
        bytes,
    }
}

/// The entry that a file becomes, or the error.
fn shown(file: &[u8]) -> String {
    match FatEntry::of(file) {
        Ok(entry) => format!(
            "{:#x}, {:#x}, 2^{}, {} bytes",
            entry.cputype,
            entry.cpusubtype,
            entry.align,
            entry.bytes.len()
        ),
        Err(error) => describe(&error).to_string(),
    }
}

#[test]
fn entries_of_images() {
    for (file, want) in [
        (&X86_64[..], "0x1000007, 0x3, 2^12, 32 bytes"),
        (&ARM64, "0x100000c, 0x0, 2^14, 32 bytes"),
        (&POWERPC, "0x12, 0x0, 2^12, 28 bytes"),
        (&X86_64[..28], "0x1000007, 0x3, 2^12, 28 bytes"),
        (&X86_64[..24], "28 bytes are needed and 24 are left"),
        (b"hello", "bad magic 0x68656c6c"),
        (b"", "offset 0 is past the end"),
        (b"abc", "4 bytes are needed and 3 are left"),
        (b"!<thin>\n", "bad magic 0x213c7468"),
        (b"!<arch>", "bad magic 0x213c6172"),
    ] {
        assert_eq!(shown(file), want);
    }
}

/// An archive of members of even sizes.
fn library(members: &[&[u8]]) -> Vec<u8> {
    let sizes: Vec<String> = members.iter().map(|held| held.len().to_string()).collect();
    let member = |(held, size)| ("i.o/", size, held);
    let members: Vec<_> = members
        .iter()
        .copied()
        .zip(sizes.iter().map(String::as_str))
        .map(member)
        .collect();
    archive(&members)
}

#[test]
fn entries_of_archives() {
    let one = library(&[&X86_64]);
    assert_eq!(shown(&one), "0x1000007, 0x3, 2^3, 100 bytes");
    assert_eq!(shown(&one[..99]), "32 bytes are needed and 31 are left");
    for (members, want) in [
        (
            &[&POWERPC[..], &POWERPC, &POWERPC][..],
            "0x12, 0x0, 2^2, 272 bytes",
        ),
        (
            &[&X86_64, &ARM64],
            "malformed: members are for different cpus",
        ),
        (
            &[&X86_64, &X86_64, &ARM64],
            "malformed: members are for different cpus",
        ),
        (&[b"xy"], "malformed: a member is not an image"),
        (&[], "malformed: the archive has no member"),
        (
            &[&X86_64, &X86_64[..24]],
            "28 bytes are needed and 24 are left",
        ),
    ] {
        assert_eq!(shown(&library(members)), want);
    }
}

#[test]
fn order_of_images() {
    let mut entries = [&ARM64, &X86_64].map(|file| FatEntry::of(file).unwrap());
    fat_order(&mut entries).unwrap();
    let file = write_fat(&entries).unwrap();
    assert_eq!(file.len(), 16_416);
    assert_eq!(file[4096..4128], X86_64);
    assert_eq!(file[16_384..], ARM64);
}

#[test]
fn order_of_entries() {
    let mut entries = [
        entry(0x100_000c, 2, 0, b"a"),
        entry(9, 5, 3, b"b"),
        entry(7, 3, 2, b"c"),
        entry(9, 1, 2, b"d"),
        entry(7, 1, 2, b"e"),
        entry(0x100_000c, 1, 14, b"f"),
        entry(7, 1, 2, b"g"),
        entry(9, 4, 3, b"h"),
    ];
    fat_order(&mut entries).unwrap();
    let names: Vec<u8> = entries
        .iter()
        .flat_map(|entry| entry.bytes)
        .copied()
        .collect();
    assert_eq!(names, b"egcdhbfa");
}

/// So many entries of one byte for different cpus, aligned to 8, with falling cpusubtypes.
fn entries(count: u32) -> Vec<FatEntry<'static>> {
    (1..=count)
        .rev()
        .map(|cpusubtype| entry(7, cpusubtype, 3, b"x"))
        .collect()
}

#[test]
fn five_thousand_entries() {
    let mut entries = entries(5000);
    let file = write_fat(&entries).unwrap();
    assert_eq!(file.len(), 140_001);
    for i in 0..5000 {
        let arch = FatArch::parse(&file, 8 + 20 * i).unwrap();
        assert_eq!(arch.cpusubtype as usize, 5000 - i);
        assert_eq!(arch.offset as usize, 100_008 + 8 * i);
    }
    assert_eq!(write_fat64(&entries).unwrap().len(), 200_001);
    fat_order(&mut entries).unwrap();
    assert!(entries.iter().map(|entry| entry.cpusubtype).eq(1..=5000));
    entries.push(entry(7, 2500, 3, b"x"));
    assert!(matches!(write_fat(&entries), Err(Error::Malformed(_))));
}

/// A record whose part has this offset and this size.
fn record(offset: u64, size: u64) -> FatArch64 {
    FatArch64 {
        cputype: 0x100_000c,
        cpusubtype: 0x8000_0002,
        offset,
        size,
        align: 0,
        reserved: 0,
    }
}

#[test]
fn cpu_of_a_record() {
    assert_eq!((FAT_MAGIC_64, SIZEOF_FAT_ARCH_64), (0xcafe_babf, 32));
    let arch = record(0, 0);
    assert_eq!(
        (arch.cputype(), arch.cpusubtype(), arch.cpu_caps()),
        (0x100_000c, 2, 0x80)
    );
    assert!(arch.is_64());
}

#[test]
fn slices() {
    let bytes = [7; 48];
    for (offset, size, len) in [
        (40, 8, 8),
        (40, 9, 0),
        (48, 0, 0),
        (49, 0, 0),
        (0, 48, 48),
        (u64::MAX - 7, 16, 0),
        (1, u64::MAX, 0),
    ] {
        assert_eq!(record(offset, size).slice(&bytes).len(), len);
    }
}

#[test]
fn records_cut_short() {
    let file = write_fat64(&[entry(0x100_0007, 3, 3, &X86_64)]).unwrap();
    assert!(matches!(
        FatArch64::parse(&file[..39], 8),
        Err(Error::Scroll(ScrollError::TooBig { size: 32, len: 31 }))
    ));
    assert!(matches!(
        FatArch64::parse(&file[..40], 40),
        Err(Error::Scroll(ScrollError::BadOffset(40)))
    ));
}
