//! What single commands say of an image: which command counts, in which order, and faults in their places.
#[path = "common/kind.rs"]
mod kind;
#[path = "common/samples.rs"]
mod samples;

use goblin_mach::load_command as lc;
use goblin_mach::{BuildVersion, Encryption, MachO, Result};
use kind::{fault, kind};
use samples::FILE_A;

const X86: u32 = 7;
const X86_64: u32 = 0x0100_0007;
const ARM64: u32 = 0x0100_000c;

fn words(numbers: &[u32]) -> Vec<u8> {
    numbers.iter().flat_map(|it| it.to_le_bytes()).collect()
}

/// A command that ends with a text, at an offset that the last word before it gives.
fn text(cmd: u32, name: u32, text: &[u8]) -> Vec<u8> {
    let size = 12 + text.len() as u32;
    [words(&[cmd, size, name]), text.to_vec()].concat()
}

/// An entry of a file set: its address, its offset, the place of its name.
fn entry(address: u32, offset: u32, name: u32, text: &[u8]) -> Vec<u8> {
    let size = 32 + text.len() as u32;
    let fields = [lc::LC_FILESET_ENTRY, size, address, 1, offset, 0, name, 0];
    [words(&fields), text.to_vec()].concat()
}

/// A little-endian image of 64 bits with these commands.
fn file(cputype: u32, commands: &[Vec<u8>]) -> Vec<u8> {
    let all = commands.concat();
    let counts = [commands.len() as u32, all.len() as u32];
    let header = [0xfeed_facf, cputype, 3, 2, counts[0], counts[1], 0, 0];
    [words(&header), all].concat()
}

/// The platforms of an image with all four `LC_VERSION_MIN_` commands.
fn platforms(cputype: u32) -> Vec<u32> {
    let kinds = [
        lc::LC_VERSION_MIN_MACOSX,
        lc::LC_VERSION_MIN_IPHONEOS,
        lc::LC_VERSION_MIN_TVOS,
        lc::LC_VERSION_MIN_WATCHOS,
    ];
    let bytes = file(cputype, &kinds.map(|kind| words(&[kind, 16, 1, 2])));
    let image = MachO::parse(&bytes, 0).unwrap();
    image.build_versions().map(|it| it.platform).collect()
}

fn shown(answer: Result<&str>) -> String {
    match answer {
        Ok(text) => text.to_string(),
        Err(_) => fault(answer),
    }
}

#[test]
fn nothing_is_said() {
    let bytes = file(ARM64, &[]);
    let image = MachO::parse(&bytes, 0).unwrap();
    assert_eq!(image.uuid(), None);
    assert_eq!(image.build_version(), None);
    assert_eq!(image.build_versions().next(), None);
    assert_eq!(image.source_version(), None);
    assert_eq!(image.encryption(), None);
    assert!(image.dylinker().is_none());
    assert!(image.dyld_environment().next().is_none());
    assert!(image.fileset_entries().next().is_none());
}

#[test]
fn the_first_counts() {
    let image = MachO::parse(&FILE_A, 0).unwrap();
    let uuid = [1, 2, 3, 4, 5, 6, 7, 8, 9, 10, 11, 12, 13, 14, 15, 16];
    assert_eq!(image.uuid(), Some(uuid));
    let bytes = file(
        ARM64,
        &[
            words(&[lc::LC_UUID, 24, 0x0101_0101, 2, 3, 4]),
            words(&[lc::LC_SOURCE_VERSION, 16, 5, 6]),
            words(&[lc::LC_ENCRYPTION_INFO_64, 24, 0x4000, 0x8000, 1, 0]),
            words(&[lc::LC_UUID, 24, 9, 9, 9, 9]),
            words(&[lc::LC_SOURCE_VERSION, 16, 9, 9]),
            words(&[lc::LC_ENCRYPTION_INFO, 20, 9, 9, 9]),
        ],
    );
    let image = MachO::parse(&bytes, 0).unwrap();
    let uuid = [1, 1, 1, 1, 2, 0, 0, 0, 3, 0, 0, 0, 4, 0, 0, 0];
    assert_eq!(image.uuid(), Some(uuid));
    assert_eq!(image.source_version(), Some(0x6_0000_0005));
    let (offset, size, id) = (0x4000, 0x8000, 1);
    let range = Encryption { offset, size, id };
    assert_eq!(image.encryption(), Some(range));
    let bytes = file(X86, &[words(&[lc::LC_ENCRYPTION_INFO, 20, 1, 2, 3])]);
    let image = MachO::parse(&bytes, 0).unwrap();
    let (offset, size, id) = (1, 2, 3);
    let range = Encryption { offset, size, id };
    assert_eq!(image.encryption(), Some(range));
}

#[test]
fn systems_in_order() {
    let bytes = file(
        ARM64,
        &[
            words(&[lc::LC_BUILD_VERSION, 24, 6, 0xe_0000, 0xf_0200, 0]),
            words(&[lc::LC_VERSION_MIN_MACOSX, 16, 0xa_0900, 0xa_0c00]),
            words(&[lc::LC_BUILD_VERSION, 24, 11, 1, 2, 0]),
        ],
    );
    let image = MachO::parse(&bytes, 0).unwrap();
    let rows = [(6, 0xe_0000, 0xf_0200), (1, 0xa_0900, 0xa_0c00), (11, 1, 2)];
    let rows = rows.map(|(platform, minos, sdk)| BuildVersion {
        platform,
        minos,
        sdk,
    });
    assert_eq!(image.build_versions().collect::<Vec<_>>(), rows);
    assert_eq!(image.build_version(), Some(rows[0]));
}

#[test]
fn simulators_run_on_x86() {
    let rows = [
        (X86, [1, 7, 8, 9]),
        (X86_64, [1, 7, 8, 9]),
        (12, [1, 2, 3, 4]),
        (ARM64, [1, 2, 3, 4]),
    ];
    for (cputype, want) in rows {
        assert_eq!(platforms(cputype), want, "cpu {cputype:#x}");
    }
}

#[test]
fn the_dynamic_linker_is_the_first_that_is_loaded() {
    let own = text(lc::LC_ID_DYLINKER, 12, b"/own\0\0\0\0");
    let dyld = text(lc::LC_LOAD_DYLINKER, 12, b"/usr/lib/dyld\0\0\0");
    let other = text(lc::LC_LOAD_DYLINKER, 12, b"/other\0\0");
    let none = text(lc::LC_LOAD_DYLINKER, u32::MAX, b"");
    let not_utf8 = text(lc::LC_LOAD_DYLINKER, 12, b"\xff\0\0\0");
    let rows: [(&[&Vec<u8>], &str); 5] = [
        (&[&own], "none"),
        (&[&own, &dyld, &other], "/usr/lib/dyld"),
        (&[&other, &dyld], "/other"),
        (&[&none, &dyld], "bad offset 4294967327"),
        (&[&not_utf8, &dyld], "bad input 32"),
    ];
    for (commands, want) in rows {
        let commands: Vec<_> = commands.iter().map(|it| it.to_vec()).collect();
        let bytes = file(ARM64, &commands);
        let image = MachO::parse(&bytes, 0).unwrap();
        let found = image.dylinker().map_or("none".to_string(), shown);
        assert_eq!(found, want);
    }
}

#[test]
fn settings_and_faults_in_order() {
    let bytes = file(
        ARM64,
        &[
            text(lc::LC_DYLD_ENVIRONMENT, 12, b"DYLD_A=1\0\0\0\0"),
            text(lc::LC_DYLD_ENVIRONMENT, 12, b"\xc3\x28\0\0"),
            text(lc::LC_LOAD_DYLINKER, 12, b"/usr/lib/dyld\0\0\0"),
            text(lc::LC_DYLD_ENVIRONMENT, 12, b"B\0\0\0"),
        ],
    );
    let image = MachO::parse(&bytes, 0).unwrap();
    let mut found = image.dyld_environment();
    assert_eq!(format!("{found:?}"), "SubjectIterator { commands: 4 }");
    assert_eq!(found.next().unwrap().unwrap(), "DYLD_A=1");
    let again: Vec<_> = found.clone().map(shown).collect();
    assert_eq!(again, ["bad input 48", "B"]);
    assert_eq!(found.map(shown).collect::<Vec<_>>(), again);
}

#[test]
fn entries_and_faults_in_order() {
    let bytes = file(
        ARM64,
        &[
            entry(0x4000, 0x8000, 32, b"com.apple.kernel\0\0\0\0"),
            entry(1, 2, u32::MAX, b""),
            entry(3, 4, 34, b"xxcom.a\0"),
        ],
    );
    let image = MachO::parse(&bytes, 0).unwrap();
    let rows: Vec<_> = image
        .fileset_entries()
        .map(|it| match it {
            Ok(it) => format!("{} {:#x} {:#x}", it.name, it.address, it.offset),
            Err(error) => kind(&error),
        })
        .collect();
    let want = [
        "com.apple.kernel 0x100004000 0x8000",
        "bad offset 4294967379",
        "com.a 0x100000003 0x4",
    ];
    assert_eq!(rows, want);
}
