//! The built files of docs/FORMAT-IMAGE.md, and small ones.
// Each file of tests uses some of them.
#![allow(dead_code)]

/// File A: a 64-bit image whose only command is an LC_UUID.
pub const FILE_A: [u8; 56] = [
    0xcf, 0xfa, 0xed, 0xfe, 7, 0, 0, 1, 3, 0, 0, 0, 2, 0, 0, 0, 1, 0, 0, 0, 24, 0, 0, 0, 0, 0, 0,
    0, 0, 0, 0, 0, 0x1b, 0, 0, 0, 24, 0, 0, 0, 1, 2, 3, 4, 5, 6, 7, 8, 9, 10, 11, 12, 13, 14, 15,
    16,
];

/// File B: a 64-bit image of five commands.
pub const FILE_B: &[u8; 376] = include_bytes!("../data/b.macho");

/// File C: a fat file of file B and of an archive.
pub const FILE_C: &[u8; 440] = include_bytes!("../data/c.macho");

/// File D: a 64-bit image with binds by opcodes, and with chains in its two segments.
pub const FILE_D: &[u8; 436] = include_bytes!("../data/d.macho");

/// The 64-bit header of an image without commands.
pub const BARE: [u8; 32] = [
    0xcf, 0xfa, 0xed, 0xfe, 0, 0, 0, 0, 0, 0, 0, 0, 0, 0, 0, 0, 0, 0, 0, 0, 0, 0, 0, 0, 0, 0, 0, 0,
    0, 0, 0, 0,
];

/// An archive without members, with eight bytes after its magic.
pub const ARCHIVE: &[u8; 16] = b"!<arch>\n\0\0\0\0\0\0\0\0";

/// A fat file of one entry, at 28 with `size` bytes.
pub fn fat_of(size: u32, entry: &[u8]) -> Vec<u8> {
    let words = [0xcafe_babe, 1, 0x100_0007, 3, 28, size, 0];
    [&words.map(u32::to_be_bytes).concat(), entry].concat()
}

/// A file with some of its bytes changed.
pub fn changed(file: &[u8], changes: &[(usize, u8)]) -> Vec<u8> {
    let mut bytes = file.to_vec();
    for &(place, byte) in changes {
        bytes[place] = byte;
    }
    bytes
}
