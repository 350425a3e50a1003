//! What a code signature has beside the fields that vectors have, and the faults of what a caller gives. Vectors have the rest.
#![cfg(feature = "signature")]
#[path = "common/words.rs"]
mod words;

use goblin_mach::signature::image;
use goblin_mach::signature::{
    CodeFault, CodeSignature, DirectoryFault, HashType, SignatureFault, SpecialFault,
    code_signature, signature_faults,
};
use goblin_mach::{Error, MachO, ScrollError};
use std::ops::Range;
use words::bytes;

/// An image for arm64 of 64 bytes and the command of its signature, which follows. A code directory of SHA-256, version 0x20400, has the
/// identifier `id` and four pages of 16 bytes.
const SIGNED: &str = "
    cffaedfe 0c000001 00000000 02000000 01000000 10000000 00000000*2
    1d000000 10000000 40000000 ef000000
    00000000*4
    fade0cc0 000000ef 00000001 00000000 00000014
    fade0c02 000000db 00020400 00000002 0000005b 00000058 00000000 00000004 00000040 20020004 00000000*12
    696400
    ec4e6562d7cd82c440248efd28ebe56718974bc2fd50d4fbcdaa6f620ad5d879
    9e73a19e2dba94935096ffb602105e47bdeae4bd43323bd1cfb2cb9ed22fe100
    8bfd5f5fab1e62513e4fc2b7599284f715ab53211da616ad9f51d3af08a63006
    374708fff7719dd5979ec875d56cd2286f6d3cf7ec317a3b25632aab28ec37bb";

/// The same with a team, signed by SHA-1 and, in slot 0x1000, by SHA-256. The directories seal requirements, entitlements and, in slot 1, a
/// file with the text `a file`. There is an empty CMS.
const SIGNED_TWICE: &str = "
    cffaedfe 0c000001 00000000 02000000 01000000 10000000 00000000*2
    1d000000 10000000 40000000 f8020000
    00000000*4
    fade0cc0 000002f8 00000005
    00000000 00000034 00001000 0000014e 00000002 000002d4 00000005 000002e0 00010000 000002f0
    fade0c02 0000011a 00020400 00000002 000000ca 00000058 00000005 00000004 00000040 14010004 00000000*2 0000005b 00000000*9
    696400 4142434445313233343500
    e57805e7e11a6e30011d2809c2babf2d1e434f2e
    00*20 00*20
    3a75f6db058529148e14dd7ea1b4729cc09ec973
    eb599ec83d383f0f25691c184f656d40384f9435
    5709f2f63dac0300f06474051c7c0207e489817a
    d037d171d5db79e964ddfbb9e7f4f941f031f945
    f9dcc4d6fef17eaa765725840ac11d48f95ee15b
    e129f27c5103bc5cc44bcdf0a15e160d445066ff
    fade0c02 00000186 00020400 00000002 00000106 00000058 00000005 00000004 00000040 20020004 00000000*2 0000005b 00000000*9
    696400 4142434445313233343500
    576568de9102540a49042f587715de36ed449e3ccd77cbacaa412389b6f8499b
    00*32 00*32
    987920904eab650e75788c054aa0b0524e6a80bfc71aa32df8d237a61743f986
    7365d029861e32c521f8089b00a6fb32daf0615025b69b599d1ce53501b845c2
    ec4e6562d7cd82c440248efd28ebe56718974bc2fd50d4fbcdaa6f620ad5d879
    9e73a19e2dba94935096ffb602105e47bdeae4bd43323bd1cfb2cb9ed22fe100
    06886397736c69179129d4e39bfab73ec3fabdc2273b8d00488ad0e54591741b
    374708fff7719dd5979ec875d56cd2286f6d3cf7ec317a3b25632aab28ec37bb
    fade0c01 0000000c 00000000
    fade7171 00000010 3c706c69 73742f3e
    fade0b01 00000008";

/// An image for arm64 with the section `__info_plist` of `__TEXT`, which special slot 1 of its signature seals.
const SEALED: &str = "
    cffaedfe 0c000001 00000000 02000000*2 a8000000 00000000*2
    19000000 98000000 5f5f5445 58540000 00000000*4 00020000 00000000*3 00010000 00000000 05000000*2 01000000 00000000
    5f5f696e 666f5f70 6c697374 00000000 5f5f5445 58540000 00000000*2 d0000000 00000000 08000000 00000000 d0000000 00000000*7
    1d000000 10000000 00010000 af000000
    00000000*2 3c706c69 73742f3e 00000000*10
    fade0cc0 000000af 00000001 00000000 00000014
    fade0c02 0000009b 00020400 00000002 0000007b 00000058 00000001*2 00000100 20020008 00000000*12
    696400
    0269140040ae6b701ef751edba031273064d21fb7610528f930f391b6b2a2164
    c7bc5989653c8f95e28765eb21f405cb48c99cbb9283ef0cdf5e0bf74c4ee5fe";

/// How many bytes come before the signatures of the first two.
const CODE_LEN: usize = 0x40;

/// The signature of one of the first two.
fn signature(image: &[u8]) -> CodeSignature<'_> {
    code_signature(image, CODE_LEN as u32, (image.len() - CODE_LEN) as u32).unwrap()
}

/// The words of its faults, if this is the file that slot 1 seals.
fn faults(image: &[u8], plist: Option<&[u8]>) -> Vec<String> {
    let datasize = (image.len() - CODE_LEN) as u32;
    match signature_faults(image, CODE_LEN as u32, datasize, plist) {
        Ok(faults) => faults.map(|fault| fault.to_string()).collect(),
        Err(why) => vec![why.to_string()],
    }
}

#[test]
fn fields_of_a_directory() {
    let bytes = bytes(SIGNED_TWICE);
    let directory = signature(&bytes).directory().unwrap();
    let head = directory.head();
    assert_eq!((head.magic, head.length), (0xfade0c02, 0x186));
    assert_eq!((head.version, head.flags), (0x20400, 2));
    assert_eq!((head.hash_offset, head.ident_offset), (0x106, 0x58));
    assert_eq!((head.n_special_slots, head.n_code_slots), (5, 4));
    assert_eq!((head.code_limit, head.page_size), (0x40, 4));
    assert_eq!(directory.hash, HashType::Sha256);
    assert_eq!(directory.scatter_offset, Some(0));
    assert_eq!(directory.team_offset, Some(0x5b));
    assert_eq!(directory.code_limit64, Some(0));
    assert!(directory.executable.is_some());
    assert!(directory.runtime.is_none());
    assert_eq!(directory.bytes(), &bytes[CODE_LEN + 0x14e..][..0x186]);
}

#[test]
fn pages_and_slots_of_a_directory() {
    let bytes = bytes(SIGNED_TWICE);
    let directory = signature(&bytes).directory().unwrap();
    assert_eq!(directory.page(0), 0..0x10);
    assert_eq!(directory.page(3), 0x30..0x40);
    let hashes = &directory.bytes()[directory.head().hash_offset as usize..];
    assert_eq!(directory.code_slot(0), Some(&hashes[..32]));
    assert_eq!(directory.code_slot(3), Some(&hashes[96..128]));
    assert_eq!(directory.code_slot(4), None);
    let sealed = &directory.bytes()[directory.head().hash_offset as usize - 5 * 32..];
    assert_eq!(directory.special_slot(0), None);
    assert_eq!(directory.special_slot(1), Some(&sealed[128..160]));
    assert_eq!(directory.special_slot(5), Some(&sealed[..32]));
    assert_eq!(directory.special_slot(6), None);
}

#[test]
fn directories_in_the_order_of_the_index() {
    let bytes = bytes(SIGNED_TWICE);
    let found: Vec<_> = signature(&bytes)
        .directories()
        .map(|(slot, directory)| (slot, directory.unwrap().hash))
        .collect();
    assert_eq!(found, [(0, HashType::Sha1), (0x1000, HashType::Sha256)]);
}

#[test]
fn blobs_by_slots() {
    let bytes = bytes(SIGNED_TWICE);
    let signature = signature(&bytes);
    let slots: Vec<u32> = signature.blobs().map(|blob| blob.unwrap().slot).collect();
    assert_eq!(slots, [0, 0x1000, 2, 5, 0x10000]);
    assert_eq!(signature.blobs().len(), 5);
    assert_eq!(signature.requirement_bytes().unwrap(), Some(&[0; 4][..]));
    assert_eq!(signature.entitlements().unwrap(), Some(&b"<plist/>"[..]));
    assert_eq!(signature.der_entitlements().unwrap(), None);
    assert_eq!(signature.cms().unwrap(), Some(&[][..]));
    let blob = signature.blob(5).unwrap().unwrap();
    assert_eq!((blob.offset, blob.magic), (0x2e0, 0xfade7171));
    assert_eq!(blob.bytes.len(), 16);
}

#[test]
fn pages_of_other_bytes() {
    let bytes = bytes(SIGNED);
    let directory = signature(&bytes).directory().unwrap();
    let found: Vec<CodeFault> = directory.code_faults(&[0xff; CODE_LEN]).collect();
    let pages = [0, 1, 2, 3].map(|index: u32| CodeFault::Page {
        index,
        start: u64::from(index) * 16,
        end: u64::from(index) * 16 + 16,
    });
    assert_eq!(found, pages);
}

#[test]
fn a_file_that_the_caller_gives() {
    let bytes = bytes(SIGNED_TWICE);
    assert_eq!(faults(&bytes, None), [""; 0]);
    assert_eq!(faults(&bytes, Some(b"a file")), [""; 0]);
    let other = "info.plist: not what was signed";
    let alternate = format!("alternate 1: {other}");
    assert_eq!(faults(&bytes, Some(b"other")), [other, &alternate]);
}

/// The parts of the directory of `SIGNED` that no hash but its own covers: the low bytes of the version, the flags, the low bytes of the
/// offset of the identifier and of the count of special slots, the platform, spare fields, the executable segment, and the letters of the
/// identifier.
const FREE: [Range<usize>; 7] = [10..16, 23..24, 27..28, 38..39, 40..44, 52..56, 64..90];

/// Where the directory begins, and its code slots.
const DIRECTORY: usize = CODE_LEN + 20;
const SLOTS: usize = DIRECTORY + 91;

/// The faults if the byte at a place of `SIGNED` is another one; None if there are some, and it isn't fixed which.
fn expected(place: usize) -> Option<Vec<String>> {
    let page = |page: usize| {
        let (start, end) = (page * 16, page * 16 + 16);
        vec![format!(
            "page {page}: {start:#x}..{end:#x} is not what was signed"
        )]
    };
    match place {
        ..CODE_LEN => Some(page(place / 16)),
        SLOTS.. => Some(page((place - SLOTS) / 32)),
        CODE_LEN..DIRECTORY => None,
        _ => {
            let inside = place - DIRECTORY;
            let is_free = FREE.iter().any(|part| part.contains(&inside));
            is_free.then(Vec::new)
        }
    }
}

/// A changed byte is reported exactly if a hash covers it or a reader needs it.
#[test]
fn each_byte_changed() {
    let sound = bytes(SIGNED);
    assert_eq!(faults(&sound, None), [""; 0]);
    for place in 0..sound.len() {
        let mut changed = sound.clone();
        changed[place] ^= 1;
        let found = faults(&changed, None);
        match expected(place) {
            Some(words) => assert_eq!(found, words, "{place}"),
            None => assert!(!found.is_empty(), "{place}"),
        }
    }
}

#[test]
fn the_signature_of_an_image() {
    let bytes = bytes(SEALED);
    let image = MachO::parse(&bytes, 0).unwrap();
    let signature = image::code_signature(&image).unwrap().unwrap();
    assert_eq!((signature.count(), signature.bytes().len()), (1, 175));
    let directory = image::code_directory(&image).unwrap().unwrap();
    assert_eq!(directory.identifier().unwrap(), Some("id"));
    assert_eq!(directory.cdhash(), signature.directory().unwrap().cdhash());
    assert_eq!(image::image_plist(&image), Some(&b"<plist/>"[..]));
}

/// An image of 3,000 sections, of which the last is the sealed one. Each has four bytes, those at its number.
#[test]
fn the_last_of_many_sections() {
    let mut words = "cffaedfe 0c000001 00000000 02000000 01000000 c8a90300 00000000*2
        19000000 c8a90300 00000000*14 b80b0000 00000000"
        .to_string();
    for number in 1..=3000u32 {
        let last = if number == 3000 { "7400" } else { "0000" };
        let offset = number.swap_bytes();
        words += &format!(
            " 5f5f696e 666f5f70 6c6973{last}000000 5f5f5445 58540000 00000000*4
            04000000 00000000 {offset:08x} 00000000*7"
        );
    }
    let bytes = bytes(&words);
    let image = MachO::parse(&bytes, 0).unwrap();
    assert_eq!(image::image_plist(&image), Some(&bytes[3000..3004]));
}

/// Each fault of the code, and its words.
#[test]
fn words_of_faults_of_the_code() {
    let (place, index, slots) = (96, 1, 1);
    for (fault, words) in [
        (
            CodeFault::Scattered { place },
            "scattered at 96: pages are not looked at",
        ),
        (
            CodeFault::Limit {
                limit: 0x10000,
                len: 0x12af,
            },
            "covers 0x10000 of 0x12af bytes",
        ),
        (
            CodeFault::Slots { slots, pages: 2 },
            "1 code slots for 2 pages",
        ),
        (
            CodeFault::Page {
                index,
                start: 0x1000,
                end: 0x1200,
            },
            "page 1: 0x1000..0x1200 is not what was signed",
        ),
    ] {
        assert_eq!(fault.to_string(), words);
        assert_eq!(
            SignatureFault::First(DirectoryFault::Code(fault)).to_string(),
            words
        );
    }
}

/// Each fault of a slot, and its words.
#[test]
fn words_of_faults_of_slots() {
    for (fault, words) in [
        (SpecialFault::Unknown { slot: 12 }, "slot 0xc: not known"),
        (SpecialFault::Unsealed { slot: 1 }, "info.plist: not sealed"),
        (
            SpecialFault::Changed { slot: 5 },
            "entitlements: not what was signed",
        ),
        (
            SpecialFault::Absent { slot: 2 },
            "requirements: sealed, and absent",
        ),
    ] {
        assert_eq!(fault.to_string(), words);
        let fault = DirectoryFault::Special(fault);
        let slot = 0x1004;
        assert_eq!(
            SignatureFault::Alternate { slot, fault }.to_string(),
            format!("alternate 5: {words}")
        );
    }
}

/// Each other fault, and its words.
#[test]
fn words_of_other_faults() {
    let offset = || Error::Scroll(ScrollError::BadOffset(20));
    let (index, slot, magic) = (1, 5, 0xfade0c01);
    let (limit, dataoff) = (0x1000, 0x1200);
    for (fault, words) in [
        (
            SignatureFault::Blob {
                index,
                error: offset(),
            },
            "blob 1: offset 20 is past the end",
        ),
        (
            SignatureFault::Magic { index, slot, magic },
            "blob 1: entitlements: magic 0xfade0c01",
        ),
        (
            SignatureFault::Refused(Error::BufferTooShort(3, "code slots")),
            "code directory: 3 code slots do not fit the file",
        ),
        (
            SignatureFault::First(DirectoryFault::Identifier(offset())),
            "identifier: offset 20 is past the end",
        ),
        (
            SignatureFault::First(DirectoryFault::Team(Error::Malformed("a name"))),
            "team: malformed: a name",
        ),
        (
            SignatureFault::First(DirectoryFault::Short { limit, dataoff }),
            "covers 0x1000, and begins at 0x1200",
        ),
    ] {
        assert_eq!(fault.to_string(), words);
    }
}
