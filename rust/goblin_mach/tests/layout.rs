//! The ranges of the file that an image claims. Vectors have the faults of layout.
#![cfg(feature = "layout")]
#[path = "common/words.rs"]
mod words;

use goblin_mach::MachO;
use goblin_mach::layout::{Claim, Owner, Part, claims};
use words::bytes;

/// An image of 64 bits whose commands place each kind of table. Nothing of what they place is there.
const TABLES: &str = "
    cffaedfe 07000001 03000000 06000000 10000000 60020000 00000000*2
    19000000 e8000000 5f5f5445 58540000 00000000*6 00300000 00000000 00300000 00000000 05000000*2 02000000 00000000
    5f5f7465 78740000 00000000*2 5f5f5445 58540000 00000000*4 10000000 00000000 000f0000 00000000 00400000 03000000 00000000*4
    5f5f6273 73000000 00000000*2 5f5f5445 58540000 00000000*4 10000000 00000000*5 01000000 00000000*3
    02000000 18000000 01000000 02000000 03000000 04000000
    0b000000 50000000 00000000*6 01000000*2 02000000*2 03000000*2 04000000*2 05000000*2 06000000*2
    22000080 30000000 01000000 11000000 02000000 12000000 03000000 13000000 04000000 14000000 05000000 15000000
    1d000000 10000000 01000000 21000000
    1e000000 10000000 02000000 22000000
    26000000 10000000 03000000 23000000
    29000000 10000000 04000000 24000000
    2b000000 10000000 05000000 25000000
    2e000000 10000000 06000000 26000000
    33000080 10000000 07000000 27000000
    34000080 10000000 08000000 28000000
    2c000000 18000000 09000000 29000000 00000000*2
    31000000 28000000 6f776e65 72000000 00000000*2 0a000000 00000000 2a000000 00000000
    16000000 10000000 0b000000 2b000000
    03000000 10000000 0c000000 2c000000";

fn claim((part, command, index, start, len): (Part, u64, u64, u64, u64)) -> Claim {
    let owner = Owner {
        part,
        command,
        index,
    };
    Claim { owner, start, len }
}

/// What they claim: the part, its command and its number there, where it begins, and how many bytes it has.
const CLAIMS: [(Part, u64, u64, u64, u64); 31] = [
    (Part::Header, 0, 0, 0, 640),
    (Part::Segment, 32, 0, 0x3000, 0x3000),
    (Part::Section, 32, 1, 0xf00, 16),
    (Part::Relocations, 32, 1, 0x4000, 3 * 8),
    // filled with zeros
    (Part::Section, 32, 2, 0, 0),
    (Part::Relocations, 32, 2, 0, 0),
    (Part::Symbols, 264, 0, 1, 2 * 16),
    (Part::Strings, 264, 0, 3, 4),
    (Part::TableOfContents, 288, 0, 1, 8),
    (Part::Modules, 288, 0, 2, 2 * 56),
    (Part::ExternalReferences, 288, 0, 3, 3 * 4),
    (Part::IndirectSymbols, 288, 0, 4, 4 * 4),
    (Part::ExternalRelocations, 288, 0, 5, 5 * 8),
    (Part::LocalRelocations, 288, 0, 6, 6 * 8),
    (Part::RebaseOpcodes, 368, 0, 1, 0x11),
    (Part::BindOpcodes, 368, 0, 2, 0x12),
    (Part::WeakBindOpcodes, 368, 0, 3, 0x13),
    (Part::LazyBindOpcodes, 368, 0, 4, 0x14),
    (Part::ExportTrie, 368, 0, 5, 0x15),
    (Part::Signature, 416, 0, 1, 0x21),
    (Part::SplitInfo, 432, 0, 2, 0x22),
    (Part::FunctionStarts, 448, 0, 3, 0x23),
    (Part::DataInCode, 464, 0, 4, 0x24),
    (Part::SignatureRequirements, 480, 0, 5, 0x25),
    (Part::LinkerHints, 496, 0, 6, 0x26),
    (Part::ExportTrie, 512, 0, 7, 0x27),
    (Part::ChainedFixups, 528, 0, 8, 0x28),
    (Part::Encrypted, 544, 0, 9, 0x29),
    (Part::Note, 568, 0, 10, 0x2a),
    (Part::TwolevelHints, 608, 0, 11, 0x2b * 4),
    (Part::GdbSymbols, 624, 0, 12, 0x2c),
];

#[test]
fn claims_of_each_command() {
    let bytes = bytes(TABLES);
    let image = MachO::parse_lossy(&bytes, 0).unwrap();
    let found: Vec<Claim> = claims(&image).collect();
    assert_eq!(found, CLAIMS.map(claim));
}

#[test]
fn a_claim_of_64_bits_ends_past_them() {
    let claim = claim((Part::Segment, 32, 0, u64::MAX, u64::MAX));
    assert_eq!(claim.end(), 2 * u128::from(u64::MAX));
}

/// An object file whose only command is unknown.
#[test]
fn an_unknown_command_claims_nothing() {
    let bytes = bytes(
        "cffaedfe 07000001 03000000 01000000*2 1c000000 00000000*2 7f000000 1c000000 00000000*5",
    );
    let image = MachO::parse(&bytes, 0).unwrap();
    let found: Vec<Claim> = claims(&image).collect();
    assert_eq!(found, [claim((Part::Header, 0, 0, 0, 60))]);
}

/// A library of 3,000 segments, each of which counts 2^32 - 1 sections and has room for none.
#[test]
fn segments_have_no_sections_of_others() {
    let mut words = "cffaedfe 07000001 03000000 06000000 b80b0000 c04b0300 00000000*2".to_string();
    for _ in 0..3000 {
        words += " 19000000 48000000 00000000*14 ffffffff 00000000";
    }
    let bytes = bytes(&words);
    let image = MachO::parse_lossy(&bytes, 0).unwrap();
    let parts: Vec<Part> = claims(&image).map(|claim| claim.owner.part).collect();
    assert_eq!(parts.len(), 3001);
    assert_eq!(parts[0], Part::Header);
    assert!(parts[1..].iter().all(|part| *part == Part::Segment));
}
