//! Requirements as texts, and how a signature has them by their types.
#![cfg(feature = "signature")]
#[path = "common/words.rs"]
mod words;

use goblin_mach::Error;
use goblin_mach::signature::CodeSignature;
use goblin_mach::signature::requirements::{Quotes, Requirement, RequirementType};
use words::bytes;

/// Requirements that were assembled by hand from `requirement.h`, with the texts that `reqdumper.cpp` gives them. Each text in one is
/// between quotation marks, and `exists` is no comment. Those from `not simple` on are no expressions.
const REQUIREMENTS: [(&str, &str); 19] = [
    (
        "fade0c00 00000028 00000001 00000006 00000007 00000003 00000001 00000007 00000000 0000000d",
        "(anchor apple or always) and (never or anchor trusted)",
    ),
    (
        "fade0c00 00000028 00000001 00000007 00000006 00000003 00000001 00000006 00000000 0000000d",
        "anchor apple and always or never and anchor trusted",
    ),
    (
        "fade0c00 00000030 00000001 00000009 00000007 00000009 00000003 00000006 00000009 00000009 00000001
         00000000",
        "! (! anchor apple or ! ! always and never)",
    ),
    (
        "fade0c00 00000028 00000001 00000007 00000007 00000003 00000001 00000007 00000000 0000000d",
        "anchor apple or always or never or anchor trusted",
    ),
    (
        "fade0c00 00000018 00000001 00000006 00000015 00000017",
        "notarized and legacy",
    ),
    (
        "fade0c00 0000004c 00000001 00000007 00000008 00000014 00010203 04050607 08090a0b 0c0d0e0f 10111213
         00000004 ffffffff 00000014 00010203 04050607 08090a0b 0c0d0e0f 10111213",
        r#"cdhash H"000102030405060708090a0b0c0d0e0f10111213" or certificate root = H"000102030405060708090a0b0c0d0e0f10111213""#,
    ),
    (
        "fade0c00 00000074 00000001 00000006 0000000a 0000000f 43464275 6e646c65 56657273 696f6e00 00000008
         00000001 37000000 00000006 00000010 0000000d 636f6d2e 6170706c 652e612d 62000000 0000000e 00000006
         00000011 fffffffe 00000002 2a030000 00000000 0000000c 00000002",
        r#"info[CFBundleVersion] >= "7" and entitlement["com.apple.a-b"] absent and certificate -2[policy.0x2a03] exists and certificate 2 trusted"#,
    ),
    (
        "fade0c00 000000b0 00000001 00000006 0000000a 00000001 61000000 00000002 00000001 78000000 00000006
         0000000a 00000001 62000000 00000003 00000001 78000000 00000006 0000000a 00000001 63000000 00000004
         00000001 78000000 00000006 0000000a 00000001 64000000 00000005 00000001 78000000 00000006 0000000a
         00000001 65000000 00000006 00000001 78000000 0000000a 00000001 66000000 00000007 00000001 78000000",
        r#"info[a] ~ "x" and info[b] = "x"* and info[c] = *"x" and info[d] < "x" and info[e] > "x" and info[f] <= "x""#,
    ),
    (
        "fade0c00 00000074 00000001 00000006 00000002 0000001d 7822206f 7220616c 77617973 206f7220 6964656e
         74696669 65722022 79000000 00000006 00000002 00000003 615c6200 00000006 00000002 00000002 c3bc0000
         00000006 00000002 00000000 0000000a 00000003 615d6200 00000000",
        r#"identifier 0x7822206f7220616c77617973206f72206964656e746966696572202279 and identifier 0x615c62 and identifier 0xc3bc and identifier "" and info["a]b"] exists"#,
    ),
    (
        "fade0c00 00000094 00000001 00000006 00000006 00000006 0000000f 0000000e 00000001 0000000a 2a864886
         f7636406 02060000 00000000 0000000e 00000000 0000000a 2a864886 f7636406 010d0000 00000000 00000006
         0000000b 00000000 0000000a 7375626a 6563742e 4f550000 00000001 00000004 5445414d 00000002 0000000d
         636f6d2e 6578616d 706c652e 61000000",
        r#"anchor apple generic and certificate 1[field.1.2.840.113635.100.6.2.6] exists and certificate leaf[field.1.2.840.113635.100.6.1.13] exists and certificate leaf[subject.OU] = "TEAM" and identifier "com.example.a""#,
    ),
    (
        "fade0c00 00000018 00000001 00000012 00000001 78000000",
        "not simple: fade0c000000001800000001000000120000000178000000",
    ),
    (
        "fade0c00 00000010 00000001 40000015",
        "not simple: fade0c00000000100000000140000015",
    ),
    (
        "fade0c00 00000014 00000001 00000001 00000000",
        "not simple: fade0c0000000014000000010000000100000000",
    ),
    (
        "fade0c00 00000014 00000001 00000006 00000001",
        "not simple: fade0c0000000014000000010000000600000001",
    ),
    (
        "fade0c00 00000014 00000001 00000002 fffffffc",
        "not simple: fade0c00000000140000000100000002fffffffc",
    ),
    (
        "fade0c00 0000001c 00000001 0000000a 00000001 61000000 00000009",
        "not simple: fade0c000000001c000000010000000a000000016100000000000009",
    ),
    (
        "fade0c00 00000010 00000002 00000001",
        "not simple: fade0c00000000100000000200000001",
    ),
    (
        "fade0c01 00000010 00000001 00000001",
        "not simple: fade0c01000000100000000100000001",
    ),
    (
        "fade0c00 00000018 00000001 0000000a 00000000 00000000",
        r#"info[""] exists"#,
    ),
];

/// A signature with this blob in the slot of requirements alone.
fn signature_of(blob: &[u8]) -> Vec<u8> {
    let words = [0xfade_0cc0, 20 + blob.len() as u32, 1, 2, 20];
    [&words.map(u32::to_be_bytes).concat(), blob].concat()
}

/// What a signature of such a blob has as its requirement of a type.
fn text_of(blob: &str, kind: RequirementType) -> Result<Option<String>, Error> {
    let bytes = signature_of(&bytes(blob));
    let requirements = CodeSignature::parse(&bytes)?.requirements()?;
    let found = requirements.unwrap().get(kind)?;
    Ok(found.map(|requirement| requirement.to_string()))
}

#[test]
fn texts() {
    for (words, text) in REQUIREMENTS {
        let bytes = bytes(words);
        let requirement = Requirement::new(&bytes);
        assert_eq!(requirement.to_string(), text);
        assert_eq!(requirement.is_simple(), !text.starts_with("not simple: "));
        let escaped = text.replace('"', "\\\"");
        assert_eq!(requirement.text(Quotes::Escaped).to_string(), escaped);
        assert_eq!(requirement.text(Quotes::Plain).to_string(), text);
    }
}

#[test]
fn depths() {
    for (depth, is_simple) in [(1, true), (1000, true), (1001, false), (100_000, false)] {
        let mut words = vec![0xfade_0c00, 12 + 4 * depth, 1];
        words.resize(2 + depth as usize, 9);
        words.push(1);
        let bytes: Vec<u8> = words.into_iter().flat_map(u32::to_be_bytes).collect();
        let requirement = Requirement::new(&bytes);
        assert_eq!(requirement.is_simple(), is_simple);
        if is_simple {
            let text = "! ".repeat(depth as usize - 1) + "always";
            assert_eq!(requirement.to_string(), text);
        }
    }
}

#[test]
fn the_first_of_each_type() {
    let blob = "fade0c01 0000006c 00000004 00000003 0000002c 00000003 0000003c 00000000 0000004c 00000006 0000005c
        fade0c00 00000010 00000001 00000003 fade0c00 00000010 00000001 00000000
        fade0c00 00000010 00000001 00000000 fade0c00 00000010 00000001 00000000";
    let types = [
        RequirementType::Host,
        RequirementType::Guest,
        RequirementType::Designated,
        RequirementType::Library,
        RequirementType::Plugin,
    ];
    let found = types.map(|kind| text_of(blob, kind).unwrap());
    assert_eq!(found, [None, None, Some("anchor apple".into()), None, None]);
    assert_eq!(types.map(RequirementType::number), [1, 2, 3, 4, 5]);
}

#[test]
fn what_cannot_be_read() {
    let past = "fade0c01 0000001c 00000001 00000003 00000020 fade0c00 00000010";
    assert!(text_of(past, RequirementType::Designated).is_err());
    assert_eq!(text_of(past, RequirementType::Host).unwrap(), None);
    for index in [
        "fade0c01 00000010 00000001 00000003",
        "fade0c02 0000000c 00000000",
    ] {
        let bytes = signature_of(&bytes(index));
        let signature = CodeSignature::parse(&bytes).unwrap();
        assert!(matches!(signature.requirements(), Err(Error::Malformed(_))));
        assert!(!signature.has_readable_requirements());
    }
    let none = bytes("fade0cc0 0000000c 00000000");
    let signature = CodeSignature::parse(&none).unwrap();
    assert!(signature.requirements().unwrap().is_none());
    assert!(signature.has_readable_requirements());
}
