//! Whether files are sound, and what their reports say of those that aren't. Rows of machaudit have each kind of fault.
#![cfg(feature = "audit")]
#[path = "common/words.rs"]
mod words;

use goblin_mach::audit::{
    EntryReport, ImageReport, InputReport, ItemList, MOST_REPORTED, MemberReport, Parts, Report,
    SignatureReport, Soundness, audit,
};
use goblin_mach::layout::Rule;
use std::fs;
use words::bytes;

const LIMIT: usize = 1_000_000;

fn read(name: &str) -> Vec<u8> {
    fs::read(format!("tests/data/{name}")).unwrap()
}

fn verdict(bytes: &[u8]) -> Soundness {
    audit(bytes, LIMIT).unwrap().verdict()
}

/// A fat file with one entry, for x86-64, whose record has offset and size of 4 or 8 bytes.
fn fat(wide: bool, content: &[u8]) -> Vec<u8> {
    let mut bytes = 0xcafe_babe_u32.to_be_bytes().to_vec();
    bytes[3] += u8::from(wide);
    bytes.extend(1_u32.to_be_bytes());
    bytes.extend([0x0100_0007_u32.to_be_bytes(), 3_u32.to_be_bytes()].concat());
    for number in [0x4000, content.len() as u64] {
        let all = number.to_be_bytes();
        bytes.extend(if wide { &all[..] } else { &all[4..] });
    }
    bytes.extend(14_u32.to_be_bytes());
    bytes.resize(0x4000, 0);
    bytes.extend(content);
    bytes
}

fn archive(name: &str, image: &[u8]) -> Vec<u8> {
    let head = format!("!<arch>\n{name:<16}{:<32}{:<10}`\n", "", image.len());
    [head.as_bytes(), image].concat()
}

/// The parts of a file that is one image which opens.
fn parts(bytes: &[u8]) -> Parts {
    match audit(bytes, LIMIT).unwrap() {
        InputReport::Mach(Report::Image(ImageReport::Opens(parts))) => parts,
        other => panic!("{other:?}"),
    }
}

#[test]
fn an_image_is_sound() {
    let image = read("executable.macho");
    let parts = parts(&image);
    assert!(parts.sections.is_clean() && parts.symbols.is_clean());
    assert!(parts.relocations.unwrap().is_clean());
    assert!(parts.exports.is_clean() && parts.imports.is_clean());
    assert!(parts.fixups.is_clean() && parts.bindings.is_clean());
    assert!(matches!(parts.signature, SignatureReport::Unsigned));
    assert!(parts.layout.is_empty());
    assert_eq!(verdict(&image), Soundness::Sound);
}

#[test]
fn each_kind_of_file_is_sound_if_its_image_is() {
    let (image, faulty) = (read("executable.macho"), read("b.macho"));
    for wide in [false, true] {
        assert_eq!(verdict(&fat(wide, &image)), Soundness::Sound);
        assert_eq!(verdict(&fat(wide, &faulty)), Soundness::Faulty);
        assert_eq!(
            verdict(&fat(wide, &archive("a.o", &image))),
            Soundness::Sound
        );
    }
    assert_eq!(verdict(&archive("a.o", &image)), Soundness::Sound);
    assert_eq!(verdict(&archive("a.o", &faulty)), Soundness::Faulty);
}

#[test]
fn what_cannot_be_read_is_reported_with_its_place() {
    let mut image = read("executable.macho");
    // The place of the name of symbol 1.
    image[0x2048..0x204c].fill(0xff);
    let symbols = parts(&image).symbols;
    assert_eq!((symbols.in_bounds.faults, symbols.past), (1, 0));
    let fault = &symbols.in_bounds.reported[0];
    assert_eq!(fault.place.list, ItemList::Symbols);
    assert_eq!(fault.place.to_string(), "symbol 1");
    assert_eq!(verdict(&image), Soundness::Faulty);
}

#[test]
fn ten_faults_are_reported_and_the_others_counted() {
    // A header, and a table at its end of 12 records without names, with 2 more past the end.
    let mut image = bytes(
        "cffaedfe 07000001 03000000 02000000 01000000 18000000 00000000*2
        02000000 18000000 38000000 0e000000 f8000000 00000000",
    );
    image.resize(0x38 + 12 * 16, 0xff);
    let symbols = parts(&image).symbols;
    assert_eq!(symbols.in_bounds.reported.len(), MOST_REPORTED);
    assert_eq!((symbols.in_bounds.faults, symbols.past), (12, 2));
}

#[test]
fn faults_of_layout_are_reported() {
    let mut image = read("executable.macho");
    // The function starts begin where the exports do.
    image[0x390] = 0x20;
    let parts = parts(&image);
    let rules: Vec<Rule> = parts.layout.iter().map(|fault| fault.rule).collect();
    assert_eq!(rules, [Rule::ClaimsShare]);
    assert!(parts.exports.is_clean());
    assert_eq!(verdict(&image), Soundness::Faulty);
}

#[test]
fn a_limit_that_is_met_is_neither_sound_nor_faulty() {
    let image = read("executable.macho");
    let report = audit(&image, 0).unwrap();
    assert_eq!(report.verdict(), Soundness::Unended);
    assert_eq!(report.verdict().to_string(), "not sound: limit met");
    let file = fat(true, &image);
    assert_eq!(audit(&file, 0).unwrap().verdict(), Soundness::Unended);
}

#[test]
fn what_does_not_open_is_refused() {
    let report = audit(b"no image at all", LIMIT).unwrap();
    assert_eq!(report.verdict(), Soundness::Faulty);
    let InputReport::Mach(report) = report else {
        panic!("{report:?}")
    };
    assert!(report.refusal().is_some());
    assert_eq!(verdict(&[]), Soundness::Faulty);
    // A fat file of 64 bits without the end of its header.
    assert_eq!(
        verdict(&[0xca, 0xfe, 0xba, 0xbf, 0, 0, 0]),
        Soundness::Faulty
    );
}

#[test]
fn entries_and_members_have_reports_of_their_own() {
    let image = read("executable.macho");
    let file = fat(true, &archive("a.o", &image));
    let InputReport::Fat64(report) = audit(&file, LIMIT).unwrap() else {
        panic!("no fat file of 64 bits")
    };
    assert_eq!((report.count, report.cut), (1, false));
    assert!(report.container.is_empty());
    let EntryReport::Archive(archive) = &report.entries[0] else {
        panic!("{report:?}")
    };
    let MemberReport::Image(member, image) = &archive.members[0] else {
        panic!("{archive:?}")
    };
    assert_eq!(member.name().unwrap(), "a.o");
    assert_eq!(image.verdict(), Soundness::Sound);
}
