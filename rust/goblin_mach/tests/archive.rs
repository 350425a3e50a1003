//! What the vectors of archives don't say: calls on one place, names as bytes, iterators after a fault, and every prefix.
#![cfg(feature = "archive")]
mod archives;

use archives::archive;
use goblin_mach::archive::{Archive, Member};
use goblin_mach::{Error, Result, ScrollError, describe};

/// The name of a member, where its bytes are, and how many there are; or the error.
fn shown(member: Result<Member<'_>>) -> String {
    let of_one = |member: Member<'_>| {
        let name = member.name()?;
        Ok(format!(
            "{name} at {}, {} bytes",
            member.start,
            member.bytes.len()
        ))
    };
    match member.and_then(of_one) {
        Ok(text) => text,
        Err(Error::Malformed(_)) => "malformed".to_string(),
        Err(error) => describe(&error).to_string(),
    }
}

#[test]
fn members_at_places() {
    let bytes = archive(&[("a.o/", "2", b"xy")]);
    let archive = Archive::parse(&bytes).unwrap();
    for (place, want) in [
        (8, "a.o at 68, 2 bytes"),
        (0, "malformed"),
        (7, "malformed"),
        (9, "malformed"),
        (70, "offset 70 is past the end"),
        (usize::MAX, "offset 18446744073709551615 is past the end"),
    ] {
        assert_eq!(shown(archive.member_at(place)), want);
    }
}

#[test]
fn a_fault_ends_the_members() {
    let mut bytes = archive(&[("a.o/", "0", b""), ("b.o/", "0", b""), ("c.o/", "0", b"")]);
    bytes[127] = b'x';
    let mut members = Archive::parse(&bytes).unwrap().members();
    assert!(matches!(members.next(), Some(Ok(_))));
    assert!(matches!(members.next(), Some(Err(Error::Malformed(_)))));
    assert!(members.next().is_none());
    assert!(members.next().is_none());
}

#[test]
fn a_fault_ends_the_symbols() {
    let index = [&[0, 0, 0, 2, 0, 0, 0, 84, 0, 0, 0, 84][..], b"_a\0"].concat();
    let bytes = archive(&[("/", "15", &index)]);
    let mut symbols = Archive::parse(&bytes).unwrap().symbols().unwrap().unwrap();
    assert!(
        matches!(symbols.next(), Some(Ok(symbol)) if symbol.name == b"_a" && symbol.member == 84)
    );
    assert!(matches!(symbols.next(), Some(Err(Error::Malformed(_)))));
    assert!(symbols.next().is_none());
    assert!(symbols.next().is_none());
}

#[test]
fn a_name_that_is_no_text() {
    let mut bytes = archive(&[("x/", "0", b"")]);
    bytes[8] = 0xff;
    let member = Archive::parse(&bytes).unwrap().member_at(8).unwrap();
    assert!(matches!(
        member.name(),
        Err(Error::Scroll(ScrollError::BadInput { size: 1, .. }))
    ));
    assert_eq!(member.name_bytes().unwrap(), [0xff]);
}

#[test]
fn an_index_that_is_not_there_and_one_without_symbols() {
    let without = archive(&[]);
    assert!(
        Archive::parse(&without)
            .unwrap()
            .symbols()
            .unwrap()
            .is_none()
    );
    let empty = archive(&[("/", "4", &[0; 4])]);
    let mut symbols = Archive::parse(&empty).unwrap().symbols().unwrap().unwrap();
    assert!(symbols.next().is_none());
}

/// How many prefixes of an archive open. The members and the symbols of each are read.
fn opened_prefixes(bytes: &[u8]) -> usize {
    let opened = |len: &usize| {
        let Ok(archive) = Archive::parse(&bytes[..*len]) else {
            return false;
        };
        let read: Vec<_> = archive.members().map(shown).collect();
        assert!(read.len() <= len / 60);
        let symbols = archive.symbols().unwrap_or(None);
        assert!(symbols.into_iter().flatten().count() <= *len);
        true
    };
    (0..=bytes.len()).filter(opened).count()
}

#[test]
fn prefixes() {
    let numbers = [16u32, 0, 112, 3, 112, 8].map(u32::to_le_bytes).concat();
    let index = [b"__.SYMDEF\0\0\0".as_slice(), &numbers, b"_a\0_b\0\0\0"].concat();
    let bytes = archive(&[("#1/12", "44", &index)]);
    assert_eq!(bytes.len(), 112);
    assert_eq!(opened_prefixes(&bytes), 2);
    let names = b"long_name_of_a_file.o/\n\n";
    let bytes = archive(&[
        ("//", "23", names),
        ("/0", "2", b"xy"),
        ("/5", "0", b""),
        ("b.o/", "0", b""),
    ]);
    assert_eq!(bytes.len(), 274);
    assert_eq!(opened_prefixes(&bytes), 185);
}

#[test]
fn names_are_at_their_places() {
    let index = [&[0, 0, 0, 1, 0, 0, 0, 0][..], b"_ab\0"].concat();
    let gnu = archive(&[
        ("/", "12", &index),
        ("//", "8", b"long.o/\n"),
        ("/0", "0", b""),
        ("a.o/", "0", b""),
    ]);
    let bsd = archive(&[("#1/4", "6", b"ab\0\0xy"), ("c.o", "0", b"")]);
    for (bytes, want) in [
        (&gnu, [("long.o", 140), ("a.o", 208)]),
        (&bsd, [("ab", 68), ("c.o", 74)]),
    ] {
        let members = Archive::parse(bytes).unwrap().members();
        let found: Vec<_> = members.map(|it| it.unwrap().name_at().unwrap()).collect();
        for ((at, len), (name, place)) in found.iter().zip(want) {
            assert_eq!((&bytes[*at..at + len], *at), (name.as_bytes(), place));
        }
        assert_eq!(found.len(), want.len());
    }
    let symbols = Archive::parse(&gnu).unwrap().symbols().unwrap().unwrap();
    let places: Vec<_> = symbols.map(|it| it.unwrap().name_at).collect();
    assert_eq!(places, [76]);
    assert_eq!(&gnu[76..79], b"_ab");
}
