//! What the types of the crate have beside what their sources say: comparison, hashes, copies, `Debug` and ends that stay.
mod common;

use goblin_mach::exports::Export;
use goblin_mach::header::Header;
use goblin_mach::load_command::{CommandVariant, LoadCommand, NoteCommand, UuidCommand};
use goblin_mach::segment::{Section, Segment};
use goblin_mach::symbols::{Nlist, Nlist64};
use goblin_mach::{Binding, Error, LE, Mach, MachO, Record};
use std::collections::HashSet;
use std::fmt::Debug;
use std::hash::Hash;
use std::iter::FusedIterator;

/// Reads an iterator, which must end, and stay at its end. Returns how many items it had.
fn ends(mut items: impl FusedIterator + Debug) -> usize {
    assert!(!format!("{items:?}").is_empty());
    let count = items.by_ref().count();
    for _ in 0..3 {
        assert!(items.next().is_none());
    }
    count
}

#[test]
fn iterators_stay_at_their_end() {
    let mut items = 0;
    for mut bytes in common::files() {
        // Whole images, and the same with a fault somewhere.
        for cut in [0, 40, 300] {
            let kept = bytes.len().saturating_sub(cut);
            bytes.truncate(kept);
            let Ok(image) = MachO::parse_lossy(&bytes, 0) else {
                continue;
            };
            items += ends(image.symbols()) + ends(image.bindings()) + ends(image.rebases());
            items += ends(image.weak_binds()) + ends(image.fixups()) + ends(image.iter_imports());
            items += ends(image.sections()) + ends(image.libraries()) + ends(image.symbol_slots());
            items += ends(image.indirect_symbols()) + ends(image.notes());
            items += ends(image.symbols_named("_main")) + ends(image.segments.sections());
            items += image
                .segments
                .iter()
                .map(|one| ends(one.into_iter()))
                .sum::<usize>();
            if let Ok(walk) = image.walk_exports() {
                items += ends(walk.into_iter());
            }
        }
        let Ok(Mach::Fat(file)) = Mach::parse(&bytes) else {
            continue;
        };
        items += ends(file.iter_arches()) + ends(file.into_iter()) + ends(file.machos());
    }
    assert!(items > 100, "{items}");
}

#[cfg(feature = "archive")]
#[test]
fn images_of_a_file_stay_at_their_end() {
    for bytes in common::files() {
        if let Ok(input) = goblin_mach::Input::parse(&bytes) {
            assert_eq!(ends(input.images()), ends(input.machos()));
        }
    }
}

fn is_value<T: Clone + PartialEq + Eq + Hash + Debug>() {}

fn is_copied<T: Clone + Debug>() {}

#[test]
fn values_are_compared_and_copied() {
    is_value::<Header>();
    is_value::<Nlist>();
    is_value::<LoadCommand>();
    is_value::<CommandVariant>();
    is_value::<Binding<'_>>();
    is_value::<Export<'_>>();
    is_value::<Section>();
    is_value::<Error>();
    is_copied::<MachO<'_>>();
    is_copied::<Mach<'_>>();
    is_copied::<Segment<'_>>();
    let nlist = |n_value| Nlist64 {
        n_strx: 1,
        n_type: 2,
        n_sect: 3,
        n_desc: 4,
        n_value,
    };
    assert_eq!(nlist(5), nlist(5));
    assert_ne!(nlist(5), nlist(6));
    assert_eq!(HashSet::from([nlist(5), nlist(6), nlist(5)]).len(), 2);
    assert_eq!(
        MachO::parse(b"", 0).unwrap_err(),
        MachO::parse(b"", 0).unwrap_err()
    );
    assert_ne!(
        MachO::parse(b"", 0).unwrap_err(),
        MachO::parse(&[7; 40], 0).unwrap_err()
    );
}

#[test]
fn a_copy_of_an_image_is_the_same() {
    let bytes = std::fs::read("tests/data/b.macho").unwrap();
    let image = MachO::parse(&bytes, 0).unwrap();
    let copy = image.clone();
    assert_eq!(copy.load_commands, image.load_commands);
    assert_eq!(copy.exports().unwrap(), image.exports().unwrap());
    assert_eq!(format!("{copy:?}"), format!("{image:?}"));
}

#[test]
fn records_are_shown_in_hexadecimal() {
    let mut bytes = [0x11; 24];
    bytes[8..10].copy_from_slice(&[0xab, 0x0c]);
    let uuid = UuidCommand::read(&bytes, 0, LE).unwrap();
    let shown = "UuidCommand { cmd: 0x11111111, cmdsize: 0x11111111, uuid: ab0c1111111111111111111111111111 }";
    assert_eq!(format!("{uuid:?}"), shown);
    assert_eq!(
        format!("{:?}", CommandVariant::Uuid(uuid)),
        format!("Uuid({shown})")
    );
    let mut bytes = [0; 40];
    bytes[8..14].copy_from_slice(b"a\"b\xc3\xa9c");
    let note = NoteCommand::read(&bytes, 0, LE).unwrap();
    let shown =
        r#"NoteCommand { cmd: 0x0, cmdsize: 0x0, data_owner: "a\"béc", offset: 0x0, size: 0x0 }"#;
    assert_eq!(format!("{note:?}"), shown);
    bytes[9] = 0xff;
    let note = NoteCommand::read(&bytes, 0, LE).unwrap();
    assert!(format!("{note:?}").contains("data_owner: [97, 255, 98,"));
    let header = Header {
        magic: 0xfeed_facf,
        ..Header::default()
    };
    assert!(format!("{header:?}").starts_with("Header { magic: 0xfeedfacf, cputype: 0x0,"));
}
