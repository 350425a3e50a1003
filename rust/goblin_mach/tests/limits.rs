//! Lists of thousands, in which each item differs from the others: all are there, in order. None of these lists has a limit below
//! what memory holds. The vectors have such lists of items that are equal.
use goblin_mach::exports::{Export, ExportInfo, ExportTrie};
use goblin_mach::load_command::{CommandVariant, DyldInfoCommand, LinkeditDataCommand};
use goblin_mach::{LibraryKind, LinkView, MachO, MultiArch, SingleArch, link_view};

/// Little-endian numbers of four bytes.
fn words(numbers: &[u32]) -> Vec<u8> {
    numbers
        .iter()
        .flat_map(|number| number.to_le_bytes())
        .collect()
}

/// Big-endian numbers of four bytes.
fn big_words(numbers: &[u32]) -> Vec<u8> {
    numbers
        .iter()
        .flat_map(|number| number.to_be_bytes())
        .collect()
}

/// A 64-bit little-endian image of so many commands, which are in the bytes, and so many bytes of them.
fn image(ncmds: u32, sizeofcmds: usize, rest: &[u8]) -> Vec<u8> {
    let header = words(&[
        0xfeed_facf,
        0x0100_0007,
        3,
        2,
        ncmds,
        sizeofcmds as u32,
        0,
        0,
    ]);
    [&header, rest].concat()
}

/// A number below 10,000 as four decimal digits.
fn digits(number: usize) -> String {
    format!("{number:04}")
}

/// A number below 2,097,152 as a ULEB128 number of three bytes.
fn groups(number: usize) -> [u8; 3] {
    [
        (number % 128 + 128) as u8,
        (number / 128 % 128 + 128) as u8,
        (number / 16_384) as u8,
    ]
}

/// A node without branches, of six bytes, whose export has this address.
fn leaf(address: usize) -> Vec<u8> {
    [&[4, 0][..], &groups(address), &[0]].concat()
}

#[test]
fn commands() {
    let uuids: Vec<u8> = (0..3000)
        .flat_map(|k| words(&[0x1b, 24, k, 0, 0, 0]))
        .collect();
    let bytes = image(3000, uuids.len(), &uuids);
    let image = MachO::parse(&bytes, 0).unwrap();
    assert_eq!(image.load_commands.len(), 3000);
    for (k, command) in image.load_commands.iter().enumerate() {
        assert_eq!(command.offset, 32 + 24 * k);
        let CommandVariant::Uuid(held) = command.command else {
            panic!("command {k} has no UUID");
        };
        assert_eq!(held.uuid[..4], (k as u32).to_le_bytes());
    }
}

#[test]
fn libraries() {
    let command = |k| {
        [
            &words(&[0xc, 32, 24, 0, 0, 0]),
            digits(k).as_bytes(),
            &[0; 4],
        ]
        .concat()
    };
    let commands: Vec<u8> = (0..300).flat_map(command).collect();
    let bytes = image(300, commands.len(), &commands);
    let image = MachO::parse(&bytes, 0).unwrap();
    assert_eq!(image.libs.len(), 301);
    assert_eq!(image.libs[0], "self");
    assert_eq!(image.libraries().count(), 300);
    for (k, library) in image.libraries().enumerate() {
        assert_eq!(image.libs[k + 1], digits(k));
        assert_eq!((library.ordinal, library.name), (k + 1, digits(k).as_str()));
        assert_eq!(library.kind, LibraryKind::Required);
    }
}

/// The command of a segment of a page, with so many sections.
fn segment(vmaddr: u32, nsects: u32) -> Vec<u8> {
    let size = 72 + 80 * nsects;
    words(&[
        0x19, size, 0x5f5f, 0, 0, 0, vmaddr, 0, 0x1000, 0, 0, 0, 0, 0, 0, 0, nsects, 0,
    ])
}

/// The record of a section at an address, with so many relocations from an offset on.
fn section(addr: u32, reloff: u32, nreloc: u32) -> Vec<u8> {
    words(&[
        0x5f5f, 0, 0, 0, 0x5f5f, 0, 0, 0, addr, 0, 0, 0, 0, 0, reloff, nreloc, 0, 0, 0, 0,
    ])
}

#[test]
fn segments_and_sections() {
    let sections: Vec<u8> = (0..300).flat_map(|addr| section(addr, 0, 0)).collect();
    let command = |k| match k {
        150 => [segment(0x1000 * k, 300), sections.clone()].concat(),
        _ => segment(0x1000 * k, 0),
    };
    let commands: Vec<u8> = (0..300).flat_map(command).collect();
    let bytes = image(300, commands.len(), &commands);
    let image = MachO::parse(&bytes, 0).unwrap();
    let addresses = image.segments.iter().map(|segment| segment.vmaddr);
    assert!(addresses.eq((0..300).map(|k| 0x1000 * k)));
    let sections = image.segments[150].sections().unwrap();
    assert!(sections.iter().map(|(section, _)| section.addr).eq(0..300));
}

#[test]
fn relocations() {
    let records: Vec<u8> = (0..3000).flat_map(|k| words(&[k, 0x2d00_0001])).collect();
    let bytes = image(
        1,
        152,
        &[segment(0, 1), section(0, 184, 3000), records].concat(),
    );
    let image = MachO::parse(&bytes, 0).unwrap();
    let mut of_sections = image.relocations().unwrap();
    assert_eq!(of_sections.len(), 1);
    let (_, items, _) = of_sections.pop().unwrap();
    let addresses = items.map(|item| item.unwrap().r_address);
    assert!(addresses.eq(0..3000));
}

#[test]
fn symbols() {
    let command = words(&[2, 24, 56, 3000, 48_056, 15_000]);
    let records: Vec<u8> = (0..3000)
        .flat_map(|k| words(&[5 * k, 0x010f, k, 0]))
        .collect();
    let names: Vec<u8> = (0..3000)
        .flat_map(|k| format!("{}\0", digits(k)).into_bytes())
        .collect();
    let bytes = image(1, 24, &[command, records, names].concat());
    let image = MachO::parse(&bytes, 0).unwrap();
    assert_eq!(image.symbols().count(), 3000);
    for (k, item) in image.symbols().enumerate() {
        let (name, symbol) = item.unwrap();
        assert_eq!((name, symbol.n_value), (digits(k).as_str(), k as u64));
    }
}

/// A fat file of 2,000 archives. The record of entry k is at 8 + 20k, for the cpu k. Its archive is at 40,008 + 16k.
fn archives() -> Vec<u8> {
    let mut bytes = big_words(&[0xcafe_babe, 2000]);
    bytes.extend((0..2000).flat_map(|k| big_words(&[k, 3, 40_008 + 16 * k, 16, 0])));
    bytes.extend((0..2000).flat_map(archive));
    bytes
}

/// An archive's magic, and a number.
fn archive(number: u32) -> Vec<u8> {
    [&b"!<arch>\n"[..], &words(&[number, 0])].concat()
}

#[test]
fn entries() {
    let bytes = archives();
    let file = MultiArch::new(&bytes).unwrap();
    let records = file.arches().unwrap();
    assert_eq!(records.len(), 2000);
    for (k, record) in (0..).zip(&records) {
        assert_eq!((record.cputype, record.offset), (k, 40_008 + 16 * k));
    }
    assert_eq!(file.into_iter().count(), 2000);
    for (k, entry) in (0..).zip(&file) {
        assert!(matches!(entry, Ok(SingleArch::Archive(held)) if held == archive(k)));
    }
    let items = link_view(&bytes).unwrap();
    assert_eq!(items.len(), 2000);
    for (k, item) in (0..).zip(&items) {
        assert!(matches!(item, Ok(LinkView::Archive(held)) if *held == archive(k)));
    }
}

/// A trie whose root has so many branches of 8 bytes, from 3 on. The label of child k is the digits of k, its address is k.
fn below_one_node(count: usize) -> Vec<u8> {
    let leaves = 3 + 8 * count;
    let mut bytes = vec![0, (count % 128 + 128) as u8, (count / 128) as u8];
    for k in 0..count {
        bytes.extend(format!("{}\0", digits(k)).into_bytes());
        bytes.extend(groups(leaves + 6 * k));
    }
    bytes.extend((0..count).flat_map(leaf));
    bytes
}

/// A chain of 5,000 nodes. Node k is at 11k, its address is k, and its only branch, with the label "a", leads to the next node.
fn along_a_path() -> Vec<u8> {
    let node = |k| [&[4, 0][..], &groups(k), &[1, b'a', 0], &groups(11 * k + 11)].concat();
    let mut bytes: Vec<u8> = (0..4999).flat_map(node).collect();
    bytes.extend(leaf(4999));
    bytes
}

/// An image of one command, which names this trie.
fn image_of(trie: &[u8]) -> Vec<u8> {
    let command = words(&[0x8000_0033, 16, 48, trie.len() as u32]);
    image(1, 16, &[&command, trie].concat())
}

/// Asserts that exports have these names, and that export k is a regular one at k.
fn assert_names(exports: &[Export<'_>], name: impl Fn(usize) -> String) {
    assert_eq!(exports.len(), 5000);
    for (k, export) in exports.iter().enumerate() {
        assert_eq!(
            (export.name.as_str(), export.offset),
            (name(k).as_str(), k as u64)
        );
        assert!(matches!(export.info, ExportInfo::Regular { address, .. } if address == k as u64));
    }
}

/// Asserts that the exports of a trie have these names, by both commands, and that a walk over an image has the same.
fn assert_exports(trie: &[u8], name: impl Fn(usize) -> String) {
    let size = trie.len() as u32;
    let command = DyldInfoCommand {
        export_size: size,
        ..Default::default()
    };
    assert_names(
        &ExportTrie::new(trie, &command).exports(&[]).unwrap(),
        &name,
    );
    let command = LinkeditDataCommand {
        datasize: size,
        ..Default::default()
    };
    let by_data = ExportTrie::new_from_linkedit_data_command(trie, &command);
    assert_names(&by_data.exports(&[]).unwrap(), &name);
    let bytes = image_of(trie);
    let image = MachO::parse(&bytes, 0).unwrap();
    let mut walk = image.walk_exports().unwrap();
    let mut walked = 0;
    while let Some(item) = walk.next() {
        let (found, info) = item.unwrap();
        assert_eq!(found, name(walked));
        assert!(matches!(info, ExportInfo::Regular { address, .. } if address == walked as u64));
        walked += 1;
    }
    assert_eq!(walked, 5000);
    assert!(walk.next().is_none());
}

#[test]
fn exports_below_one_node() {
    assert_exports(&below_one_node(5000), digits);
}

#[test]
fn exports_along_a_path() {
    assert_exports(&along_a_path(), |k| "a".repeat(k));
}

/// The address of a regular export that is found, if one is.
fn address(image: &MachO<'_>, name: &str) -> Option<u64> {
    match image.find_export(name).unwrap() {
        Some(ExportInfo::Regular { address, .. }) => Some(address),
        Some(other) => panic!("{name} is {other:?}"),
        None => None,
    }
}

#[test]
fn look_ups_below_one_node() {
    let bytes = image_of(&below_one_node(2000));
    let image = MachO::parse(&bytes, 0).unwrap();
    for k in 0..2000 {
        assert_eq!(address(&image, &digits(k)), Some(k as u64));
    }
    for name in ["2000", "000", "00000", ""] {
        assert_eq!(address(&image, name), None);
    }
}

/// A trie of 3,000 names. Below the root there is a branch for each of the first two digits, and below each of these 30 nodes
/// one for each of the last two. The address of the name k is k.
fn of_two_levels() -> Vec<u8> {
    let branch = |label: &str, place| [label.as_bytes(), &[0], &groups(place)].concat();
    let mut bytes = vec![0, 30];
    bytes.extend((0..30).flat_map(|k| branch(&digits(k)[2..], 182 + 602 * k)));
    for k in 0..30 {
        bytes.extend([0, 100]);
        let place = |below| 18_242 + 6 * (100 * k + below);
        bytes.extend((0..100).flat_map(|below| branch(&digits(below)[2..], place(below))));
    }
    bytes.extend((0..3000).flat_map(leaf));
    bytes
}

#[test]
fn look_ups_on_two_levels() {
    let bytes = image_of(&of_two_levels());
    let image = MachO::parse(&bytes, 0).unwrap();
    assert_eq!(image.exports().unwrap().len(), 3000);
    for k in 0..3000 {
        assert_eq!(address(&image, &digits(k)), Some(k as u64));
    }
    for name in ["3000", "12", "12345", ""] {
        assert_eq!(address(&image, name), None);
    }
}
