//! Segments, sections, symbols, functions and offsets that are looked up by names, addresses and offsets.
use goblin_mach::{
    AddressMap, AllStretches, FoundAt, Function, MachO, Stretch, Stretches, SymbolMap,
};

/// A name of 16 bytes, padded with zeros.
fn padded(name: &str) -> [u8; 16] {
    let mut bytes = [0; 16];
    bytes[..name.len()].copy_from_slice(name.as_bytes());
    bytes
}

/// A segment's command: its name, [vmaddr, vmsize, fileoff, filesize] and its sections, each with an address and a size.
fn segment(name: &str, numbers: [u64; 4], sections: &[(&str, &str, u64, u64)]) -> Vec<u8> {
    let size = 72 + 80 * sections.len() as u32;
    let mut bytes = [0x19u32, size].map(u32::to_le_bytes).concat();
    bytes.extend(padded(name));
    bytes.extend(numbers.map(u64::to_le_bytes).concat());
    bytes.extend(
        [7, 7, sections.len() as u32, 0]
            .map(u32::to_le_bytes)
            .concat(),
    );
    for &(segname, sectname, address, size) in sections {
        bytes.extend(padded(sectname));
        bytes.extend(padded(segname));
        bytes.extend([address, size].map(u64::to_le_bytes).concat());
        bytes.extend([0; 32]);
    }
    bytes
}

/// A symbol's record.
fn symbol(name: u32, kind: u8, section: u8, value: u64) -> Vec<u8> {
    let mut bytes = name.to_le_bytes().to_vec();
    bytes.extend([kind, section, 0, 0]);
    bytes.extend(value.to_le_bytes());
    bytes
}

const NAMES: &[u8] = b"\0_a\0l_b\0_b\0stab\0_data\0";

/// An image of two segments with two sections each, seven symbols and three function starts. It claims `count` symbols.
fn image(count: u32) -> Vec<u8> {
    let symbols = [
        symbol(1, 0x0f, 1, 0x1100),
        symbol(4, 0x0e, 1, 0x1110),
        symbol(8, 0x0f, 1, 0x1110),
        symbol(11, 0x24, 1, 0x1118),
        symbol(16, 0x0f, 3, 0x1118),
        symbol(1, 0x03, 1, 0x1112),
        symbol(0xffff, 0x0f, 1, 0x1119),
    ];
    image_of(&symbols, count)
}

/// The same image with other symbols.
fn image_of(symbols: &[Vec<u8>], count: u32) -> Vec<u8> {
    let symbols = symbols.concat();
    let text = [
        ("__TEXT", "__text", 0x1100, 0x40),
        ("__TEXT", "__const", 0x1140, 0x20),
    ];
    let data = [
        ("__DATA", "__data", 0x3000, 0x10),
        ("__DATA", "__text", 0x3010, 0x10),
    ];
    let commands = 2 * (72 + 160) + 24 + 16;
    let starts = 32 + commands;
    let symoff = starts + 8;
    let stroff = symoff + symbols.len() as u32;
    let mut bytes = [0xfeed_facf, 0x0100_0007, 3, 2, 4, commands, 0, 0]
        .map(u32::to_le_bytes)
        .concat();
    bytes.extend(segment("__TEXT", [0x1000, 0x1000, 0, 0x300], &text));
    bytes.extend(segment("__DATA", [0x3000, 0x18, 0x300, 0x20], &data));
    let symtab = [2, 24, symoff, count, stroff, NAMES.len() as u32];
    bytes.extend(symtab.map(u32::to_le_bytes).concat());
    bytes.extend([0x26, 16, starts, 8].map(u32::to_le_bytes).concat());
    bytes.extend([0x80, 0x02, 0x10, 0x40, 0, 0, 0, 0]);
    bytes.extend(symbols);
    bytes.extend(NAMES);
    bytes.resize(bytes.len().max(0x320), 0);
    bytes
}

#[test]
fn segments_and_sections_by_name() {
    let bytes = image(7);
    let image = MachO::parse(&bytes, 0).unwrap();
    assert_eq!(image.segment_named("__DATA").unwrap().vmaddr, 0x3000);
    assert!(image.segment_named("__DAT").is_none());
    assert!(image.segment_named("").is_none());
    let found = |segment, section| {
        let found = image.section_named(segment, section)?;
        Some((found.segment, found.number, found.section.addr))
    };
    assert_eq!(found("__TEXT", "__text"), Some((0, 0, 0x1100)));
    assert_eq!(found("__DATA", "__text"), Some((1, 1, 0x3010)));
    assert_eq!(found("__TEXT", "__data"), None);
    assert_eq!(image.sections().flatten().count(), 4);
}

#[test]
fn symbols_by_name() {
    let bytes = image(7);
    let image = MachO::parse(&bytes, 0).unwrap();
    let found = |name| {
        image
            .symbol_named(name)
            .map(|found| (found.0, found.1.n_value))
    };
    assert_eq!(found("_a"), Some((0, 0x1100)));
    assert_eq!(found("_data"), Some((4, 0x1118)));
    assert_eq!(found("_dat"), None);
    // Only a debugging entry has this name.
    assert_eq!(found("stab"), None);
}

#[test]
fn all_symbols_of_a_name() {
    // `N_GSYM` and `N_FUN` before the symbols of their name, and an entry whose name can't be read.
    let symbols = [
        symbol(1, 0x20, 0, 0),
        symbol(8, 0x24, 1, 0x1100),
        symbol(0xffff, 0x0f, 1, 0x1108),
        symbol(1, 0x0f, 1, 0x1110),
        symbol(8, 0x0e, 1, 0x1120),
        symbol(1, 0x0e, 1, 0x1130),
        symbol(11, 0x64, 0, 0),
    ];
    let bytes = image_of(&symbols, 7);
    let image = MachO::parse(&bytes, 0).unwrap();
    let all = |name| {
        let found = image.symbols_named(name);
        found
            .map(|(index, symbol)| (index, symbol.n_type, symbol.n_value))
            .collect::<Vec<_>>()
    };
    let first = |name| image.symbol_named(name).map(|found| found.0);
    assert_eq!(
        all("_a"),
        [(0, 0x20, 0), (3, 0x0f, 0x1110), (5, 0x0e, 0x1130)]
    );
    assert_eq!(all("_b"), [(1, 0x24, 0x1100), (4, 0x0e, 0x1120)]);
    assert_eq!(all("stab"), [(6, 0x64, 0)]);
    assert_eq!(all("_c"), []);
    assert_eq!(
        ["_a", "_b", "stab", "_c"].map(first),
        [Some(3), Some(4), None, None]
    );
}

#[test]
fn an_unreadable_name_hides_no_symbol() {
    // The nearest record has no name; of those before it the last of the greatest value counts.
    let symbols = [
        symbol(1, 0x0f, 1, 0x1100),
        symbol(0xffff, 0x0f, 1, 0x1108),
        symbol(8, 0x0f, 1, 0x1104),
        symbol(4, 0x0f, 1, 0x1104),
        symbol(0xffff, 0x0f, 1, 0x1104),
        symbol(0xffff, 0x0f, 1, 0x1110),
    ];
    let bytes = image_of(&symbols, 6);
    let image = MachO::parse(&bytes, 0).unwrap();
    let found = |address| {
        image
            .symbol_at(address)
            .map(|found| (found.index, found.name))
    };
    assert_eq!(found(0x1120), Some((3, "l_b")));
    assert_eq!(found(0x1109), Some((3, "l_b")));
    assert_eq!(found(0x1103), Some((0, "_a")));
}

#[test]
fn symbols_at_addresses() {
    // A count in a file is no work: the records after the end of the bytes aren't visited.
    for count in [7, u32::MAX] {
        let bytes = image(count);
        let image = MachO::parse(&bytes, 0).unwrap();
        let found = |address| {
            let found = image.symbol_at(address)?;
            assert_eq!(found.symbol.n_value + found.distance, address);
            Some((found.index, found.name, found.distance))
        };
        let rows = [
            ("before all sections", 0x10ff, None),
            ("its value", 0x1100, Some((0, "_a", 0))),
            ("before the next", 0x110f, Some((0, "_a", 15))),
            ("the last of two", 0x1110, Some((2, "_b", 0))),
            (
                "no stab, no absolute symbol, no other section",
                0x113f,
                Some((2, "_b", 0x2f)),
            ),
            ("a section without symbols", 0x1140, None),
            (
                "a symbol of another section lies below",
                0x3008,
                Some((4, "_data", 0x1ef0)),
            ),
            ("past the sections", 0x1160, None),
        ];
        for (row, address, want) in rows {
            assert_eq!(found(address), want, "{row}");
        }
    }
}

/// Numbers that look random: the same in each run.
struct Numbers(u64);

impl Numbers {
    /// The next number below a limit.
    fn below(&mut self, limit: u64) -> u64 {
        self.0 = self
            .0
            .wrapping_mul(6364136223846793005)
            .wrapping_add(1442695040888963407);
        (self.0 >> 33) % limit
    }
}

/// The sections of the image above, by their numbers: the address and the size.
const SECTIONS: [(u8, u64, u64); 4] = [
    (1, 0x1100, 0x40),
    (2, 0x1140, 0x20),
    (3, 0x3000, 0x10),
    (4, 0x3010, 0x10),
];

/// A symbol's name, kind, section and value.
type Row = (u32, u8, u8, u64);

/// The index of the symbol of a section that is nearest below an address, and the distance.
fn nearest_by_hand(rows: &[Row], n_sect: usize, address: u64) -> Option<(usize, u64)> {
    let mut best: Option<(usize, u64)> = None;
    for (index, &(name, kind, section, value)) in rows.iter().enumerate() {
        let is_defined = name != 0xffff && kind & 0xee == 0x0e;
        if !is_defined || usize::from(section) != n_sect || value > address {
            continue;
        }
        if best.is_none_or(|(_, distance)| address - value <= distance) {
            best = Some((index, address - value));
        }
    }
    best
}

#[test]
fn a_map_finds_the_symbols() {
    // Many symbols of one value, of each section, of sections that aren't there, entries for a debugger, names that can't be read.
    for (many, spread) in [
        (0, 1),
        (1, 1),
        (2, 1),
        (300, 8),
        (4000, 0x40),
        (4000, 0x2400),
    ] {
        let mut numbers = Numbers(many);
        let mut any_of = |choice: &[u32]| choice[numbers.below(choice.len() as u64) as usize];
        let mut rows: Vec<Row> = Vec::new();
        for _ in 0..many {
            let kind = any_of(&[0x0e, 0x0f, 0x1e, 0x0f, 0x24, 0x2e, 0x03, 0x01]);
            let section = any_of(&[1, 2, 3, 4, 0, 255]);
            rows.push((any_of(&[1, 4, 8, 0xffff]), kind as u8, section as u8, 0));
        }
        for row in &mut rows {
            row.3 = 0x10f8 + numbers.below(spread);
        }
        let records: Vec<_> = rows
            .iter()
            .map(|row| symbol(row.0, row.1, row.2, row.3))
            .collect();
        let bytes = image_of(&records, u32::MAX);
        let image = MachO::parse(&bytes, 0).unwrap();
        let map = SymbolMap::new(&image).unwrap();
        let defined = rows
            .iter()
            .filter(|row| row.0 != 0xffff && row.1 & 0xee == 0x0e);
        // Names and padding after the records are read as symbols, too; none of those is defined.
        assert_eq!(map.len(), defined.count());
        assert_eq!(map.is_empty(), map.len() == 0);
        for address in (0x10f0..0x1170).chain(0x2ff0..0x3030).chain([0, u64::MAX]) {
            let of = |at: goblin_mach::SymbolAt<'_>| (at.index, at.distance);
            let holds =
                |section: &&(u8, u64, u64)| section.1 <= address && address - section.1 < section.2;
            let section = SECTIONS.iter().find(holds);
            let want =
                section.and_then(|section| nearest_by_hand(&rows, section.0.into(), address));
            assert_eq!(map.symbol_at(address).map(of), want, "{many} {address:#x}");
            assert_eq!(
                image.symbol_at(address).map(of),
                want,
                "{many} {address:#x}"
            );
            for n_sect in [0, 1, 255, 256, usize::MAX] {
                let want = nearest_by_hand(&rows, n_sect, address);
                assert_eq!(
                    map.symbol_in_section(n_sect, address).map(of),
                    want,
                    "{n_sect} {address:#x}"
                );
            }
        }
    }
}

#[test]
fn ranges_that_hold_addresses() {
    // Ranges that overlap, are empty, and end at the last address or past it.
    for (many, spread) in [(0, 1), (1, 8), (2, 8), (7, 40), (60, 40), (300, 1000)] {
        let mut numbers = Numbers(many);
        let name = padded("a");
        let mut ranges: Vec<_> = (0..many)
            .map(|_| Stretch {
                name,
                start: numbers.below(spread),
                size: numbers.below(12),
            })
            .collect();
        for (start, size) in [(u64::MAX - 3, 2), (u64::MAX - 1, 2), (u64::MAX, u64::MAX)] {
            let at = numbers.below(ranges.len() as u64 + 1) as usize;
            ranges.insert(at, Stretch { name, start, size });
        }
        let table = Stretches::of(ranges.clone()).unwrap();
        for address in (0..spread + 14).chain(u64::MAX - 5..=u64::MAX) {
            let holds =
                |range: &Stretch| range.start <= address && address - range.start < range.size;
            let want = ranges.iter().position(holds);
            assert_eq!(table.first_with(address), want, "{many} {address:#x}");
        }
    }
}

#[test]
fn segments_and_sections_that_hold_addresses() {
    let bytes = image(7);
    let image = MachO::parse(&bytes, 0).unwrap();
    let segments = AllStretches::of_image(&image).unwrap();
    let names = |address| {
        let segment = segments.first_with(address)?;
        let section = segment.section_with(address);
        let section = section.map_or("none", |section| section.name().unwrap());
        Some((segment.memory.name().unwrap(), section))
    };
    let rows = [
        ("before all", 0xfff, None),
        ("before the sections", 0x1000, Some(("__TEXT", "none"))),
        ("the first section", 0x1100, Some(("__TEXT", "__text"))),
        ("the next one", 0x1140, Some(("__TEXT", "__const"))),
        ("after them", 0x1160, Some(("__TEXT", "none"))),
        ("after the segment", 0x2000, None),
        ("the other segment", 0x3017, Some(("__DATA", "__text"))),
        ("its section, after its end", 0x3018, None),
    ];
    for (row, address, want) in rows {
        assert_eq!(names(address), want, "{row}");
    }
    assert_eq!(segments.get(1).unwrap().memory.start, 0x3000);
    assert!(segments.get(2).is_none());
}

#[test]
fn all_at_an_address() {
    let bytes = image(7);
    let image = MachO::parse(&bytes, 0).unwrap();
    let map = AddressMap::new(&image).unwrap();
    for address in (0x10f0..0x1170).chain(0x2ff0..0x3030).chain([0, u64::MAX]) {
        let found = FoundAt::look_up(&image, address);
        assert_eq!(map.look_up(address), found, "{address:#x}");
        assert_eq!(found.section, image.section_at(address), "{address:#x}");
        assert_eq!(found.symbol, image.symbol_at(address), "{address:#x}");
        assert_eq!(found.function, image.function_at(address), "{address:#x}");
    }
}

/// Sections and segments that overlap, of which the first counts, and many functions.
#[test]
fn a_map_looks_up_as_one_call_does() {
    for many in [1, 2, 7, 60, 400] {
        let mut numbers = Numbers(many);
        let mut bytes = image_of(&[], 0);
        let mut commands = Vec::new();
        let mut number = || numbers.below(0x400);
        let count = 1 + many / 7;
        for _ in 0..count {
            let sections = [0; 7].map(|_| ("__TEXT", "__text", 0x1000 + number(), number() / 4));
            commands.extend(segment("__TEXT", [0x1000, 0x800, 0, 0x40], &sections));
        }
        let starts: Vec<u8> = (0..many).map(|_| 1 + (number() % 9) as u8).collect();
        let place = 32 + commands.len() as u32 + 40;
        let symoff = place + starts.len() as u32;
        let symbols: Vec<_> = (0..many)
            .flat_map(|_| {
                symbol(
                    1,
                    0x0f,
                    (number() % (7 * count + 2)) as u8,
                    0x1000 + number(),
                )
            })
            .collect();
        commands.extend(
            [0x26, 16, place, many as u32]
                .map(u32::to_le_bytes)
                .concat(),
        );
        let stroff = symoff + symbols.len() as u32;
        commands.extend(
            [2, 24, symoff, many as u32, stroff, 5]
                .map(u32::to_le_bytes)
                .concat(),
        );
        bytes.truncate(32);
        bytes[16..24].copy_from_slice(
            &[count as u32 + 2, commands.len() as u32]
                .map(u32::to_le_bytes)
                .concat(),
        );
        bytes.extend([commands, starts, symbols, b"\0_a\0\0".to_vec()].concat());
        bytes.resize(bytes.len().max(0x40), 0);
        let image = MachO::parse(&bytes, 0).unwrap();
        let map = AddressMap::new(&image).unwrap();
        let mut functions = 0;
        for address in (0xff0..0x1920).chain([0, u64::MAX]) {
            let found = FoundAt::look_up(&image, address);
            functions += usize::from(found.function.is_some() && found.symbol.is_some());
            assert_eq!(map.look_up(address), found, "{many} {address:#x}");
        }
        assert!(functions > 0 || many < 60, "{many}");
    }
}

#[test]
fn functions_at_addresses() {
    let bytes = image(7);
    let image = MachO::parse(&bytes, 0).unwrap();
    let function = |start, end| Some(Function { start, end });
    let rows = [
        ("before all", 0x10ff, None),
        ("its start", 0x1100, function(0x1100, 0x1110)),
        ("its last byte", 0x110f, function(0x1100, 0x1110)),
        (
            "to the end of the section",
            0x113f,
            function(0x1110, 0x1140),
        ),
        ("before the first of its section", 0x114f, None),
        ("the last", 0x1150, function(0x1150, 0x1160)),
        ("no section", 0x1160, None),
        ("a section without functions", 0x3000, None),
    ];
    for (row, address, want) in rows {
        assert_eq!(
            format!("{:?}", image.function_at(address)),
            format!("{want:?}"),
            "{row}"
        );
    }
}

#[test]
fn offsets_and_addresses() {
    let bytes = image(7);
    let image = MachO::parse(&bytes, 0).unwrap();
    let rows = [
        ("the first byte", 0, Some(0x1000)),
        ("the last of the first segment", 0x2ff, Some(0x12ff)),
        ("the second segment", 0x300, Some(0x3000)),
        ("its last byte in memory", 0x317, Some(0x3017)),
        ("in the file, past its memory", 0x318, None),
        ("past the file", 0x320, None),
    ];
    for (row, offset, want) in rows {
        assert_eq!(image.address_of_offset(offset), want, "{row}");
        if let Some(address) = want {
            assert_eq!(image.offset_of_address(address), Some(offset), "{row}");
        }
    }
    for address in [0, 0xfff, 0x1300, 0x1fff, 0x3018, u64::MAX] {
        assert_eq!(image.offset_of_address(address), None, "{address:#x}");
    }
}

#[test]
fn address_past_64_bits() {
    let mut bytes = image(7);
    bytes[32 + 24..32 + 32].copy_from_slice(&(u64::MAX - 1).to_le_bytes());
    let image = MachO::parse(&bytes, 0).unwrap();
    assert_eq!(image.address_of_offset(1), Some(u64::MAX));
    assert_eq!(image.address_of_offset(2), None);
    assert_eq!(image.offset_of_address(u64::MAX), Some(1));
}
