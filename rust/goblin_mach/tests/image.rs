//! Whole images, fat files and views: what no vector says of them.
#[path = "common/kind.rs"]
mod kind;
#[path = "common/samples.rs"]
mod samples;

use goblin_mach::exports::{Export, ExportInfo};
use goblin_mach::fat::FatArch;
use goblin_mach::imports::Import;
use goblin_mach::load_command::LoadCommandHeader;
use goblin_mach::{
    BindingIterator, Error, FixupIterator, Hint, HintData, LibraryIterator, LinkView, Mach, MachO,
    MultiArch, Result, SingleArch, link_view, parse_magic_and_ctx, peek, peek_bytes,
    take_hint_bytes,
};
use kind::{fault, kind};
use samples::{ARCHIVE, BARE, FILE_A, FILE_B, FILE_C, FILE_D, changed, fat_of};

/// The fields of an image: entry, libraries, the bytes of each segment, symbols.
fn fields(image: &MachO) -> String {
    let old = if image.old_style_entry { " old" } else { "" };
    let mut text = format!("{:#x}{old} {}", image.entry, image.libs.join(" "));
    for segment in &image.segments {
        text += &format!(", segment of {}", segment.data.len());
    }
    if image.symbols.is_some() {
        text += ", symbols";
    }
    text
}

fn file(opened: Result<Mach>) -> Result<String> {
    Ok(match opened? {
        Mach::Binary(image) => fields(&image),
        Mach::Fat(file) => format!("fat of {}", file.narches),
    })
}

/// An entry of a fat file: an image by its entry point, an archive by its length.
fn entry(answer: Result<SingleArch>) -> String {
    match answer {
        Ok(SingleArch::MachO(image)) => format!("image {:#x}", image.entry),
        Ok(SingleArch::Archive(bytes)) => format!("archive of {}", bytes.len()),
        Err(error) => kind(&error),
    }
}

fn exports(list: &[Export]) -> String {
    list.iter()
        .map(|it| format!(" {:#x} {:?}", it.offset, it.name))
        .collect()
}

fn imports(list: &[Import]) -> String {
    list.iter()
        .map(|it| format!(" {:#x} {} {}", it.address, it.dylib, it.name))
        .collect()
}

/// All items of a view.
fn view(bytes: &[u8]) -> Result<String> {
    let items = link_view(bytes)?;
    Ok(items
        .iter()
        .map(|item| match item {
            Ok(LinkView::Image {
                exports: e,
                imports: i,
            }) => format!("image{}{};", exports(e), imports(i)),
            Ok(LinkView::Archive(bytes)) => format!("archive of {};", bytes.len()),
            Err(error) => format!("{};", kind(error)),
        })
        .collect())
}

/// A text, or the kind of the error in its place.
fn text(answer: Result<String>) -> String {
    answer.unwrap_or_else(|error| kind(&error))
}

#[test]
fn hints() {
    let mach = |is_lsb, is_64| {
        Hint::Mach(HintData {
            is_lsb,
            is_64: Some(is_64),
        })
    };
    let with_magic = |magic: [u8; 4]| {
        let mut bytes = [0; 16];
        bytes[..4].copy_from_slice(&magic);
        bytes
    };
    let of = |bytes: &[u8]| {
        let first = take_hint_bytes(bytes).unwrap();
        format!("{:?}", peek_bytes(first).unwrap())
    };
    for (row, bytes, want) in [
        ("hint_of_file_c", &FILE_C[..], Hint::MachFat(2)),
        ("hint_of_file_a", &FILE_A, mach(true, true)),
        (
            "hint_of_elf",
            b"\x7fELF\x02\x01\x01\0\0\0\0\0\0\0\0\0",
            Hint::Unknown(0x1_0102_464c_457f),
        ),
        (
            "32 bits",
            &with_magic([0xce, 0xfa, 0xed, 0xfe]),
            mach(true, false),
        ),
        (
            "64 bits, the high byte first",
            &with_magic([0xfe, 0xed, 0xfa, 0xcf]),
            mach(false, true),
        ),
        (
            "32 bits, the high byte first",
            &with_magic([0xfe, 0xed, 0xfa, 0xce]),
            mach(false, false),
        ),
        ("an archive", ARCHIVE, Hint::Archive),
    ] {
        assert_eq!(of(bytes), format!("{want:?}"), "{row}");
    }
}

#[test]
fn hint_of_15_bytes() {
    assert!(take_hint_bytes(&[0; 15]).is_none());
}

#[test]
fn the_magic_alone() {
    assert_eq!(peek(&FILE_A, 0).unwrap(), 0xcffa_edfe);
    let (magic, ctx) = parse_magic_and_ctx(&FILE_A, 0).unwrap();
    assert_eq!((magic, ctx.is_some()), (0xcffa_edfe, true));
    let (magic, ctx) = parse_magic_and_ctx(FILE_C, 0).unwrap();
    assert_eq!((magic, ctx.is_some()), (0xcafe_babe, false));
    assert_eq!(fault(peek(&FILE_A, 53)), "too big 4 of 3");
    assert_eq!(fault(peek(&FILE_A, 56)), "bad offset 56");
}

#[test]
fn counts_of_a_header() {
    let bytes = [&[0; 16][..], &FILE_A].concat();
    let image = MachO::parse(&bytes, 16).unwrap();
    let header = image.header;
    assert_eq!((header.magic, header.cputype), (0xfeed_facf, 0x0100_0007));
    assert_eq!((header.filetype, header.reserved), (2, 0));
    assert_eq!((header.ncmds, header.sizeofcmds), (1, 24));
    assert_eq!(image.load_commands[0].offset, 48);
}

#[test]
fn command_text() {
    let header = LoadCommandHeader {
        cmd: 0x1b,
        cmdsize: 24,
    };
    assert_eq!(header.to_string(), "LoadCommandHeader: LC_UUID size: 24");
}

#[test]
fn is_an_object_file() {
    assert!(!MachO::parse(FILE_B, 0).unwrap().is_object_file());
    let object = changed(FILE_B, &[(12, 1)]);
    assert!(MachO::parse(&object, 0).unwrap().is_object_file());
}

#[test]
fn symbols_or_none() {
    let image = MachO::parse(&FILE_A, 0).unwrap();
    assert!(image.symbols.is_none());
    assert!(image.symbols().next().is_none());
    let image = MachO::parse(FILE_B, 0).unwrap();
    assert_eq!(image.symbols.unwrap().len(), 1);
}

// The first n bytes of files A, B and C, for every n.

/// A wanted answer.
#[derive(Clone, Copy, Debug)]
enum Want {
    /// This text, or this kind of error.
    Gives(&'static str),
    /// A read of so many bytes at a place, which end before that.
    Cut { size: usize, place: usize },
    /// Any error.
    Refused,
}

use Want::{Cut, Gives, Refused};

impl Want {
    /// Whether it is the answer for the first n bytes.
    fn is(self, n: usize, answer: &Result<String>) -> bool {
        match self {
            Gives(want) => match answer {
                Ok(got) => got == want,
                Err(error) => kind(error) == want,
            },
            Cut { size, place } => {
                let want = format!("too big {size} of {}", n - place);
                answer.as_ref().is_err_and(|error| kind(error) == want)
            }
            Refused => matches!(answer, Err(error) if !matches!(error, Error::Memory(_))),
        }
    }
}

/// Tests a call on each beginning of some bytes. Each answer is for every length from its own up to the next.
fn test_prefixes(
    name: &str,
    bytes: &[u8],
    call: impl Fn(&[u8]) -> Result<String>,
    wants: &[(usize, Want)],
) {
    for n in 0..=bytes.len() {
        let (_, want) = wants.iter().rfind(|(first, _)| *first <= n).unwrap();
        let got = call(&bytes[..n]);
        assert!(want.is(n, &got), "{name}, {n} bytes: {got:?}, not {want:?}");
    }
}

fn strict(bytes: &[u8]) -> Result<String> {
    file(Mach::parse(bytes))
}

fn lossy(bytes: &[u8]) -> Result<String> {
    file(Mach::parse_lossy(bytes))
}

#[test]
fn every_prefix_of_file_a() {
    let wants = [
        (0, Gives("malformed")),
        (32, Gives("bad offset 32")),
        (33, Cut { size: 8, place: 32 }),
        (40, Gives("malformed")),
        (56, Gives("0x0 self")),
    ];
    test_prefixes("A", &FILE_A, strict, &wants);
}

#[test]
fn every_prefix_of_file_b() {
    let whole = Gives("0x100000138 self L, segment of 376, symbols");
    let wants = [
        (0, Gives("malformed")),
        (32, Gives("too short 5 load commands")),
        (280, Refused),
        (
            353,
            Cut {
                size: 376,
                place: 0,
            },
        ),
        (376, whole),
    ];
    test_prefixes("B", FILE_B, strict, &wants);
    // The last command, at 288, has 24 bytes; the one before it, at 264, has 24 too. The symbols are at 352.
    let wants = [
        (0, Gives("malformed")),
        (32, Gives("too short 5 load commands")),
        (280, Gives("malformed")),
        (288, Gives("bad offset 288")),
        (
            289,
            Cut {
                size: 8,
                place: 288,
            },
        ),
        (296, Gives("malformed")),
        (312, Gives("0x100000138 self L, segment of 0")),
        (353, Gives("0x100000138 self L, segment of 0, symbols")),
        (376, whole),
    ];
    test_prefixes("B in lossy mode", FILE_B, lossy, &wants);
}

#[test]
fn lists_of_every_prefix_of_file_b() {
    let call = |bytes: &[u8]| Ok(exports(&MachO::parse_lossy(bytes, 0)?.exports()?));
    let wants = [
        (0, Refused),
        (312, Gives("")),
        (339, Gives(" 0x7 \"\" 0x9 \"a\"")),
    ];
    test_prefixes("exports of B", FILE_B, call, &wants);
    let call = |bytes: &[u8]| Ok(imports(&MachO::parse_lossy(bytes, 0)?.imports()?));
    let wants = [
        (0, Refused),
        (328, Gives(" 0x100000010 L _a 0x100000018 L _b")),
    ];
    test_prefixes("imports of B", FILE_B, call, &wants);
}

/// The lists of file B in a view.
const LISTS: &str = "image 0x7 \"\" 0x9 \"a\" 0x100000010 L _a 0x100000018 L _b;";

#[test]
fn every_prefix_of_file_c() {
    let wants = [
        (0, Gives("malformed")),
        (4, Cut { size: 8, place: 0 }),
        (8, Gives("fat of 2")),
    ];
    test_prefixes("C", FILE_C, strict, &wants);
    let record = Cut {
        size: 20,
        place: 28,
    };
    let wants = [
        (0, Gives("malformed")),
        (4, Cut { size: 8, place: 0 }),
        (8, Gives("too short 2 arches")),
        (40, record),
        (48, Gives("malformed;malformed;")),
        (
            424,
            Gives("image 0x7 \"\" 0x9 \"a\" 0x100000010 L _a 0x100000018 L _b;malformed;"),
        ),
        (
            440,
            Gives("image 0x7 \"\" 0x9 \"a\" 0x100000010 L _a 0x100000018 L _b;archive of 16;"),
        ),
    ];
    test_prefixes("the view of C", FILE_C, view, &wants);
}

// Fat files.

const FAT_OF_NONE: &[u8; 8] = b"\xca\xfe\xba\xbe\0\0\0\0";

/// A fat file whose header says two entries, with one record, for cpu 7, and then some bytes.
fn of_one_record(rest: &[u8]) -> Vec<u8> {
    let words = [0xcafe_babe, 2, 7, 0, 0, 0, 0];
    [&words.map(u32::to_be_bytes).concat(), rest].concat()
}

#[test]
fn fat_files_by_their_entries() {
    let opened = |bytes: &[u8]| match Mach::parse(bytes) {
        Ok(Mach::Fat(file)) => {
            let entries: Vec<_> = (&file).into_iter().map(entry).collect();
            format!("{}: {}", file.narches, entries.join(", "))
        }
        Ok(Mach::Binary(_)) => "image".into(),
        Err(error) => kind(&error),
    };
    for (row, bytes, want) in [
        ("fat_of_none", FAT_OF_NONE.to_vec(), "0: "),
        (
            "fat_magic_alone",
            FAT_OF_NONE[..4].to_vec(),
            "too big 8 of 4",
        ),
        ("fat_image", fat_of(32, &BARE), "1: image 0x0"),
        ("fat_archive", fat_of(16, ARCHIVE), "1: archive of 16"),
        ("fat_entry_of_15", fat_of(15, ARCHIVE), "1: malformed"),
        (
            "fat_in_fat",
            fat_of(16, b"\xca\xfe\xba\xbe\0\0\0\0\0\0\0\0\0\0\0\0"),
            "1: malformed",
        ),
        ("out of the bytes", fat_of(17, ARCHIVE), "1: malformed"),
        (
            "no records",
            b"\xca\xfe\xba\xbe\0\0\0\x02".to_vec(),
            "2: bad offset 8, bad offset 28",
        ),
        (
            "file_c",
            FILE_C.to_vec(),
            "2: image 0x100000138, archive of 16",
        ),
    ] {
        assert_eq!(opened(&bytes), want, "{row}");
    }
}

/// The offset in the record of a cpu that is found.
fn of_cpu(file: &MultiArch, cputype: u32) -> String {
    match file.find_cputype(cputype) {
        Ok(found) => found.map_or("none".into(), |arch| format!("at {}", arch.offset)),
        Err(error) => kind(&error),
    }
}

#[test]
fn cputype_in_28_bytes() {
    let bytes = of_one_record(&[]);
    let file = MultiArch::new(&bytes).unwrap();
    assert_eq!(of_cpu(&file, 7), "at 0");
    assert_eq!(of_cpu(&file, 12), "bad offset 28");
}

#[test]
fn records_in_28_bytes() {
    let bytes = of_one_record(&[]);
    let file = MultiArch::new(&bytes).unwrap();
    assert_eq!(fault(file.arches()), "too short 2 arches");
}

#[test]
fn records_in_40_bytes() {
    let bytes = of_one_record(&[0; 12]);
    let file = MultiArch::new(&bytes).unwrap();
    assert_eq!(fault(file.arches()), "too big 20 of 12");
    let mut records = file.iter_arches();
    assert_eq!(records.len(), 2);
    assert!(records.next().is_some_and(|record| record.is_ok()));
    assert!(records.next().is_some_and(|record| record.is_err()));
    assert!(records.next().is_none());
}

#[test]
fn records_of_file_c() {
    let file = MultiArch::new(FILE_C).unwrap();
    assert_eq!(of_cpu(&file, 12), "none");
    let arches = file.arches().unwrap();
    let places: Vec<_> = arches.iter().map(|it| (it.cputype, it.offset)).collect();
    assert_eq!(places, [(0x100_0007, 48), (0x100_000c, 424)]);
}

#[test]
fn entry_past_the_last() {
    let file = MultiArch::new(FILE_C).unwrap();
    assert_eq!(entry(file.get(0)), "image 0x100000138");
    assert_eq!(entry(file.get(2)), "malformed");
}

#[test]
fn entry_found_by_cputype() {
    let file = MultiArch::new(FILE_C).unwrap();
    let is_arm = |arch: Result<FatArch>| arch.is_ok_and(|arch| arch.cputype == 0x0100_000c);
    assert_eq!(entry(file.find(is_arm).unwrap()), "archive of 16");
    let is_err = |arch: Result<FatArch>| arch.is_err();
    assert!(file.find(is_err).is_none());
}

#[test]
fn views() {
    for (row, bytes, want) in [
        ("file A", FILE_A.to_vec(), "image;"),
        ("view_of_file_b", FILE_B.to_vec(), LISTS),
        (
            "view_of_file_c",
            FILE_C.to_vec(),
            &format!("{LISTS}archive of 16;"),
        ),
        ("file_a_cut", FILE_A[..55].to_vec(), "malformed"),
        ("fat_of_none", FAT_OF_NONE.to_vec(), ""),
        ("fat_image", fat_of(32, &BARE), "image;"),
        ("fat_entry_of_15", fat_of(15, ARCHIVE), "malformed;"),
        ("view_of_28_bytes", of_one_record(&[]), "too short 2 arches"),
        (
            "view_of_40_bytes",
            of_one_record(&[0; 12]),
            "too big 20 of 12",
        ),
    ] {
        assert_eq!(text(view(&bytes)), want, "{row}");
    }
}

// Libraries.

#[test]
fn libraries_shown_and_at_their_end() {
    let image = MachO::parse(FILE_B, 0).unwrap();
    let mut libraries = image.libraries();
    assert_eq!(
        format!("{libraries:?}"),
        "LibraryIterator { bytes: 376 bytes, commands: 5, ordinal: 1 }"
    );
    assert_eq!(libraries.next().map(|it| it.name), Some("L"));
    assert!(libraries.next().is_none());
    assert!(libraries.next().is_none());
    assert_eq!(
        format!("{libraries:?}"),
        "LibraryIterator { bytes: 376 bytes, commands: 0, ordinal: 2 }"
    );
    assert!(LibraryIterator::default().next().is_none());
}

#[test]
fn names_from_ordinal_0() {
    let image = MachO::parse(FILE_B, 0).unwrap();
    assert_eq!(image.libs, ["self", "L"]);
    assert_eq!(image.name, None);
    // LC_ID_DYLIB in place of LC_LOAD_DYLIB.
    let library = changed(FILE_B, &[(184, 0xd)]);
    let image = MachO::parse(&library, 0).unwrap();
    assert_eq!(image.libs, ["L"]);
    assert_eq!(image.name, Some("L"));
}

// Exports and bindings.

#[test]
fn an_export_by_its_name() {
    let image = MachO::parse(FILE_B, 0).unwrap();
    let found = image.find_export("a").unwrap();
    assert!(matches!(
        found,
        Some(ExportInfo::Regular { address: 9, .. })
    ));
    assert!(image.find_export("b").unwrap().is_none());
}

/// The fixups of an image and its bindings, each up to the error that ends them.
fn bound(image: &MachO) -> [String; 2] {
    let mut fixups = image.fixups();
    let first = fixups
        .by_ref()
        .map(|it| it.map_or_else(|error| kind(&error), |it| format!("{it:?}; ")))
        .collect();
    assert!(fixups.next().is_none());
    let mut bindings = image.bindings();
    let rest = bindings
        .by_ref()
        .map(|it| it.map_or_else(|error| kind(&error), |it| format!("{it:?}; ")))
        .collect();
    assert!(bindings.next().is_none());
    [first, rest]
}

/// File D as it is, and with the changes that its vectors have.
const CHANGES_OF_FILE_D: &[&[(usize, u8)]] = &[
    &[],
    &[(208, 0x7f), (256, 0x26), (259, 0)],
    &[(256, 0x26), (259, 0)],
    &[(228, 0), (244, 0)],
    &[(208, 0x7f)],
    &[(288, 0)],
    &[(336, 1)],
    &[(267, 0xff)],
    &[(272, 0x34), (275, 0x80)],
    &[(293, 0x79)],
    &[(301, 0x79)],
    &[(428, 2)],
    &[(292, 0x50)],
    &[(292, 0xe0)],
    &[
        (267, 0xff),
        (272, 0x34),
        (275, 0x80),
        (280, 0x50),
        (281, 1),
        (284, 100),
    ],
    &[(114, b'T'), (115, b'E'), (116, b'X'), (117, b'T')],
    &[(40, b'-')],
];

#[test]
fn the_same_strictly_in_lossy_mode_and_as_an_entry() {
    for changes in CHANGES_OF_FILE_D {
        let bytes = changed(FILE_D, changes);
        let want = bound(&MachO::parse(&bytes, 0).unwrap());
        let lossy = MachO::parse_lossy(&bytes, 0).unwrap();
        assert_eq!(bound(&lossy), want, "{changes:?}");
        let file = fat_of(436, &bytes);
        let container = MultiArch::new(&file).unwrap();
        let Ok(SingleArch::MachO(entry)) = container.get(0) else {
            panic!("an image, with {changes:?}");
        };
        assert_eq!(bound(&entry), want, "{changes:?}");
    }
}

#[test]
fn iterators_of_nothing_bound() {
    let bytes = changed(FILE_D, CHANGES_OF_FILE_D[1]);
    let image = MachO::parse(&bytes, 0).unwrap();
    assert!(image.chained_fixups().unwrap().is_none());
    assert!(image.opcode_bindings().next().is_none());
    assert!(BindingIterator::default().next().is_none());
    assert!(FixupIterator::default().next().is_none());
}

#[test]
fn bindings_by_opcodes_and_the_header_of_chains() {
    let image = MachO::parse(FILE_D, 0).unwrap();
    let chained = image.chained_fixups().unwrap().unwrap();
    assert_eq!(chained.header().imports_count, 1);
    let names: Vec<_> = image.opcode_bindings().map(|it| it.unwrap().name).collect();
    assert_eq!(names, ["b", "_c"]);
}

#[test]
fn bases() {
    let base = |changes: &[(usize, u8)]| {
        let bytes = changed(FILE_D, changes);
        MachO::parse(&bytes, 0).unwrap().base()
    };
    assert_eq!(base(&[]), 0x1_0000_0000);
    assert_eq!(base(&[(40, b'-')]), 0);
    assert_eq!(base(&[(46, b'x')]), 0);
    assert_eq!(base(&[(47, b'x'), (55, 1)]), 0x1_0000_0000);
}

// Tables.

/// An image with slots, indirect symbols and symbols. Its commands end at 1264, and the tables begin at 0x2000.
const TABLES: &[u8] = include_bytes!("data/f.macho");

/// The addresses of all slots that can be read.
fn slots(image: &MachO) -> Vec<u64> {
    image
        .symbol_slots()
        .flatten()
        .map(|slot| slot.address)
        .collect()
}

#[test]
fn tables_of_every_prefix() {
    let whole = MachO::parse(TABLES, 0).unwrap();
    let all = slots(&whole);
    assert_eq!(all.len(), 7);
    for n in (0..1300).chain(0x1ff0..TABLES.len()) {
        let bytes = &TABLES[..n];
        assert!(MachO::parse(bytes, 0).is_err());
        let opened = MachO::parse_lossy(bytes, 0);
        assert_eq!(opened.is_ok(), n >= 1264, "{n} bytes");
        let Ok(image) = opened else { continue };
        assert!(slots(&image).iter().all(|slot| all.contains(slot)));
        assert_eq!(image.indirect_symbols().len(), 7);
        assert_eq!(image.indirect_symbols().count(), 7);
        assert_eq!(image.symbols().count(), image.symbols().len());
        let stubs = image.section_at(0x1_0000_0700).unwrap();
        assert_eq!((stubs.segment, stubs.number), (0, 1));
        for (_, symbol) in image.symbols().flatten() {
            let [here, there] = [&image, &whole].map(|it| it.symbol_provider(&symbol));
            assert_eq!(format!("{here:?}"), format!("{there:?}"));
        }
    }
}
