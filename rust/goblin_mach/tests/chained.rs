//! What the vectors can't ask about chained fixups: the reasons of refusals, the table of imports by itself, pointers by
//! themselves, every prefix of the bytes, and segments with fields set by hand.
use goblin_mach::chained_fixups::ChainedFixups;
use goblin_mach::load_command::LinkeditDataCommand;
use goblin_mach::segment::Segment;
use goblin_mach::{Container, Ctx, LE, Result};

const BASE: u64 = 0x1_0000_0000;

const LIBRARIES: [&str; 2] = ["self", "L"];

// One segment of one page with pointers of format 2, and one import, "_a" of library 1.
const PAYLOAD: [u8; 72] = [
    0, 0, 0, 0, 32, 0, 0, 0, 64, 0, 0, 0, 68, 0, 0, 0, 1, 0, 0, 0, 1, 0, 0, 0, 0, 0, 0, 0, 0, 0, 0,
    0, //
    // 32: one segment, whose starts are 8 bytes from here
    1, 0, 0, 0, 8, 0, 0, 0, //
    // 40: 24 bytes, pages of 0x1000, format 2, one page, which starts at 0
    24, 0, 0, 0, 0, 0x10, 2, 0, 0, 0, 0, 0, 0, 0, 0, 0, 0, 0, 0, 0, 1, 0, 0, 0, //
    // 64: library 1, name at 0
    1, 0, 0, 0, //
    // 68
    b'_', b'a', 0, 0,
];

// A bind of import 0 with addend 5, and 8 bytes after it a rebase to 0x1000, the last.
const DATA: [u8; 16] = [0, 0, 0, 5, 0, 0, 0x10, 0x80, 0, 0x10, 0, 0, 0, 0, 0, 0];

// A rebase to 0x1000, and 8 bytes after it a bind of import 0 with addend 5, the last.
const BIND_AFTER: [u8; 16] = [0, 0x10, 0, 0, 0, 0, 0x10, 0, 0, 0, 0, 5, 0, 0, 0, 0x80];

/// The payload with a byte of its own at a place.
fn with(place: usize, byte: u8) -> [u8; 72] {
    let mut payload = PAYLOAD;
    payload[place] = byte;
    payload
}

fn parsed(payload: &[u8]) -> Result<ChainedFixups<'_>> {
    let command = LinkeditDataCommand {
        datasize: u32::try_from(payload.len()).unwrap(),
        ..LinkeditDataCommand::default()
    };
    ChainedFixups::parse(payload, &command, LE)
}

/// A segment at the base, with this data at a place of the file.
fn segment(fileoff: u64, data: &[u8]) -> Segment<'_> {
    let ctx = Ctx {
        container: Container::Big,
        le: LE,
    };
    let mut segment = Segment::new(ctx, &[]);
    segment.fileoff = fileoff;
    segment.vmaddr = BASE;
    segment.data = data;
    segment
}

mod refusals {
    use super::{BASE, BIND_AFTER, DATA, LIBRARIES, PAYLOAD, parsed, segment, with};
    use goblin_mach::chained_fixups::ChainedFixups;
    use goblin_mach::segment::Segment;
    use goblin_mach::{Error, Result};

    /// The first error of the bindings, or of the header.
    fn reason(payload: &[u8], segments: &[Segment]) -> &'static str {
        let first = |chained: ChainedFixups| -> Result<()> {
            let mut items = chained.bindings(&LIBRARIES, segments, BASE);
            items.try_for_each(|binding| binding.map(drop))
        };
        match parsed(payload).and_then(first) {
            Err(Error::Malformed(why)) => why,
            other => panic!("{other:?}"),
        }
    }

    #[test]
    fn have_reasons() {
        for (place, byte, why) in [
            (0, 1, "chained fixups are not of version 0"),
            (24, 1, "the names of imports are compressed"),
            (20, 0, "imports are of an unknown format"),
            (16, 0, "a bind's import is past the table"),
            (40, 23, "starts are too short for their pages"),
            (45, 0x20, "a page has neither 0x1000 nor 0x4000 bytes"),
            (46, 4, "pointers are of a format that is not read"),
            (48, 1, "chains give another address for their segment"),
            (62, 9, "a fixup is past its segment's data"),
            (63, 0x10, "a chain leaves its page"),
            (64, 0xfc, "an ordinal names no provider"),
        ] {
            let payload = with(place, byte);
            assert_eq!(reason(&payload, &[segment(0x4000, &DATA)]), why, "{place}");
        }
        assert_eq!(
            reason(&PAYLOAD, &[]),
            "a chain's segment is past the list of segments"
        );
    }

    #[test]
    fn a_place_past_64_bits_is_refused() {
        let segments = [segment(u64::MAX - 7, &BIND_AFTER)];
        let chained = parsed(&PAYLOAD).unwrap();
        let fixups: Result<Vec<_>> = chained.fixups(&segments, BASE).collect();
        assert_eq!(fixups.unwrap().len(), 2);
        assert_eq!(
            reason(&PAYLOAD, &segments),
            "a bind's place does not fit in 64 bits"
        );
    }
}

mod prefixes {
    use super::{BASE, DATA, LIBRARIES, PAYLOAD, parsed, segment};
    use goblin_mach::Result;

    /// The number of fixups and the names of the bindings, or a fault.
    fn read<'a>(payload: &'a [u8], data: &'a [u8]) -> Result<(usize, Vec<&'a str>)> {
        let segments = [segment(0x4000, data)];
        let chained = parsed(payload)?;
        let fixups: Result<Vec<_>> = chained.fixups(&segments, BASE).collect();
        let bindings = chained.binds(&LIBRARIES, &segments, BASE)?;
        Ok((fixups?.len(), bindings.iter().map(|b| b.name).collect()))
    }

    // A name ends at its zero byte, or at the end of the payload.
    #[test]
    fn of_the_payload() {
        for len in 0..=PAYLOAD.len() {
            match read(&PAYLOAD[..len], &DATA) {
                Ok(found) => assert_eq!(found, (2, vec![if len == 69 { "_" } else { "_a" }])),
                Err(_) => assert!(len < 69, "{len}"),
            }
        }
    }

    #[test]
    fn of_the_data() {
        for len in 0..DATA.len() {
            assert!(read(&PAYLOAD, &DATA[..len]).is_err(), "{len}");
        }
    }
}

mod imports {
    use super::{LinkeditDataCommand, PAYLOAD, parsed, with};
    use goblin_mach::LE;
    use goblin_mach::chained_fixups::ChainedFixups;

    // A table of one import, at 32, and names at 48; without segments.
    const TABLE: [u8; 56] = [
        0, 0, 0, 0, 28, 0, 0, 0, 32, 0, 0, 0, 48, 0, 0, 0, 1, 0, 0, 0, 1, 0, 0, 0, 0, 0, 0, 0, 0,
        0, 0, 0, //
        // 32
        0, 0, 0, 0, 0, 0, 0, 0, 0, 0, 0, 0, 0, 0, 0, 0, //
        // 48
        b'_', b'a', 0, b'_', b'b', 0, 0, 0,
    ];

    /// A row: the record, and the import's library, whether its symbol may be missing, its name and its addend.
    type Row = (&'static [u8], i32, bool, &'static str, i64);

    /// Tests import 0, the only one of a table: by its number, and as the first of all.
    fn test_import(format: u8, (record, library, is_weak, name, addend): Row) {
        let mut table = TABLE;
        table[20] = format;
        table[32..32 + record.len()].copy_from_slice(record);
        let command = LinkeditDataCommand {
            datasize: 56,
            ..LinkeditDataCommand::default()
        };
        let chained = ChainedFixups::parse(&table, &command, LE).unwrap();
        let mut all = chained.imports();
        assert_eq!((all.len(), all.size_hint()), (1, (1, Some(1))));
        let first = all.next().unwrap().unwrap();
        assert_eq!((all.len(), all.clone().count()), (0, 0));
        assert!(all.next().is_none());
        assert!(chained.import(1).is_err());
        for found in [first, chained.import(0).unwrap()] {
            assert_eq!((found.library, found.is_weak), (library, is_weak));
            assert_eq!((found.name, found.addend), (name, addend));
        }
    }

    #[test]
    fn of_format_1() {
        for row in [
            (&[1, 1, 0, 0], 1, true, "_a", 0),
            (&[0xf1, 6, 0, 0], -15, false, "_b", 0),
            (&[0xf0, 0, 0, 0], 240, false, "_a", 0),
            (&[0x80, 0, 0, 0], 128, false, "_a", 0),
            (&[0xfe, 0, 0, 0], -2, false, "_a", 0),
        ] {
            test_import(1, (row.0, row.1, row.2, row.3, row.4));
        }
    }

    #[test]
    fn of_format_2() {
        test_import(2, (b"\xff\x06\0\0\xf8\xff\xff\xff", -1, false, "_b", -8));
        test_import(
            2,
            (b"\x02\0\0\0\xff\xff\xff\x7f", 2, false, "_a", 0x7fff_ffff),
        );
    }

    #[test]
    fn of_format_3() {
        for row in [
            (b"\x01\0\0\0\x03\0\0\0\x05\0\0\0\0\0\0\0", 1, false, "_b", 5),
            (
                b"\xf0\xff\x01\0\0\0\0\0\xff\xff\xff\xff\xff\xff\xff\xff",
                65520,
                true,
                "_a",
                -1,
            ),
            (
                b"\xfd\xff\0\0\x03\0\0\0\0\0\0\0\x01\0\0\0",
                -3,
                false,
                "_b",
                0x1_0000_0000,
            ),
        ] {
            test_import(3, (row.0, row.1, row.2, row.3, row.4));
        }
    }

    #[test]
    fn that_can_t_be_read_are_counted_too() {
        let payload = with(16, 2);
        let chained = parsed(&payload).unwrap();
        assert_eq!(chained.header().imports_count, 2);
        let all = chained.imports();
        assert_eq!(all.len(), 2);
        let is_ok: Vec<_> = all.map(|import| import.is_ok()).collect();
        // The second record is the bytes of the names, and its own name is past the end.
        assert_eq!(is_ok, [true, false]);
        assert_eq!(parsed(&PAYLOAD).unwrap().imports().len(), 1);
    }
}

mod iterators {
    use super::{BASE, DATA, LIBRARIES, PAYLOAD, parsed, segment};
    use goblin_mach::Steps;

    #[test]
    fn give_nothing_after_a_fault() {
        let segments = [segment(0x4000, &DATA[..8])];
        let chained = parsed(&PAYLOAD).unwrap();
        let mut fixups = chained.fixups(&segments, BASE);
        assert!(fixups.next().unwrap().is_ok());
        assert!(fixups.next().unwrap().is_err());
        assert!(fixups.next().is_none());
        assert!(fixups.next().is_none());
        let mut bindings = chained.bindings(&LIBRARIES, &segments, BASE);
        assert!(bindings.next().unwrap().is_ok());
        assert!(bindings.next().unwrap().is_err());
        assert!(bindings.next().is_none());
        assert!(bindings.next().is_none());
    }

    #[test]
    fn a_count_changes_no_binding() {
        let mut steps = Steps::new();
        let chained = parsed(&PAYLOAD).unwrap();
        let segments = [segment(0x4000, &DATA)];
        let binds = chained
            .binds_counted(&LIBRARIES, &segments, BASE, &mut steps)
            .unwrap();
        assert_eq!(binds.len(), 1);
        assert_eq!(binds[0].name, "_a");
        let cut = [segment(0x4000, &DATA[..8])];
        let refused = chained.binds_counted(&LIBRARIES, &cut, BASE, &mut steps);
        assert!(refused.is_err());
    }
}

mod pointers {
    use super::BASE;
    use goblin_mach::chained_fixups::{FixupKind, PointerAuth, PointerFormat, read_pointer};

    /// A pointer that is signed.
    fn auth(key: u8, diversity: u16, is_address_diverse: bool) -> Option<PointerAuth> {
        Some(PointerAuth {
            key,
            diversity,
            is_address_diverse,
        })
    }

    #[test]
    fn are_read_by_themselves() {
        let rebase = |target| FixupKind::Rebase { target };
        let bind = |import, addend| FixupKind::Bind { import, addend };
        let value = |value| FixupKind::Value { value };
        use PointerFormat::{Arm64e, Arm64eFirmware, Arm64eKernel, Generic32, Generic64};
        for (format, raw, kind, skip, auth) in [
            (
                Generic64,
                0x7ff8_0fff_ffff_ffff,
                rebase(0xff00_000f_ffff_ffff),
                16380,
                None,
            ),
            (
                Generic64,
                0x8008_0000_ffff_ffff,
                bind(0xff_ffff, 255),
                4,
                None,
            ),
            (Generic32, 0x7c00_3000, rebase(0x3000), 124, None),
            (Generic32, 0x0200_1805, value(5), 0, None),
            (
                Arm64eFirmware,
                0x001c_0001_0000_4008,
                rebase(0x8000_0001_0000_4008),
                12,
                None,
            ),
            (
                Arm64eKernel,
                0x0018_0000_0000_4008,
                rebase(0x1_0000_4008),
                12,
                None,
            ),
            (
                Arm64e,
                0x8015_abcd_0000_4008,
                rebase(0x1_0000_4008),
                16,
                auth(2, 0xabcd, true),
            ),
        ] {
            let pointer = read_pointer(format, BASE, 0x3000, raw);
            assert_eq!(pointer.kind, kind, "{raw:#x}");
            assert_eq!((pointer.skip, pointer.auth), (skip, auth), "{raw:#x}");
        }
    }
}
