//! What the vectors can't ask about export tries, binds, weak binds and rebases: calls on parts of an image, iterators after
//! their end, texts of constants, and tries made by rules.
use goblin_mach::load_command::DyldInfoCommand;
use goblin_mach::segment::Segment;
use goblin_mach::{Container, Ctx, LE};

const LIBRARIES: &[&str] = &["self", "L", "M"];

const WIDE: Ctx = Ctx {
    container: Container::Big,
    le: LE,
};

/// A segment of so many bytes at address 0, with no data.
fn plain(vmsize: u64) -> Segment<'static> {
    let mut segment = Segment::new(WIDE, &[]);
    segment.vmsize = vmsize;
    segment
}

/// The number of bytes as a field of a command has it.
fn len(bytes: &[u8]) -> u32 {
    u32::try_from(bytes.len()).unwrap()
}

mod export_infos {
    use super::LIBRARIES;
    use goblin_mach::Error;
    use goblin_mach::exports::{ExportInfo, SymbolKind};

    #[test]
    fn kinds_have_names() {
        for (flags, name) in [
            (0x10, "Regular"),
            (0x0d, "Thread_LOCAL"),
            (2, "Absolute"),
            (7, "Unknown"),
        ] {
            assert_eq!(SymbolKind::new(flags).to_str(), name);
        }
        assert!(matches!(
            SymbolKind::new(7),
            SymbolKind::UnknownSymbolKind(7)
        ));
    }

    #[test]
    fn an_info_is_read_at_an_offset() {
        let regular = ExportInfo::parse(&[0xff, 0x80, 2], LIBRARIES, 0x0b, 1).unwrap();
        assert!(matches!(
            regular,
            ExportInfo::Regular {
                address: 0x100,
                flags: 0x0b
            }
        ));
        let reexport = ExportInfo::parse(b"\x01_a\0", LIBRARIES, 0x0a, 0).unwrap();
        assert!(matches!(
            reexport,
            ExportInfo::Reexport {
                lib: "L",
                lib_symbol_name: Some("_a"),
                flags: 0x0a
            }
        ));
        let past = ExportInfo::parse(&[3, 0], LIBRARIES, 8, 0);
        assert!(matches!(past, Err(Error::Malformed(_))));
    }

    #[test]
    fn a_stub_knows_how_long_its_numbers_are() {
        let info = ExportInfo::parse(&[0xa0, 1, 0x30], LIBRARIES, 0x10, 0).unwrap();
        let ExportInfo::Stub {
            stub_offset,
            resolver_offset,
            flags: 0x10,
        } = info
        else {
            panic!("{info:?}");
        };
        assert_eq!((u64::from(stub_offset), stub_offset.size()), (0xa0, 2));
        assert_eq!(
            (u64::from(resolver_offset), resolver_offset.size()),
            (0x30, 1)
        );
    }
}

mod tries {
    use super::{DyldInfoCommand, LIBRARIES, len};
    use goblin_mach::exports::{Export, ExportInfo, ExportTrie};
    use goblin_mach::{Error, Result};

    /// The trie of all the bytes.
    fn trie(bytes: &[u8]) -> ExportTrie<'_> {
        let command = DyldInfoCommand {
            export_size: len(bytes),
            ..DyldInfoCommand::default()
        };
        ExportTrie::new(bytes, &command)
    }

    fn list(bytes: &[u8]) -> Result<Vec<Export<'_>>> {
        trie(bytes).exports(LIBRARIES)
    }

    /// Adds a number as ULEB128 in three bytes.
    fn put(bytes: &mut Vec<u8>, number: usize) {
        let low = |n: usize| u8::try_from(n % 128).unwrap();
        bytes.extend([low(number) | 128, low(number >> 7) | 128, low(number >> 14)]);
    }

    #[test]
    fn a_trie_may_be_20000_nodes_deep() {
        let mut bytes = Vec::new();
        for node in 1..=20_000 {
            bytes.extend(b"\0\x01a\0");
            put(&mut bytes, node * 7);
        }
        bytes.extend([2, 0, 5, 0]);
        let exports = list(&bytes).unwrap();
        assert_eq!(exports.len(), 1);
        assert_eq!(exports[0].name, "a".repeat(20_000));
        assert_eq!(exports[0].offset, 5);
    }

    /// A trie whose root has so many branches "aa", each to a node of five bytes, and a row of as many branches to the end.
    /// The label of each of these begins with the number of those from it on. Read as a count it makes them the list of a
    /// node, whose first label is a byte shorter: so each list lies within the one before.
    fn lists_within_lists(nodes: u8, label: &str) -> Vec<u8> {
        let count = usize::from(nodes);
        let first = 4 + count * 6;
        let row = first + count * 5;
        let width = label.len() + 5;
        let mut bytes = vec![0];
        put(&mut bytes, count);
        for node in 0..count {
            bytes.extend(b"aa\0");
            put(&mut bytes, first + node * 5);
        }
        for node in 0..count {
            put(&mut bytes, row + node * width - (first + node * 5 + 3));
            bytes.extend([0, 7]);
        }
        for left in (1..=nodes).rev() {
            bytes.push(left);
            bytes.extend(label.as_bytes());
            bytes.push(0);
            put(&mut bytes, row + count * width);
        }
        bytes
    }

    #[test]
    fn a_look_up_passes_lists_within_lists() {
        for label in ["", "b", "bbbbbbbbb", "é", "€b", "😀", "b😀é"] {
            for nodes in [1, 2, 30, 120] {
                let bytes = lists_within_lists(nodes, label);
                assert_eq!(list(&bytes).unwrap().len(), usize::from(nodes), "{label}");
                assert_eq!(found(&bytes, "aa").unwrap(), Some(7), "{label} {nodes}");
                assert_eq!(found(&bytes, "aab").unwrap(), None, "{label} {nodes}");
            }
        }
    }

    #[test]
    fn an_export_of_a_trie_has_no_size() {
        let exports = list(&[3, 0x10, 0x20, 0x30, 0]).unwrap();
        assert_eq!((exports[0].size, exports[0].offset), (0, 0));
        assert!(matches!(
            exports[0].info,
            ExportInfo::Stub { flags: 0x10, .. }
        ));
    }

    #[test]
    fn a_walk_ends_once() {
        let whole: &[u8] = &[2, 0, 7, 1, b'a', 0, 7, 2, 0, 9, 0];
        let looped: &[u8] = &[2, 0, 7, 1, b'a', 0, 0];
        for (bytes, items, is_whole) in [(whole, 2, true), (looped, 2, false), (&[], 0, true)] {
            let mut walk = trie(bytes).walk(LIBRARIES).unwrap();
            let mut last = true;
            for _ in 0..items {
                last = walk.next().unwrap().is_ok();
            }
            assert_eq!(last, is_whole);
            assert!(walk.next().is_none());
            assert!(walk.next().is_none());
        }
    }

    /// Numbers that look like chance, and are the same in each run.
    struct Chance(u64);

    impl Chance {
        fn below(&mut self, limit: u64) -> u64 {
            self.0 = self
                .0
                .wrapping_mul(6364136223846793005)
                .wrapping_add(1442695040888963407);
            (self.0 >> 33) % limit
        }

        /// The next node that no other leads to, or any, or none (7), by its number.
        fn child(&mut self, node: u64, used: &mut [bool; 7], anywhere: bool) -> u64 {
            if anywhere {
                return self.below(8);
            }
            let start = node + 1 + self.below(3);
            match used.get_mut(start as usize) {
                Some(mark) if !*mark => {
                    *mark = true;
                    start
                }
                _ => 7,
            }
        }

        /// A node of 16 bytes with up to three branches.
        fn node(&mut self, node: u64, used: &mut [bool; 7], anywhere: bool) -> Vec<u8> {
            let mut bytes = match self.below(2) {
                0 => vec![0],
                _ => vec![2, 0, node as u8 + 1],
            };
            let count = self.below(4);
            bytes.push(count as u8);
            for _ in 0..count {
                let start = self.child(node, used, anywhere);
                bytes.extend(["", "a", "a", "b", "ab"][self.below(5) as usize].as_bytes());
                bytes.extend([0, start as u8 * 16]);
            }
            bytes.resize(16, 0);
            bytes
        }

        /// A trie of seven nodes.
        fn trie(&mut self, anywhere: bool) -> Vec<u8> {
            let mut used = [false; 7];
            (0..7)
                .flat_map(|node| self.node(node, &mut used, anywhere))
                .collect()
        }
    }

    const NAMES: &[&str] = &[
        "", "a", "b", "aa", "ab", "ba", "bb", "aab", "aba", "abab", "aaa", "bab", "c", "abb",
        "aaaa", "bba",
    ];

    /// The address of an export that is found.
    fn found(bytes: &[u8], name: &str) -> Result<Option<u64>> {
        Ok(match trie(bytes).find(LIBRARIES, name)? {
            Some(ExportInfo::Regular { address, .. }) => Some(address),
            Some(other) => panic!("{other:?}"),
            None => None,
        })
    }

    #[test]
    fn a_look_up_agrees_with_the_list() {
        let mut chance = Chance(1);
        let (mut some, mut refused) = (0, 0);
        for round in 0..1500 {
            let bytes = chance.trie(round % 3 == 2);
            let exports = list(&bytes);
            for name in NAMES {
                match (&exports, found(&bytes, name)) {
                    (Ok(exports), Ok(got)) => {
                        let first = exports.iter().find(|export| export.name == *name);
                        assert_eq!(got, first.map(|export| export.offset), "{round} {name}");
                        some += u32::from(got.is_some());
                    }
                    (Ok(_), Err(e)) => panic!("{round} {name}: {e}"),
                    (Err(_), Err(Error::Malformed(_))) => refused += 1,
                    (Err(_), _) => {}
                }
            }
        }
        assert!(some > 1000 && refused > 100, "{some} {refused}");
    }
}

mod imports {
    use super::{DyldInfoCommand, LIBRARIES, WIDE, len, plain};
    use goblin_mach::bind_opcodes::opcode_to_str;
    use goblin_mach::imports::BindInterpreter;
    use goblin_mach::{Error, Steps};

    /// The streams of a command whose non-lazy one is all the bytes.
    fn binds(bytes: &[u8]) -> BindInterpreter<'_> {
        let command = DyldInfoCommand {
            bind_size: len(bytes),
            ..DyldInfoCommand::default()
        };
        BindInterpreter::new(bytes, &command)
    }

    #[test]
    fn a_count_changes_no_import() {
        let binds = binds(&[0x11, 0x70, 0, 0xc0, 3, 8, 0x90, 0]);
        let segments = [plain(0x1000)];
        let counted = binds
            .imports_counted(LIBRARIES, &segments, WIDE, &mut Steps::new())
            .unwrap();
        assert_eq!(counted.len(), 4);
        let listed = binds.imports(LIBRARIES, &segments, WIDE).unwrap();
        assert_eq!(format!("{counted:?}"), format!("{listed:?}"));
    }

    #[test]
    fn more_binds_than_memory_are_refused() {
        let binds = binds(&[
            0x11, 0x70, 0, 0xc0, 255, 255, 255, 255, 255, 255, 255, 255, 255, 1, 0,
        ]);
        let refused = binds.imports(LIBRARIES, &[plain(0x1000)], WIDE);
        assert!(matches!(refused, Err(Error::Memory(_))));
    }

    #[test]
    fn nothing_comes_after_a_fault() {
        let segments = [plain(0x1000)];
        let binds = binds(&[0x11, 0x70, 0, 0x90, 0x7f, 0, 0x90]);
        let mut left = binds.iter(LIBRARIES, &segments, WIDE);
        assert_eq!(left.next().unwrap().unwrap().address, 0);
        assert!(matches!(left.next(), Some(Err(Error::Malformed(_)))));
        assert!(left.next().is_none());
        assert!(left.next().is_none());
    }

    #[test]
    fn opcodes_have_names() {
        const NAMES: [&str; 13] = [
            "BIND_OPCODE_DONE",
            "BIND_OPCODE_SET_DYLIB_ORDINAL_IMM",
            "BIND_OPCODE_SET_DYLIB_ORDINAL_ULEB",
            "BIND_OPCODE_SET_DYLIB_SPECIAL_IMM",
            "BIND_OPCODE_SET_SYMBOL_TRAILING_FLAGS_IMM",
            "BIND_OPCODE_SET_TYPE_IMM",
            "BIND_OPCODE_SET_ADDEND_SLEB",
            "BIND_OPCODE_SET_SEGMENT_AND_OFFSET_ULEB",
            "BIND_OPCODE_ADD_ADDR_ULEB",
            "BIND_OPCODE_DO_BIND",
            "BIND_OPCODE_DO_BIND_ADD_ADDR_ULEB",
            "BIND_OPCODE_DO_BIND_ADD_ADDR_IMM_SCALED",
            "BIND_OPCODE_DO_BIND_ULEB_TIMES_SKIPPING_ULEB",
        ];
        for opcode in 0..=u8::MAX {
            let name = match NAMES.get(usize::from(opcode / 16)) {
                Some(name) if opcode % 16 == 0 => name,
                _ => "UNKNOWN OPCODE",
            };
            assert_eq!(opcode_to_str(opcode), name, "{opcode:#x}");
        }
    }
}

mod bindings {
    use super::{DyldInfoCommand, LIBRARIES, WIDE, len, plain};
    use goblin_mach::imports::BindInterpreter;
    use goblin_mach::{Error, OpcodeBindingIterator, Provider};

    #[test]
    fn an_ordinal_names_a_provider() {
        let library = |ordinal, name| Provider::Library { ordinal, name };
        for (ordinal, want) in [
            (i64::MIN, None),
            (-4, None),
            (-3, Some(Provider::WeakLookup)),
            (-2, Some(Provider::Flat)),
            (-1, Some(Provider::MainExecutable)),
            (0, Some(Provider::Itself)),
            (1, Some(library(1, "L"))),
            (2, Some(library(2, "M"))),
            (3, None),
            (i64::MAX, None),
        ] {
            match Provider::of_ordinal(LIBRARIES, ordinal) {
                Ok(got) => assert_eq!(
                    format!("{got:?}"),
                    format!("{:?}", want.expect("a refusal")),
                    "{ordinal}"
                ),
                Err(Error::Malformed(_)) => assert!(want.is_none(), "{ordinal}"),
                Err(e) => panic!("{ordinal}: {e}"),
            }
        }
    }

    #[test]
    fn nothing_comes_after_a_fault() {
        let bytes = [0x10, 0x40, 0, 0x51, 0x70, 0, 0x90, 0xd0];
        let command = DyldInfoCommand {
            bind_size: len(&bytes),
            ..DyldInfoCommand::default()
        };
        let segments = [plain(0x1000)];
        let binds = BindInterpreter::new(&bytes, &command);
        let mut left = binds.bindings(LIBRARIES, &segments, WIDE);
        assert_eq!(left.next().unwrap().unwrap().address, 0);
        assert!(matches!(left.next(), Some(Err(Error::Malformed(_)))));
        assert!(left.next().is_none());
        assert!(left.next().is_none());
    }

    #[test]
    fn the_default_has_none() {
        assert!(OpcodeBindingIterator::default().next().is_none());
    }
}

mod streams {
    use super::{DyldInfoCommand, WIDE, len, plain};
    use goblin_mach::{
        Error, OpcodeRebaseIterator, RebaseStream, Steps, WeakBind, WeakBindIterator,
        WeakBindStream,
    };

    // "_a", type 1, segment 0 at 0x10, and 2^64 - 1 binds with a step of 0.
    const FOR_EVER: [u8; 28] = [
        0x40, b'_', b'a', 0, 0x51, 0x70, 0x10, 0xc0, 255, 255, 255, 255, 255, 255, 255, 255, 255,
        1, 0xf8, 255, 255, 255, 255, 255, 255, 255, 255, 1,
    ];

    #[test]
    fn one_opcode_binds_for_ever() {
        let command = DyldInfoCommand {
            weak_bind_size: len(&FOR_EVER),
            ..DyldInfoCommand::default()
        };
        let segments = [plain(0x1000)];
        let stream = WeakBindStream::new(&FOR_EVER, &command);
        let mut left = stream.iter(&segments, WIDE);
        let mut steps = Steps::new();
        for _ in 0..100_000 {
            match left.next_counted(&mut steps) {
                Some(Ok(WeakBind::Bind(binding))) => assert_eq!(binding.address, 0x10),
                other => panic!("{other:?}"),
            }
        }
    }

    #[test]
    fn nothing_comes_after_a_fault() {
        let segments = [plain(0x1000)];
        let weak = [0x40, 0, 0x51, 0x70, 0, 0x90, 0xd0];
        let command = DyldInfoCommand {
            weak_bind_size: len(&weak),
            ..DyldInfoCommand::default()
        };
        let mut left = WeakBindStream::new(&weak, &command).iter(&segments, WIDE);
        assert!(left.next().unwrap().is_ok());
        assert!(matches!(left.next(), Some(Err(Error::Malformed(_)))));
        assert!(left.next().is_none());
        let rebases = [0x11, 0x20, 0, 0x51, 0x90];
        let command = DyldInfoCommand {
            rebase_size: len(&rebases),
            ..DyldInfoCommand::default()
        };
        let mut left = RebaseStream::new(&rebases, &command).iter(&segments, WIDE);
        let mut steps = Steps::new();
        assert!(left.next_counted(&mut steps).unwrap().is_ok());
        assert!(matches!(
            left.next_counted(&mut steps),
            Some(Err(Error::Malformed(_)))
        ));
        assert!(left.next_counted(&mut steps).is_none());
        assert!(left.next().is_none());
    }

    #[test]
    fn the_defaults_have_none() {
        assert!(WeakBindIterator::default().next().is_none());
        assert!(OpcodeRebaseIterator::default().next().is_none());
    }
}
