//! Values: each public constant, public fields set by hand, what Debug shows, and tables of fat files of 64 bits.
#[path = "common/kind.rs"]
mod kind;
#[path = "common/samples.rs"]
mod samples;

use goblin_mach::exports::ExportTrie;
use goblin_mach::fat::FatArch;
use goblin_mach::header::{Header, Header32, Header64};
use goblin_mach::imports::BindInterpreter;
use goblin_mach::load_command::{
    DyldInfoCommand, Section32, Section64, SegmentCommand32, SegmentCommand64,
};
use goblin_mach::segment::{Section, Segment};
use goblin_mach::symbols::{Symbols, SymbolsCtx};
use goblin_mach::{
    BE, Ctx, Endian, Error, FatArch64, LE, LinkView, MachO, MultiArch, MultiArch64, Result,
    SingleArch, TryFromCtx, TryIntoCtx, bind_opcodes, constants, cputype, exports, fat, header,
    link_view, load_command, relocation, symbols,
};
use kind::{fault, kind};
use samples::{FILE_B, FILE_C};

// Each constant of the library, and its value.
macro_rules! rows {
    ($($module:ident: $($name:ident = $want:literal),*;)*) => {
        ([$($($module::$name,)*)*], [$($($want,)*)*])
    };
}

// The constants of type u8: opcodes, parts of symbols, relocations.
const U8: ([u8; 106], [u8; 106]) = rows! {
    bind_opcodes: BIND_TYPE_POINTER = 0x1, BIND_TYPE_TEXT_ABSOLUTE32 = 0x2,
        BIND_TYPE_TEXT_PCREL32 = 0x3, BIND_SPECIAL_DYLIB_SELF = 0x0,
        BIND_SPECIAL_DYLIB_MAIN_EXECUTABLE = 0xf, BIND_SPECIAL_DYLIB_FLAT_LOOKUP = 0xe,
        BIND_SYMBOL_FLAGS_WEAK_IMPORT = 0x1, BIND_SYMBOL_FLAGS_NON_WEAK_DEFINITION = 0x8,
        BIND_OPCODE_MASK = 0xf0, BIND_IMMEDIATE_MASK = 0xf, BIND_OPCODE_DONE = 0x0,
        BIND_OPCODE_SET_DYLIB_ORDINAL_IMM = 0x10, BIND_OPCODE_SET_DYLIB_ORDINAL_ULEB = 0x20,
        BIND_OPCODE_SET_DYLIB_SPECIAL_IMM = 0x30, BIND_OPCODE_SET_SYMBOL_TRAILING_FLAGS_IMM = 0x40,
        BIND_OPCODE_SET_TYPE_IMM = 0x50, BIND_OPCODE_SET_ADDEND_SLEB = 0x60,
        BIND_OPCODE_SET_SEGMENT_AND_OFFSET_ULEB = 0x70, BIND_OPCODE_ADD_ADDR_ULEB = 0x80,
        BIND_OPCODE_DO_BIND = 0x90, BIND_OPCODE_DO_BIND_ADD_ADDR_ULEB = 0xa0,
        BIND_OPCODE_DO_BIND_ADD_ADDR_IMM_SCALED = 0xb0,
        BIND_OPCODE_DO_BIND_ULEB_TIMES_SKIPPING_ULEB = 0xc0;
    symbols: N_STAB = 0xe0, N_PEXT = 0x10, N_TYPE = 0xe, N_EXT = 0x1, N_UNDF = 0x0, N_ABS = 0x2,
        N_SECT = 0xe, N_PBUD = 0xc, N_INDR = 0xa, N_GSYM = 0x20, N_FNAME = 0x22, N_FUN = 0x24,
        N_STSYM = 0x26, N_LCSYM = 0x28, N_BNSYM = 0x2e, N_PC = 0x30, N_AST = 0x32, N_OPT = 0x3c,
        N_RSYM = 0x40, N_SLINE = 0x44, N_ENSYM = 0x4e, N_SSYM = 0x60, N_SO = 0x64, N_OSO = 0x66,
        N_LSYM = 0x80, N_BINCL = 0x82, N_SOL = 0x84, N_PARAMS = 0x86, N_VERSION = 0x88, N_OLEVEL = 0x8a,
        N_PSYM = 0xa0, N_EINCL = 0xa2, N_ENTRY = 0xa4, N_LBRAC = 0xc0, N_EXCL = 0xc2, N_RBRAC = 0xe0,
        N_BCOMM = 0xe2, N_ECOMM = 0xe4, N_ECOML = 0xe8, N_LENG = 0xfe, NO_SECT = 0x0, MAX_SECT = 0xff,
        NLIST_TYPE_MASK = 0xe, NLIST_TYPE_GLOBAL = 0x1, NLIST_TYPE_LOCAL = 0x0;
    relocation: X86_64_RELOC_UNSIGNED = 0, X86_64_RELOC_SIGNED = 1, X86_64_RELOC_BRANCH = 2,
        X86_64_RELOC_GOT_LOAD = 3, X86_64_RELOC_GOT = 4, X86_64_RELOC_SUBTRACTOR = 5,
        X86_64_RELOC_SIGNED_1 = 6, X86_64_RELOC_SIGNED_2 = 7, X86_64_RELOC_SIGNED_4 = 8,
        X86_64_RELOC_TLV = 9, GENERIC_RELOC_VANILLA = 0, GENERIC_RELOC_PAIR = 1,
        GENERIC_RELOC_SECTDIFF = 2, GENERIC_RELOC_PB_LA_PTR = 3, GENERIC_RELOC_LOCAL_SECTDIFF = 4,
        GENERIC_RELOC_TLV = 5, ARM_RELOC_VANILLA = 0, ARM_RELOC_PAIR = 1, ARM_RELOC_SECTDIFF = 2,
        ARM_RELOC_LOCAL_SECTDIFF = 3, ARM_RELOC_PB_LA_PTR = 4, ARM_RELOC_BR24 = 5,
        ARM_THUMB_RELOC_BR22 = 6, ARM_THUMB_32BIT_BRANCH = 0x7, ARM_RELOC_HALF = 8,
        ARM_RELOC_HALF_SECTDIFF = 9, ARM64_RELOC_UNSIGNED = 0, ARM64_RELOC_SUBTRACTOR = 1,
        ARM64_RELOC_BRANCH26 = 2, ARM64_RELOC_PAGE21 = 3, ARM64_RELOC_PAGEOFF12 = 4,
        ARM64_RELOC_GOT_LOAD_PAGE21 = 5, ARM64_RELOC_GOT_LOAD_PAGEOFF12 = 6,
        ARM64_RELOC_POINTER_TO_GOT = 7, ARM64_RELOC_TLVP_LOAD_PAGE21 = 8,
        ARM64_RELOC_TLVP_LOAD_PAGEOFF12 = 9, ARM64_RELOC_ADDEND = 10, R_ABS = 0;
};

// The constants of type u16: descriptions of symbols.
const U16: ([u16; 12], [u16; 12]) = rows! {
    symbols: N_DESC_DISCARDED = 0x20, N_NO_DEAD_STRIP = 0x20, N_WEAK_REF = 0x40, N_WEAK_DEF = 0x80,
        REFERENCE_TYPE = 0xf, REFERENCED_DYNAMICALLY = 0x10, REFERENCE_FLAG_UNDEFINED_NON_LAZY = 0,
        REFERENCE_FLAG_UNDEFINED_LAZY = 1, REFERENCE_FLAG_DEFINED = 2,
        REFERENCE_FLAG_PRIVATE_DEFINED = 3, REFERENCE_FLAG_PRIVATE_UNDEFINED_NON_LAZY = 4,
        REFERENCE_FLAG_PRIVATE_UNDEFINED_LAZY = 5;
};

// The constants of type u32: magics, flags, file types, cpus, sections, commands, platforms, tools.
const U32: ([u32; 133], [u32; 133]) = rows! {
    load_command: LC_REQ_DYLD = 0x80000000, LC_SEGMENT = 0x1, LC_SYMTAB = 0x2, LC_SYMSEG = 0x3,
        LC_THREAD = 0x4, LC_UNIXTHREAD = 0x5, LC_LOADFVMLIB = 0x6, LC_IDFVMLIB = 0x7, LC_IDENT = 0x8,
        LC_FVMFILE = 0x9, LC_PREPAGE = 0xa, LC_DYSYMTAB = 0xb, LC_LOAD_DYLIB = 0xc, LC_ID_DYLIB = 0xd,
        LC_LOAD_DYLINKER = 0xe, LC_ID_DYLINKER = 0xf, LC_PREBOUND_DYLIB = 0x10, LC_ROUTINES = 0x11,
        LC_SUB_FRAMEWORK = 0x12, LC_SUB_UMBRELLA = 0x13, LC_SUB_CLIENT = 0x14, LC_SUB_LIBRARY = 0x15,
        LC_TWOLEVEL_HINTS = 0x16, LC_PREBIND_CKSUM = 0x17, LC_LOAD_WEAK_DYLIB = 0x80000018,
        LC_SEGMENT_64 = 0x19, LC_ROUTINES_64 = 0x1a, LC_UUID = 0x1b, LC_RPATH = 0x8000001c,
        LC_CODE_SIGNATURE = 0x1d, LC_SEGMENT_SPLIT_INFO = 0x1e, LC_REEXPORT_DYLIB = 0x8000001f,
        LC_LAZY_LOAD_DYLIB = 0x20, LC_ENCRYPTION_INFO = 0x21, LC_DYLD_INFO = 0x22,
        LC_DYLD_INFO_ONLY = 0x80000022, LC_LOAD_UPWARD_DYLIB = 0x80000023, LC_VERSION_MIN_MACOSX = 0x24,
        LC_VERSION_MIN_IPHONEOS = 0x25, LC_FUNCTION_STARTS = 0x26, LC_DYLD_ENVIRONMENT = 0x27,
        LC_MAIN = 0x80000028, LC_DATA_IN_CODE = 0x29, LC_SOURCE_VERSION = 0x2a,
        LC_DYLIB_CODE_SIGN_DRS = 0x2b, LC_ENCRYPTION_INFO_64 = 0x2c, LC_LINKER_OPTION = 0x2d,
        LC_LINKER_OPTIMIZATION_HINT = 0x2e, LC_VERSION_MIN_TVOS = 0x2f, LC_VERSION_MIN_WATCHOS = 0x30,
        LC_NOTE = 0x31, LC_BUILD_VERSION = 0x32, LC_DYLD_EXPORTS_TRIE = 0x80000033,
        LC_DYLD_CHAINED_FIXUPS = 0x80000034, LC_FILESET_ENTRY = 0x80000035, LC_ATOM_INFO = 0x36,
        LC_FUNCTION_VARIANTS = 0x37, LC_FUNCTION_VARIANT_FIXUPS = 0x38, LC_TARGET_TRIPLE = 0x39, PLATFORM_MACOS = 1,
        PLATFORM_IOS = 2, PLATFORM_TVOS = 3, PLATFORM_WATCHOS = 4, PLATFORM_BRIDGEOS = 5,
        PLATFORM_MACCATALYST = 6, PLATFORM_IOSSIMULATOR = 7, PLATFORM_TVOSSIMULATOR = 8,
        PLATFORM_WATCHOSSIMULATOR = 9, PLATFORM_DRIVERKIT = 10, PLATFORM_VISIONOS = 11,
        PLATFORM_VISIONOSSIMULATOR = 12, TOOL_CLANG = 1, TOOL_SWIFT = 2, TOOL_LD = 3, TOOL_LLD = 4;
    header: MH_MAGIC = 0xfeedface, MH_CIGAM = 0xcefaedfe, MH_MAGIC_64 = 0xfeedfacf,
        MH_CIGAM_64 = 0xcffaedfe;
    fat: FAT_MAGIC = 0xcafebabe, FAT_CIGAM = 0xbebafeca;
    header: MH_NOUNDEFS = 0x1, MH_INCRLINK = 0x2, MH_DYLDLINK = 0x4, MH_BINDATLOAD = 0x8,
        MH_PREBOUND = 0x10, MH_SPLIT_SEGS = 0x20, MH_LAZY_INIT = 0x40, MH_TWOLEVEL = 0x80,
        MH_FORCE_FLAT = 0x100, MH_NOMULTIDEFS = 0x200, MH_NOFIXPREBINDING = 0x400,
        MH_PREBINDABLE = 0x800, MH_ALLMODSBOUND = 0x1000, MH_SUBSECTIONS_VIA_SYMBOLS = 0x2000,
        MH_CANONICAL = 0x4000, MH_WEAK_DEFINES = 0x8000, MH_BINDS_TO_WEAK = 0x10000,
        MH_ALLOW_STACK_EXECUTION = 0x20000, MH_ROOT_SAFE = 0x40000, MH_SETUID_SAFE = 0x80000,
        MH_NO_REEXPORTED_DYLIBS = 0x100000, MH_PIE = 0x200000, MH_DEAD_STRIPPABLE_DYLIB = 0x400000,
        MH_HAS_TLV_DESCRIPTORS = 0x800000, MH_NO_HEAP_EXECUTION = 0x1000000,
        MH_APP_EXTENSION_SAFE = 0x2000000, MH_OBJECT = 0x1, MH_EXECUTE = 0x2, MH_FVMLIB = 0x3,
        MH_CORE = 0x4, MH_PRELOAD = 0x5, MH_DYLIB = 0x6, MH_DYLINKER = 0x7, MH_BUNDLE = 0x8,
        MH_DYLIB_STUB = 0x9, MH_DSYM = 0xa, MH_KEXT_BUNDLE = 0xb, MH_FILESET = 0xc,
        MH_GPU_EXECUTE = 0xd, MH_GPU_DYLIB = 0xe;
    cputype: CPU_SUBTYPE_MASK = 0xff000000, CPU_ARCH_ABI64 = 0x1000000, CPU_TYPE_X86 = 0x7,
        CPU_TYPE_X86_64 = 0x1000007, CPU_TYPE_ARM = 0xc, CPU_TYPE_ARM64 = 0x100000c,
        CPU_TYPE_ARM64_32 = 0x200000c, CPU_TYPE_POWERPC = 0x12;
    constants: SECTION_TYPE = 0xff, S_ZEROFILL = 0x1, S_GB_ZEROFILL = 0xc,
        S_THREAD_LOCAL_ZEROFILL = 0x12;
};

// The constants of type u64: flags of exports.
const U64: ([u64; 7], [u64; 7]) = rows! {
    exports: EXPORT_SYMBOL_FLAGS_KIND_MASK = 0x3, EXPORT_SYMBOL_FLAGS_KIND_REGULAR = 0x0,
        EXPORT_SYMBOL_FLAGS_KIND_THREAD_LOCAL = 0x1, EXPORT_SYMBOL_FLAGS_KIND_ABSOLUTE = 0x2,
        EXPORT_SYMBOL_FLAGS_WEAK_DEFINITION = 0x4, EXPORT_SYMBOL_FLAGS_REEXPORT = 0x8,
        EXPORT_SYMBOL_FLAGS_STUB_AND_RESOLVER = 0x10;
};

// The constants of type usize: sizes of records.
const USIZE: ([usize; 37], [usize; 37]) = rows! {
    header: SIZEOF_HEADER_32 = 28, SIZEOF_HEADER_64 = 32;
    fat: SIZEOF_FAT_HEADER = 8, SIZEOF_FAT_ARCH = 20;
    load_command: SIZEOF_LOAD_COMMAND = 8, SIZEOF_SECTION_32 = 68, SIZEOF_SECTION_64 = 80,
        SIZEOF_SEGMENT_COMMAND_32 = 56, SIZEOF_SEGMENT_COMMAND_64 = 72, SIZEOF_FVMLIB = 12,
        SIZEOF_FVMLIB_COMMAND = 20, SIZEOF_DYLIB = 16, SIZEOF_DYLIB_COMMAND = 24,
        SIZEOF_SUB_FRAMEWORK_COMMAND = 12, SIZEOF_SUB_CLIENT_COMMAND = 12,
        SIZEOF_SUB_UMBRELLA_COMMAND = 12, SIZEOF_SUB_LIBRARY_COMMAND = 12,
        SIZEOF_PREBOUND_DYLIB_COMMAND = 20, SIZEOF_DYLINKER_COMMAND = 12, SIZEOF_SYMTAB_COMMAND = 24,
        SIZEOF_DYSYMTAB_COMMAND = 80, SIZEOF_UUID_COMMAND = 24, SIZEOF_RPATH_COMMAND = 12,
        SIZEOF_LINKEDIT_DATA_COMMAND = 16, SIZEOF_ENCRYPTION_INFO_COMMAND_32 = 20,
        SIZEOF_ENCRYPTION_INFO_COMMAND_64 = 24, SIZEOF_VERSION_MIN_COMMAND = 16,
        SIZEOF_DYLIB_INFO_COMMAND = 48, SIZEOF_LINKER_OPTION_COMMAND = 12, SIZEOF_SYMSEG_COMMAND = 16,
        SIZEOF_IDENT_COMMAND = 8, SIZEOF_FVMFILE_COMMAND = 16, SIZEOF_ENTRY_POINT_COMMAND = 24;
    relocation: SIZEOF_RELOCATION_INFO = 8;
    symbols: SIZEOF_NLIST_32 = 12, SIZEOF_NLIST_64 = 16;
    load_command: SIZEOF_LC_STR = 4;
};

#[test]
fn values_of_constants() {
    assert_eq!((LE, BE), (Endian::Little, Endian::Big));
    assert_eq!(U8.0, U8.1);
    assert_eq!(U16.0, U16.1);
    assert_eq!(U32.0, U32.1);
    assert_eq!(U64.0, U64.1);
    assert_eq!(USIZE.0, USIZE.1);
}

// Numbers set by hand: counts, offsets and public fields at their largest.

/// The kind of the error of a read past all numbers of 64 bits.
const FAR: &str = "bad offset 18446744073709551615";

#[test]
fn tries() {
    let far = [
        0, 1, 0x61, 0, 255, 255, 255, 255, 255, 255, 255, 255, 255, 1,
    ];
    let following = [&[0], &far[..]].concat();
    let long = [255, 255, 255, 255, 255, 255, 255, 255, 255, 1, 0, 0, 0];
    let rows: [(&str, &[u8], u32, &str); 3] = [
        ("child_at_the_largest_place", &far, 0, "0 exports"),
        ("child_past_64_bits", &following, 1, "malformed"),
        ("branches_past_64_bits", &long, 0, "malformed"),
    ];
    for (row, bytes, export_off, want) in rows {
        let command = DyldInfoCommand {
            export_off,
            export_size: bytes.len() as u32 - export_off,
            ..DyldInfoCommand::default()
        };
        let got = match ExportTrie::new(bytes, &command).exports(&[]) {
            Ok(list) => format!("{} exports", list.len()),
            Err(error) => kind(&error),
        };
        assert_eq!(got, want, "{row}");
    }
}

/// A bind of segment 0 repeated 2^64 - 1 times.
const OF_ALL: [u8; 15] = [
    0x11, 0x70, 0, 0xc0, 255, 255, 255, 255, 255, 255, 255, 255, 255, 1, 0,
];

// A count of 2^64 - 1 needs more room than there is; of a segment of 4,096 bytes 512 binds come first.
#[test]
fn binds() {
    let command = DyldInfoCommand {
        bind_size: 15,
        ..DyldInfoCommand::default()
    };
    let binds = BindInterpreter::new(&OF_ALL, &command);
    let mut page = Segment::new(Ctx::default(), &[]);
    page.vmsize = 0x1000;
    let segments = [page];
    let answer = binds.imports(&["self", "L"], &segments, Ctx::default());
    assert!(matches!(
        answer,
        Err(Error::Memory(_) | Error::Malformed(_))
    ));
    let mut items = binds.iter(&["self", "L"], &segments, Ctx::default());
    for k in 0..512 {
        assert_eq!(items.next().unwrap().unwrap().offset, 8 * k);
    }
    assert_eq!(fault(items.next().unwrap()), "malformed");
    assert!(items.next().is_none());
}

/// What an image gives by its segments: imports, relocations, the sections of the first one, and its name.
fn of_segments(image: &MachO) -> [String; 4] {
    let shown = |answer: Result<String>| answer.unwrap_or_else(|error| kind(&error));
    let imports = image.imports().map(|list| {
        list.iter()
            .map(|it| format!("{} of {} at {:#x}; ", it.name, it.dylib, it.offset))
            .collect()
    });
    let relocations = image.relocations().map(|list| {
        list.iter()
            .map(|(number, _, section)| {
                format!(
                    "{number} {} of {}; ",
                    section.name().unwrap(),
                    section.nreloc
                )
            })
            .collect()
    });
    let first = &image.segments.as_slice()[0];
    let sections = first.sections().map(|list| {
        list.iter()
            .map(|(section, data)| format!("{} of {}; ", section.name().unwrap(), data.len()))
            .collect()
    });
    let name = first.name().map(String::from);
    [imports, relocations, sections, name].map(shown)
}

/// What file B gives by its segments.
const OF_FILE_B: [&str; 4] = [
    "_a of L at 0x10; _b of L at 0x18; ",
    "0 __text of 1; ",
    "__text of 8; ",
    "__TEXT",
];

/// Sets a field to its largest value.
type Fill<T> = fn(&mut T);

/// Answers that differ: the place in the list, and the answer.
type Differences = &'static [(usize, &'static str)];

/// The fields of a segment, and what file B then gives else than before.
const FIELDS: [(Fill<Segment>, Differences); 11] = [
    (|it| it.cmd = u32::MAX, &[]),
    (|it| it.cmdsize = u32::MAX, &[]),
    (|it| it.segname = [0xff; 16], &[(3, "bad input 16")]),
    (|it| it.vmaddr = u64::MAX, &[(0, "malformed")]),
    (|it| it.vmsize = u64::MAX, &[]),
    (|it| it.fileoff = u64::MAX, &[(0, "malformed")]),
    (|it| it.filesize = u64::MAX, &[]),
    (|it| it.maxprot = u32::MAX, &[]),
    (|it| it.initprot = u32::MAX, &[]),
    (
        |it| it.nsects = u32::MAX,
        &[(1, "too big 80 of 32"), (2, "too big 80 of 32")],
    ),
    (|it| it.flags = u32::MAX, &[]),
];

#[test]
fn fields_of_a_segment() {
    for (number, (fill, differences)) in FIELDS.iter().enumerate() {
        let mut image = MachO::parse(FILE_B, 0).unwrap();
        let segment = image.segments.get_mut(0).unwrap();
        fill(segment);
        let sections = (&*segment).into_iter();
        assert_eq!(sections.len(), segment.nsects as usize, "field {number}");
        let mut want = OF_FILE_B;
        for &(place, answer) in *differences {
            want[place] = answer;
        }
        assert_eq!(of_segments(&image), want, "field {number}");
    }
}

/// A segment whose fields are all at their largest.
fn filled() -> Segment<'static> {
    let mut segment = Segment::new(Ctx::default(), &[]);
    for (fill, _) in FIELDS {
        fill(&mut segment);
    }
    segment
}

#[test]
fn all_fields_of_a_segment() {
    let segment = filled();
    let mut sections = (&segment).into_iter();
    assert_eq!(sections.len(), 4_294_967_295);
    assert_eq!(fault(sections.next().unwrap()), "bad offset 72");
    assert_eq!(sections.len(), 4_294_967_294);
    assert!(segment.holds(u64::MAX - 1));
    assert!(!segment.holds(u64::MAX));
    let mut written = [0; 72];
    let width = segment.try_into_ctx(&mut written, Ctx::default()).unwrap();
    assert_eq!((width, written), (72, [0xff; 72]));
    let narrow = SegmentCommand32::from(filled());
    assert_eq!((narrow.vmaddr, narrow.vmsize), (u32::MAX, u32::MAX));
    assert_eq!((narrow.fileoff, narrow.filesize), (u32::MAX, u32::MAX));
    let wide = SegmentCommand64::from(filled());
    assert_eq!((wide.vmaddr, wide.vmsize), (u64::MAX, u64::MAX));
    assert_eq!((wide.fileoff, wide.filesize), (u64::MAX, u64::MAX));
}

#[test]
fn fields_of_a_header() {
    let fields: [(Fill<Header>, u32, u32, u32); 8] = [
        (|it| it.magic = u32::MAX, 0x0100_0007, 3, 0),
        (|it| it.cputype = u32::MAX, u32::MAX, 3, 0),
        (
            |it| it.cpusubtype = u32::MAX,
            0x0100_0007,
            0x00ff_ffff,
            0xff,
        ),
        (|it| it.filetype = u32::MAX, 0x0100_0007, 3, 0),
        (|it| it.ncmds = usize::MAX, 0x0100_0007, 3, 0),
        (|it| it.sizeofcmds = u32::MAX, 0x0100_0007, 3, 0),
        (|it| it.flags = u32::MAX, 0x0100_0007, 3, 0),
        (|it| it.reserved = u32::MAX, 0x0100_0007, 3, 0),
    ];
    for (fill, cputype, cpusubtype, caps) in fields {
        let mut image = MachO::parse(FILE_B, 0).unwrap();
        fill(&mut image.header);
        let header = image.header;
        assert!(!image.is_object_file());
        assert_eq!(
            (header.cputype(), header.cpusubtype()),
            (cputype, cpusubtype)
        );
        assert_eq!(header.cpu_caps(), caps);
        let low = header.ncmds as u32;
        assert_eq!(Header32::from(header).ncmds, low);
        assert_eq!(Header64::from(header).ncmds, low);
        assert_eq!(image.exports().unwrap().len(), 2);
        assert_eq!(image.imports().unwrap().len(), 2);
    }
}

// The fields of an image that no call reads, and its symbols.
#[test]
fn fields_of_an_image() {
    let mut image = MachO::parse(FILE_B, 0).unwrap();
    image.entry = u64::MAX;
    image.old_style_entry = true;
    image.little_endian = false;
    image.is_64 = false;
    image.symbols = Some(Symbols::new(FILE_B, usize::MAX, usize::MAX, usize::MAX).unwrap());
    assert_eq!(of_segments(&image), OF_FILE_B);
    assert_eq!(image.exports().unwrap().len(), 2);
    let mut items = image.symbols();
    for _ in 0..3 {
        assert_eq!(fault(items.next().unwrap()), FAR);
    }
    image.libs.clear();
    assert_eq!(fault(image.imports()), "malformed");
}

#[test]
fn records_of_a_container() {
    let mut file = MultiArch::new(FILE_C).unwrap();
    file.narches = usize::MAX;
    assert_eq!(
        fault(file.arches()),
        "too short 18446744073709551615 arches"
    );
    assert_eq!(fault(file.find_cputype(u32::MAX)), "too big 20 of 12");
    let mut records = file.iter_arches();
    assert!(records.by_ref().take(21).all(|record| record.is_ok()));
    assert!(records.next().unwrap().is_err());
}

#[test]
fn entries_of_a_container() {
    let mut file = MultiArch::new(FILE_C).unwrap();
    file.narches = usize::MAX;
    assert_eq!(fault(file.get(2)), "malformed");
    assert_eq!(fault(file.get(usize::MAX - 1)), FAR);
    assert_eq!(fault(file.get(usize::MAX)), "malformed");
    let is_err = |arch: Result<FatArch>| arch.is_err();
    assert_eq!(fault(file.find(is_err).unwrap()), "too big 20 of 12");
    let mut entries = (&file).into_iter();
    assert!(entries.by_ref().take(2).all(|entry| entry.is_ok()));
    assert_eq!(fault(entries.next().unwrap()), "malformed");
}

/// A record of 16 bytes in file B.
const RECORD: FatArch = FatArch {
    cputype: 7,
    cpusubtype: 3,
    offset: 48,
    size: 16,
    align: 4,
};

#[test]
fn fields_of_a_record() {
    let rows: [(Fill<FatArch>, usize, u32, u32); 5] = [
        (|it| it.cputype = u32::MAX, 16, 3, 0),
        (|it| it.cpusubtype = u32::MAX, 16, 0x00ff_ffff, 0xff),
        (|it| it.offset = u32::MAX, 0, 3, 0),
        (|it| it.size = u32::MAX, 0, 3, 0),
        (|it| it.align = u32::MAX, 16, 3, 0),
    ];
    for (fill, length, cpusubtype, caps) in rows {
        let mut arch = RECORD;
        fill(&mut arch);
        assert_eq!(arch.slice(FILE_B).len(), length);
        assert_eq!(
            (arch.cputype(), arch.cpusubtype()),
            (arch.cputype, cpusubtype)
        );
        assert_eq!(arch.cpu_caps(), caps);
        assert_eq!(arch.is_64(), arch.cputype == u32::MAX);
    }
}

/// The section of file B.
const SECTION: Section = Section {
    sectname: *b"__text\0\0\0\0\0\0\0\0\0\0",
    segname: *b"__TEXT\0\0\0\0\0\0\0\0\0\0",
    addr: 0x1_0000_0138,
    size: 8,
    offset: 312,
    align: 0,
    reloff: 344,
    nreloc: 1,
    flags: 0,
};

/// The names of a section, and its first two relocations in file B.
fn of_section(section: &Section) -> [String; 4] {
    let mut relocations = section.iter_relocations(FILE_B, Ctx::default());
    let mut relocation = || match relocations.next() {
        Some(Ok(it)) => format!("{} {:#x}", it.r_address, it.r_info),
        Some(Err(error)) => kind(&error),
        None => "none".into(),
    };
    let (first, second) = (relocation(), relocation());
    let name = |answer: Result<&str>| answer.map_or_else(|error| kind(&error), String::from);
    [name(section.name()), name(section.segname()), first, second]
}

#[test]
fn fields_of_a_section() {
    let fields: [(Fill<Section>, Differences); 9] = [
        (|it| it.sectname = [0xff; 16], &[(0, "bad input 16")]),
        (|it| it.segname = [0xff; 16], &[(1, "bad input 16")]),
        (|it| it.addr = u64::MAX, &[]),
        (|it| it.size = u64::MAX, &[]),
        (|it| it.offset = u32::MAX, &[]),
        (|it| it.align = u32::MAX, &[]),
        (|it| it.reloff = u32::MAX, &[(2, "bad offset 4294967295")]),
        (|it| it.nreloc = u32::MAX, &[(3, "1 0x10f")]),
        (|it| it.flags = u32::MAX, &[]),
    ];
    for (fill, differences) in fields {
        let mut section = SECTION;
        fill(&mut section);
        let mut want = ["__text", "__TEXT", "4 0x2d000001", "none"];
        for &(place, answer) in differences {
            want[place] = answer;
        }
        assert_eq!(of_section(&section), want);
        let (addr, size) = (section.addr as u32, section.size as u32);
        let narrow = Section32::from(section);
        assert_eq!((narrow.addr, narrow.size), (addr, size));
    }
}

#[test]
fn a_wide_section() {
    let wide = Section64::from(Section {
        addr: u64::MAX,
        ..SECTION
    });
    assert_eq!((wide.addr, wide.size), (u64::MAX, 8));
}

// The symbols of file B, from their records on.
#[test]
fn fields_of_a_symbols_ctx() {
    let of_b = SymbolsCtx {
        nsyms: 1,
        strtab: 16,
        ctx: Ctx::default(),
    };
    let many = SymbolsCtx {
        nsyms: usize::MAX,
        ..of_b
    };
    let far = SymbolsCtx {
        strtab: usize::MAX,
        ..of_b
    };
    for (ctx, first, second) in [(many, "_main", "too big 16 of 8"), (far, FAR, "none")] {
        let (symbols, width) = Symbols::try_from_ctx(&FILE_B[352..], ctx).unwrap();
        assert_eq!(width, 24);
        let mut items = symbols.iter();
        let mut name = || match items.next() {
            Some(Ok((name, _))) => name.into(),
            Some(Err(error)) => kind(&error),
            None => "none".into(),
        };
        assert_eq!([name(), name()], [first, second]);
        assert_eq!(fault(symbols.get(usize::MAX)), FAR);
    }
}

// What Debug shows of types that borrow the file: the number of bytes, and not the bytes.

#[test]
fn ranges_shown() {
    let command = DyldInfoCommand {
        bind_off: 312,
        bind_size: 8,
        lazy_bind_off: 320,
        lazy_bind_size: 8,
        export_off: 328,
        export_size: 11,
        ..DyldInfoCommand::default()
    };
    assert_eq!(
        format!("{:?}", ExportTrie::new(FILE_B, &command)),
        "ExportTrie { bytes: 376 bytes, from: 328, upto: 339 }"
    );
    assert_eq!(
        format!("{:?}", BindInterpreter::new(FILE_B, &command)),
        "BindInterpreter { bytes: 376 bytes, from: 312, upto: 320, lazy_from: 320, lazy_upto: 328 }"
    );
}

#[test]
fn an_image_shown() {
    let text = format!("{:?}", MachO::parse(FILE_B, 0).unwrap());
    assert!(text.contains("bytes: 376 bytes, ctx"));
    assert!(text.contains("has_export_trie: true, has_binds: true"));
    assert!(!text.contains("[207, 250"));
}

#[test]
fn a_fat_file_shown() {
    let container = MultiArch::new(FILE_C).unwrap();
    assert!(format!("{container:?}").contains("bytes: 440 bytes"));
    let entry = container.get(1).unwrap();
    assert_eq!(format!("{entry:?}"), "Archive(16 bytes)");
    let items = link_view(FILE_C).unwrap();
    let Some(Ok(view @ LinkView::Archive(_))) = items.last() else {
        panic!("an archive");
    };
    assert_eq!(format!("{view:?}"), "Archive(16 bytes)");
}

// Tables of fat files of 64 bits.

/// The header of a fat file of 64 bits that counts so many entries, and a record: cpu and subtype, offset and size, the
/// power of the alignment, and the reserved number.
fn table(count: u32, record: [u64; 6]) -> Vec<u8> {
    let [cputype, cpusubtype, offset, size, align, reserved] = record;
    let mut bytes = 0xcafe_babf_u32.to_be_bytes().to_vec();
    for word in [count, cputype as u32, cpusubtype as u32] {
        bytes.extend(word.to_be_bytes());
    }
    for number in [offset, size, align << 32 | reserved] {
        bytes.extend(number.to_be_bytes());
    }
    bytes
}

/// A table of an image without commands.
fn of_one_image() -> Vec<u8> {
    let mut bytes = table(1, [0x100_0007, 3, 40, 32, 3, 0]);
    bytes.extend(samples::BARE);
    bytes
}

/// A record with the number of its bytes in a file.
fn record(arch: &FatArch64, file: &[u8]) -> String {
    let slice = arch.slice(file).len();
    let FatArch64 {
        cputype,
        cpusubtype,
        offset,
        size,
        align,
        ..
    } = arch;
    format!("{cputype:#x} {cpusubtype:#x} at {offset} of {size}, 2^{align}, slice of {slice}")
}

#[test]
fn slices_of_records() {
    let far = [&table(1, [7, 3, u64::MAX - 7, 16, 0, 0])[..], &[0; 8]].concat();
    for (bytes, want) in [
        (
            of_one_image(),
            "0x1000007 0x3 at 40 of 32, 2^3, slice of 32",
        ),
        (
            far,
            "0x7 0x3 at 18446744073709551608 of 16, 2^0, slice of 0",
        ),
        (
            table(1, [7, 3, 40, 1, 0, 0]),
            "0x7 0x3 at 40 of 1, 2^0, slice of 0",
        ),
    ] {
        let file = MultiArch64::new(&bytes).unwrap();
        let arches = file.arches().unwrap();
        assert_eq!(record(&arches[0], &bytes), want);
        assert_eq!(arches.len(), 1);
    }
    let half = table(2, [7, 3, 40, 1, 0, 5]);
    let file = MultiArch64::new(&half).unwrap();
    assert_eq!(fault(file.arches()), "too short 2 arches");
}

#[test]
fn records_of_a_cpu() {
    let (one, half) = (of_one_image(), table(2, [7, 3, 40, 1, 0, 5]));
    for (bytes, cputype, want) in [
        (&one, 7, "none"),
        (
            &one,
            0x100_0007,
            "0x1000007 0x3 at 40 of 32, 2^3, slice of 32",
        ),
        (&half, 7, "0x7 0x3 at 40 of 1, 2^0, slice of 0"),
        (&half, 8, "bad offset 40"),
    ] {
        let file = MultiArch64::new(bytes).unwrap();
        let got = match file.find_cputype(cputype) {
            Ok(found) => found.map_or("none".into(), |arch| record(&arch, bytes)),
            Err(error) => kind(&error),
        };
        assert_eq!(got, want);
    }
}

#[test]
fn entries_of_64_bits() {
    let one = of_one_image();
    let file = MultiArch64::new(&one).unwrap();
    let is_64 = |found: Result<FatArch64>| found.is_ok_and(|arch| arch.is_64());
    assert!(matches!(file.find(is_64), Some(Ok(SingleArch::MachO(_)))));
    let is_err = |found: Result<FatArch64>| found.is_err();
    assert!(file.find(is_err).is_none());
    assert_eq!((&file).into_iter().len(), 1);
    assert_eq!(file.iter_arches().len(), 1);
    assert_eq!(fault(file.get(1)), "malformed");
}

#[test]
fn a_table_of_64_bits_shown() {
    let one = of_one_image();
    let file = MultiArch64::new(&one).unwrap();
    assert_eq!(
        format!("{file:?}"),
        "MultiArch64 { narches: 1, bytes: 72 bytes }"
    );
    assert_eq!(
        format!("{:?}", file.iter_arches()),
        "FatArch64Iterator { bytes: 72 bytes, index: 0, narches: 1 }"
    );
}

#[test]
fn names_of_numbers() {
    use goblin_mach::names::{Arch, SourceVersionText, UuidText, VersionText};
    use goblin_mach::names::{code_flags, executable_flags};
    use goblin_mach::names::{cpu_name, platform_name, rights_name, tool_name};
    let arch = Arch::named("arm64e").unwrap();
    assert_eq!((arch.cputype, arch.cpusubtype), (0x100_000c, 2));
    assert_eq!(cpu_name(arch.cputype, arch.cpusubtype), Some("arm64e"));
    assert_eq!((Arch::named("vax").is_none(), cpu_name(1, 0)), (true, None));
    assert_eq!(
        (platform_name(11), platform_name(99)),
        (Some("visionos"), None)
    );
    assert_eq!((tool_name(1024), tool_name(5)), (Some("metal"), None));
    assert_eq!((rights_name(5), rights_name(0)), ("r-x", "---"));
    let (code, executable) = (code_flags()[9], executable_flags()[6]);
    assert_eq!((code.bit, code.name), (0x20000, "linker-signed"));
    assert_eq!(
        (executable.bit, executable.name),
        (0x200, "can-exec-cdhash")
    );
    assert_eq!(VersionText(0x000a_0f01).to_string(), "10.15.1");
    let source = SourceVersionText(1 << 40 | 2 << 30 | 3 << 20 | 4 << 10 | 5);
    assert_eq!(source.to_string(), "1.2.3.4.5");
    let uuid = [0xab; 16];
    let shown = "ABABABAB-ABAB-ABAB-ABAB-ABABABABABAB";
    assert_eq!(UuidText(&uuid).to_string(), shown);
}
