//! Parts of images: numbers and texts, records, commands, headers, segments, relocations and symbols, as calls of their own.
#[path = "common/kind.rs"]
mod kind;
#[path = "common/samples.rs"]
mod samples;

use goblin_mach::cputype::{
    CPU_TYPE_ARM, CPU_TYPE_ARM64, CPU_TYPE_ARM64_32, CPU_TYPE_POWERPC, CPU_TYPE_X86,
    CPU_TYPE_X86_64, CpuType,
};
use goblin_mach::fat::{FatArch, FatHeader};
use goblin_mach::header::{Header, Header32, Header64, MH_DSYM, MH_MAGIC_64};
use goblin_mach::load_command::{
    CommandVariant, DataInCodeEntry, DyldInfoCommand, DysymtabCommand, LC_RPATH, LC_SEGMENT,
    LoadCommand, LoadCommandHeader, Platform, SIZEOF_DYSYMTAB_COMMAND, Section32, SegmentCommand32,
    SegmentCommand64, SymtabCommand, UuidCommand, VersionMinCommand, cmd_to_str,
};
use goblin_mach::relocation::{Relocation, RelocationInfo, SIZEOF_RELOCATION_INFO, reloc_to_str};
use goblin_mach::segment::{RelocationIterator, Section, Segment, Segments};
use goblin_mach::symbols::{N_SECT, SymbolIterator, Symbols, SymbolsCtx};
use goblin_mach::{
    BE, Container, Ctx, Endian, Error, LE, Record, ScrollError, Sleb128, TryFromCtx, TryIntoCtx,
    Uleb128, describe, pread_with, pwrite_with, read_text,
};
use kind::fault;
use samples::{FILE_B, changed};

// Numbers and texts.

#[test]
fn uleb128_vectors() {
    let rows: [(&str, &[u8], u64, usize); 7] = [
        ("uleb_of_three_bytes", &[0xe5, 0x8e, 0x26], 624_485, 3),
        ("one byte", &[0x7f, 0x80], 127, 1),
        ("two bytes", &[0x80, 0x01], 128, 2),
        ("four bytes", &[0xff, 0xff, 0xff, 0x7f], 268_435_455, 4),
        (
            "five bytes",
            &[0x80, 0x80, 0x80, 0x80, 0x01, 0x00],
            268_435_456,
            5,
        ),
        (
            "uleb_of_zero_in_ten_bytes",
            &[0x80, 0x80, 0x80, 0x80, 0x80, 0x80, 0x80, 0x80, 0x80, 0x00],
            0,
            10,
        ),
        (
            "uleb_largest",
            &[0xff, 0xff, 0xff, 0xff, 0xff, 0xff, 0xff, 0xff, 0xff, 0x01],
            u64::MAX,
            10,
        ),
    ];
    for (row, bytes, want, after) in rows {
        let mut offset = 0;
        assert_eq!(Uleb128::read(bytes, &mut offset).unwrap(), want, "{row}");
        assert_eq!(offset, after, "{row}");
        let spelled = Uleb128::parse(bytes, 0).unwrap();
        assert_eq!((u64::from(spelled), spelled.size()), (want, after), "{row}");
    }
}

#[test]
fn sleb128_vectors() {
    let rows: [(&str, &[u8], i64, usize); 7] = [
        ("sleb_of_three_bytes", &[0x9b, 0xf1, 0x59], -624_485, 3),
        ("three bytes", &[0xc0, 0xbb, 0x78], -123_456, 3),
        ("the largest of one byte", &[0x3f], 63, 1),
        ("the smallest of one byte", &[0x40], -64, 1),
        ("two bytes", &[0xff, 0x00], 127, 2),
        (
            "sleb_smallest",
            &[0x80, 0x80, 0x80, 0x80, 0x80, 0x80, 0x80, 0x80, 0x80, 0x7f],
            i64::MIN,
            10,
        ),
        (
            "sleb_largest",
            &[0xff, 0xff, 0xff, 0xff, 0xff, 0xff, 0xff, 0xff, 0xff, 0x00],
            i64::MAX,
            10,
        ),
    ];
    for (row, bytes, want, after) in rows {
        let mut offset = 0;
        assert_eq!(Sleb128::read(bytes, &mut offset).unwrap(), want, "{row}");
        assert_eq!(offset, after, "{row}");
        let spelled = Sleb128::parse(bytes, 0).unwrap();
        assert_eq!((i64::from(spelled), spelled.size()), (want, after), "{row}");
    }
}

#[test]
fn leb128_refusals() {
    let rows: [(&str, &[u8], &str); 4] = [
        ("no bytes", &[], "bad offset 0"),
        ("uleb_unfinished", &[0x80], "bad input 1"),
        (
            "uleb_past_64_bits",
            &[0xff, 0xff, 0xff, 0xff, 0xff, 0xff, 0xff, 0xff, 0xff, 0x02],
            "bad input 10",
        ),
        (
            "a byte after ten",
            &[
                0xff, 0xff, 0xff, 0xff, 0xff, 0xff, 0xff, 0xff, 0xff, 0x02, 0x00,
            ],
            "bad input 11",
        ),
    ];
    for (row, bytes, want) in rows {
        let mut offset = 0;
        assert_eq!(fault(Uleb128::read(bytes, &mut offset)), want, "{row}");
        assert_eq!(fault(Sleb128::read(bytes, &mut offset)), want, "{row}");
        assert_eq!(offset, 0, "{row}");
    }
}

#[test]
fn texts() {
    assert_eq!(read_text(b"ab\0c", 1).unwrap(), "b");
    assert_eq!(read_text(&[0xc3, 0xa9, 0], 0).unwrap(), "é");
}

#[test]
fn text_without_a_zero() {
    assert_eq!(read_text(b"ab", 0).unwrap(), "ab");
}

#[test]
fn text_at_the_end() {
    assert_eq!(fault(read_text(b"ab", 2)), "bad offset 2");
}

#[test]
fn text_not_utf8() {
    assert_eq!(fault(read_text(&[0xff, 0], 0)), "bad input 2");
}

#[test]
fn contexts() {
    let ctx = Ctx::default();
    assert_eq!(ctx, Ctx::new(Container::Big, Endian::from(true)));
    assert!(ctx.is_big() && ctx.container.is_big() && ctx.le.is_little());
    assert_eq!(ctx.size(), 8);
    assert_eq!(Ctx::new(Container::Little, BE).size(), 4);
}

#[test]
fn errors_in_words() {
    let no_utf8 = ScrollError::BadInput {
        size: 5,
        msg: "a text is not UTF-8",
    };
    for (error, want) in [
        (
            Error::Malformed("a load command passes the end"),
            "malformed: a load command passes the end",
        ),
        (Error::BadMagic(0x7f45_4c46), "bad magic 0x7f454c46"),
        (
            ScrollError::BadOffset(65_535).into(),
            "offset 65535 is past the end",
        ),
        (
            ScrollError::TooBig { size: 24, len: 8 }.into(),
            "24 bytes are needed and 8 are left",
        ),
        (no_utf8.into(), "a text is not UTF-8, 5 bytes left"),
        (
            Error::BufferTooShort(70, "fat entries"),
            "70 fat entries do not fit the file",
        ),
        (goblin_mach::AllocError.into(), "out of memory"),
    ] {
        assert_eq!(describe(&error).to_string(), want);
        assert_eq!(error.to_string(), want);
        assert_eq!(format!("{error:?}"), want);
        if let Error::Scroll(inner) = &error {
            assert_eq!(
                (inner.to_string(), format!("{inner:?}")),
                (want.into(), want.into())
            );
        }
    }
}

// Records.

/// Returns the record at the start of some bytes, which is written back as they are.
fn read_and_write<R: Record>(bytes: &[u8], le: Endian) -> R {
    let record = R::read(bytes, 0, le).unwrap();
    let mut written = [0xff; 80];
    assert_eq!(record.write(&mut written, 0, le).unwrap(), R::SIZE);
    assert_eq!(&written[..R::SIZE], bytes);
    record
}

#[test]
fn records_in_both_orders() {
    for (bytes, le) in [
        ([0x10, 0, 0, 0, 0x34, 0x12, 1, 0], LE),
        ([0, 0, 0, 0x10, 0x12, 0x34, 0, 1], BE),
    ] {
        let entry: DataInCodeEntry = read_and_write(&bytes, le);
        assert_eq!((entry.offset, entry.length, entry.kind), (0x10, 0x1234, 1));
    }
    for (header, le) in [
        ([0x1b, 0, 0, 0, 0x18, 0, 0, 0], LE),
        ([0, 0, 0, 0x1b, 0, 0, 0, 0x18], BE),
    ] {
        let bytes = [&header[..], b"0123456789abcdef"].concat();
        let command: UuidCommand = read_and_write(&bytes, le);
        assert_eq!((command.cmd, command.cmdsize), (0x1b, 24));
        assert_eq!(command.uuid, *b"0123456789abcdef");
    }
}

#[test]
fn name_of_a_segment() {
    let mut bytes = [0; 56];
    bytes[8..14].copy_from_slice(b"__TEXT");
    let segment: SegmentCommand32 = read_and_write(&bytes, LE);
    assert_eq!(segment.name().unwrap(), "__TEXT");
}

#[test]
fn platforms() {
    for cmd in [0x24, 0x25, 0x2f, 0x30] {
        let command = VersionMinCommand::new(Platform::try_from(cmd).unwrap());
        assert_eq!((command.cmd, command.cmdsize), (cmd, 16));
        assert_eq!(command.version, 0);
        assert_eq!(command.platform() as u32, cmd);
    }
}

#[test]
fn platform_of_another_command() {
    assert_eq!(fault(Platform::try_from(0x32)), "malformed");
}

#[test]
fn new_commands() {
    let symtab = SymtabCommand::default();
    assert_eq!((symtab.cmd, symtab.cmdsize, symtab.strsize), (2, 24, 0));
    let dysymtab = DysymtabCommand::default();
    assert_eq!(dysymtab.cmd, 0xb);
    assert_eq!(dysymtab.cmdsize as usize, SIZEOF_DYSYMTAB_COMMAND);
    assert_eq!(DyldInfoCommand::default().export_size, 0);
}

#[test]
fn names_of_commands() {
    let header = LoadCommandHeader {
        cmd: 0x1b,
        cmdsize: 24,
    };
    assert_eq!(header.to_string(), "LoadCommandHeader: LC_UUID size: 24");
    assert_eq!(cmd_to_str(LC_RPATH), "LC_RPATH");
    assert_eq!(cmd_to_str(0x1c), "LC_UNKNOWN");
}

// Commands.

#[test]
fn a_command_cut_short() {
    for (bytes, want) in [
        ([0x1b, 0, 0, 0, 8, 0, 0, 0], "too big 24 of 8"),
        ([0x1b, 0, 0, 0, 9, 0, 0, 0], "malformed"),
    ] {
        let mut offset = 0;
        assert_eq!(fault(LoadCommand::parse(&bytes, &mut offset, LE)), want);
        assert_eq!(offset, 0);
    }
}

#[test]
fn a_command_at_the_start() {
    let bytes = [0x99, 0, 0, 0, 12, 0, 0, 0, 0, 0, 0, 0];
    let (command, width) = CommandVariant::try_from_ctx(&bytes, LE).unwrap();
    assert_eq!((command.cmd(), command.cmdsize(), width), (0x99, 12, 12));
}

// A thread that begins at no entry has an instruction pointer, too.
#[test]
fn pointer_of_a_thread() {
    let mut bytes = [0; 184];
    bytes[..16].copy_from_slice(&[4, 0, 0, 0, 184, 0, 0, 0, 4, 0, 0, 0, 42, 0, 0, 0]);
    bytes[144..149].copy_from_slice(&[0x50, 0x0f, 0, 0, 1]);
    let mut offset = 0;
    let found = LoadCommand::parse(&bytes, &mut offset, LE).unwrap();
    let CommandVariant::Thread(thread) = found.command else {
        panic!("a thread");
    };
    assert_eq!(offset, 184);
    let pointer = thread.instruction_pointer(CPU_TYPE_X86_64);
    assert_eq!(pointer.unwrap(), 0x1_0000_0f50);
    assert_eq!(thread.instruction_pointer(CPU_TYPE_ARM64).unwrap(), 0);
    assert_eq!(fault(thread.instruction_pointer(0)), "malformed");
}

// Headers.

#[test]
fn header_of_armv7() {
    let words: [u32; 7] = [0xfeed_face, 12, 9, 10, 6, 3468, 0];
    let mut bytes = words.map(u32::to_le_bytes).concat();
    let narrow = Ctx::new(Container::Little, LE);
    assert_eq!(
        fault(pread_with::<Header, Ctx>(&bytes, 0, narrow)),
        "malformed"
    );
    // The beginning of the next command.
    bytes.extend([0x1b, 0, 0, 0, 0x18, 0, 0, 0, 0xe0, 0xf7, 0x42, 0xbb]);
    bytes.extend([0x1c, 0xf5, 0x30, 0x77, 0xa6, 0xf7, 0x75, 0xa3, 0xba, 0x28]);
    for len in [32, 50] {
        let header: Header = pread_with(&bytes[..len], 0, narrow).unwrap();
        assert_eq!((header.cputype(), header.cpusubtype()), (12, 9));
        assert_eq!(header.filetype, MH_DSYM);
        assert_eq!((header.ncmds, header.sizeofcmds), (6, 3468));
    }
}

#[test]
fn new_header_written() {
    let header = Header::new(Ctx::default());
    let mut bytes = [1; 32];
    assert_eq!(header.try_into_ctx(&mut bytes, Ctx::default()).unwrap(), 32);
    assert_eq!(bytes, samples::BARE);
}

#[test]
fn new_header_in_31_bytes() {
    let header = Header::new(Ctx::default());
    let mut short = [1; 31];
    let answer = header.try_into_ctx(&mut short, Ctx::default());
    assert_eq!(fault(answer), "too big 32 of 31");
    assert_eq!(short, [1; 31]);
}

#[test]
fn forms_of_a_header() {
    let mut header = Header::new(Ctx::default());
    header.ncmds = 0x1_0000_0002;
    header.cpusubtype = 0x8000_0003;
    header.reserved = 7;
    assert_eq!(Header32::from(header).ncmds, 2);
    assert_eq!(Header64::from(header).reserved, 7);
    assert_eq!(Header::from(Header32::from(header)).reserved, 0);
    assert_eq!((header.cpusubtype(), header.cpu_caps()), (3, 0x80));
    assert_eq!(Header64::from_bytes(&samples::BARE).magic, MH_MAGIC_64);
}

#[test]
fn fat_records() {
    let record = [
        1, 0, 0, 7, 0x80, 0, 0, 3, 0, 0, 0, 28, 0, 0, 0, 4, 0, 0, 0, 2,
    ];
    let header = [0xca, 0xfe, 0xba, 0xbe, 0, 0, 0, 2];
    let bytes = [&header[..], &record, &[1, 2, 3, 4]].concat();
    assert_eq!(FatHeader::parse(&bytes).unwrap().nfat_arch, 2);
    assert_eq!(FatHeader::from_bytes(header).magic, 0xcafe_babe);
    let arch = FatArch::parse(&bytes, 8).unwrap();
    assert!(arch.is_64());
    assert_eq!((arch.cputype(), arch.cpusubtype()), (0x0100_0007, 3));
    assert_eq!(arch.cpu_caps(), 0x80);
    assert_eq!(arch.slice(&bytes), [1, 2, 3, 4]);
    assert_eq!(fault(FatArch::parse(&bytes, 28)), "too big 20 of 4");
}

/// The record of an entry of so many bytes, from 28 on.
fn arch_at_28(size: u32) -> FatArch {
    FatArch {
        cputype: 7,
        cpusubtype: 3,
        offset: 28,
        size,
        align: 0,
    }
}

#[test]
fn slice_at_the_end() {
    let bytes: Vec<u8> = (0..32).collect();
    assert_eq!(arch_at_28(4).slice(&bytes), [28, 29, 30, 31]);
}

#[test]
fn slice_past_the_end() {
    assert!(arch_at_28(5).slice(&[1; 32]).is_empty());
}

// Segments and sections.

/// The one segment of file B.
fn segment_of_file_b() -> Segment<'static> {
    let command = SegmentCommand64::read(FILE_B, 32, LE).unwrap();
    Segment::from_64(FILE_B, &command, 32, Ctx::default()).unwrap()
}

#[test]
fn data_of_file_b() {
    let segment = segment_of_file_b();
    assert_eq!(segment.name().unwrap(), "__TEXT");
    assert_eq!(segment.data, FILE_B);
    let sections = segment.sections().unwrap();
    let [(section, code)] = sections.as_slice() else {
        panic!("one section");
    };
    assert_eq!(*code, &FILE_B[312..320]);
    assert_eq!(section.name().unwrap(), "__text");
    assert_eq!(section.segname().unwrap(), "__TEXT");
}

/// What Debug shows of it.
const SHOWN: &str = "Segment { cmd: 0x19, cmdsize: 0x98, segname: \"__TEXT\", \
     vmaddr: 0x100000000, vmsize: 0x1000, fileoff: 0x0, filesize: 0x178, maxprot: 0x0, initprot: 0x0, \
     nsects: 0x1, flags: 0x0, data: 376 bytes, file: 376 bytes, offset: 0x20, \
     ctx: Ctx { container: Big, le: Little } }";

#[test]
fn segment_shown() {
    let segment = segment_of_file_b();
    assert_eq!(format!("{segment:?}"), SHOWN);
    let mut segments = Segments::new(Ctx::default());
    segments.push(segment).unwrap();
    assert_eq!(
        format!("{segments:?}"),
        format!("Segments {{ segments: [{SHOWN}] }}")
    );
}

// The second section is read from the commands after the first: its address is at a command with the number 0x80000022
// and 0x30 bytes.
#[test]
fn sections_left() {
    let mut segment = segment_of_file_b();
    segment.nsects = 2;
    let mut sections = (&segment).into_iter();
    assert_eq!(sections.len(), 2);
    assert!(sections.next().unwrap().is_ok());
    assert_eq!(sections.len(), 1);
    let mut copy = sections.clone();
    assert_eq!(copy.size_hint(), (1, Some(1)));
    for items in [&mut sections, &mut copy] {
        let (section, _) = items.next().unwrap().unwrap();
        assert_eq!(section.addr, 0x30_8000_0022);
        assert!(items.next().is_none());
    }
}

#[test]
fn unreadable_sections() {
    let mut segment = segment_of_file_b();
    segment.nsects = u32::MAX;
    assert_eq!((&segment).into_iter().len(), 4_294_967_295);
    assert_eq!(fault(segment.sections()), "too big 80 of 32");
}

/// A section whose address has 33 bits.
fn high_section() -> Section {
    Section {
        addr: 0x1_0000_0001,
        ..Section::default()
    }
}

#[test]
fn low_bits_of_an_address() {
    assert_eq!(Section32::from(high_section()).addr, 1);
    let mut bytes = [0; 84];
    let narrow = Ctx::new(Container::Little, LE);
    let width = pwrite_with(&mut bytes, high_section(), 4, narrow);
    assert_eq!(width.unwrap(), 68);
    let again: Section = pread_with(&bytes, 4, narrow).unwrap();
    assert_eq!(again.addr, 1);
}

#[test]
fn data_out_of_bounds() {
    let mut command = SegmentCommand64::read(FILE_B, 32, LE).unwrap();
    command.fileoff = 0xffff;
    command.filesize = 1;
    let strict = Segment::from_64(FILE_B, &command, 32, Ctx::default());
    assert_eq!(fault(strict), "bad offset 65535");
    let lossy = Segment::from_64_lossy(FILE_B, &command, 32, Ctx::default()).unwrap();
    assert_eq!((lossy.data.len(), lossy.fileoff), (0, 0xffff));
    command.filesize = 0;
    let empty = Segment::from_64(FILE_B, &command, 32, Ctx::default()).unwrap();
    assert!(empty.data.is_empty());
}

#[test]
fn new_segment_of_32_bits() {
    let narrow = Ctx::new(Container::Little, LE);
    let segment = Segment::new(narrow, &FILE_B[..68]);
    assert_eq!((segment.cmd, segment.cmdsize), (LC_SEGMENT, 124));
    assert_eq!(segment.data.len(), 68);
    assert_eq!((&segment).into_iter().len(), 0);
    let mut bytes = [0xff; 60];
    assert_eq!(segment.try_into_ctx(&mut bytes, narrow).unwrap(), 56);
    assert_eq!(&bytes[56..], [0xff; 4]);
    let (command, width) = SegmentCommand32::try_from_ctx(&bytes, LE).unwrap();
    assert_eq!((command.cmd, command.cmdsize), (LC_SEGMENT, 124));
    assert_eq!(width, 56);
    let lossy = Segment::from_32_lossy(FILE_B, &command, 0, narrow).unwrap();
    assert_eq!((lossy.cmdsize, lossy.data.len()), (124, 0));
    let strict = Segment::from_32(FILE_B, &command, 0, narrow).unwrap();
    assert_eq!(strict.cmdsize, 124);
}

#[test]
fn segments_in_order() {
    let mut segments = Segments::new(Ctx::default());
    assert!(segments.as_slice().is_empty());
    segments.push(Segment::new(Ctx::default(), &[])).unwrap();
    segments.push(segment_of_file_b()).unwrap();
    segments.get_mut(0).unwrap().vmsize = 7;
    assert!(segments.get_mut(2).is_none());
    let sizes: Vec<_> = segments.iter().map(|it| it.vmsize).collect();
    assert_eq!(sizes, [7, 0x1000]);
    for segment in &segments {
        assert_eq!(segment.filesize, segment.data.len() as u64);
    }
    let counts: Vec<_> = segments.sections().map(|it| it.len()).collect();
    assert_eq!(counts, [0, 1]);
}

// Relocations.

#[test]
fn relocation_bits() {
    let branch = RelocationInfo {
        r_address: 0,
        r_info: 0x2d00_0001,
    };
    assert_eq!((branch.r_symbolnum(), branch.r_pcrel()), (1, 1));
    assert_eq!((branch.r_length(), branch.r_extern()), (2, 1));
    assert_eq!(branch.r_type(), 2);
    assert!(branch.is_extern() && branch.is_pic());
    assert_eq!(branch.to_str(CPU_TYPE_X86_64), "X86_64_RELOC_BRANCH");
    assert_eq!(reloc_to_str(10, CPU_TYPE_X86_64), "UNKNOWN");
    assert_eq!(reloc_to_str(0, CPU_TYPE_POWERPC), "BAD_CPUTYPE");
}

#[test]
fn bytes_of_a_relocation() {
    for (bytes, le, address) in [
        ([4, 0, 0, 0, 1, 0, 0, 0x2d], LE, 4),
        ([0xfe, 0xff, 0xff, 0xff, 1, 0, 0, 0x2d], LE, -2),
        ([0x80, 0, 0, 0, 0x2d, 0, 0, 1], BE, i32::MIN),
    ] {
        assert_eq!(bytes.len(), SIZEOF_RELOCATION_INFO);
        let found: RelocationInfo = read_and_write(&bytes, le);
        assert_eq!((found.r_address, found.r_info), (address, 0x2d00_0001));
    }
}

/// Reads a relocation of these words by the rules of a cpu.
fn form(cputype: CpuType, le: Endian, words: (u32, u32)) -> Relocation {
    let relocation = RelocationInfo {
        r_address: words.0 as i32,
        r_info: words.1,
    };
    relocation.read_as(cputype, le)
}

#[test]
fn scattered_relocations() {
    let scattered = |address, value, is_pcrel, length, kind| Relocation::Scattered {
        address,
        value,
        is_pcrel,
        length,
        kind,
    };
    for (cputype, le, words, want) in [
        (
            CPU_TYPE_X86,
            LE,
            (0xa200_0102, 0x504c),
            scattered(0x102, 0x504c, false, 2, 2),
        ),
        (
            CPU_TYPE_ARM,
            LE,
            (0xf900_0010, 1),
            scattered(0x10, 1, true, 3, 9),
        ),
        (
            CPU_TYPE_POWERPC,
            BE,
            (0x80ff_ffff, 0xffff_ffff),
            scattered(0x00ff_ffff, 0xffff_ffff, false, 0, 0),
        ),
    ] {
        assert_eq!(form(cputype, le, words), want);
    }
}

#[test]
fn plain_relocations() {
    for (cputype, le, words, is_pcrel, is_extern) in [
        (CPU_TYPE_X86_64, LE, (0x8000_0010, 0x2d00_0001), true, true),
        (CPU_TYPE_ARM64, LE, (0x8000_0010, 0x2c00_0001), false, true),
        (
            CPU_TYPE_ARM64_32,
            LE,
            (0xffff_ffff, 0x2500_0001),
            true,
            false,
        ),
        (CPU_TYPE_X86, LE, (0x7fff_ffff, 0x2400_0001), false, false),
        (CPU_TYPE_POWERPC, BE, (0x10, 0x1d2), true, true),
        (CPU_TYPE_POWERPC, BE, (0x10, 0x142), false, false),
    ] {
        let want = Relocation::Plain {
            address: words.0,
            symbol: 1,
            is_pcrel,
            length: 2,
            is_extern,
            kind: 2,
        };
        assert_eq!(form(cputype, le, words), want);
    }
}

#[test]
fn relocations_past_the_end() {
    let section = Section {
        nreloc: 2,
        reloff: 368,
        ..Section::default()
    };
    let mut relocations = section.iter_relocations(FILE_B, Ctx::default());
    assert!(relocations.next().unwrap().is_ok());
    assert_eq!(relocations.size_hint(), (1, Some(1)));
    let again = relocations.clone();
    assert_eq!(fault(relocations.next().unwrap()), "bad offset 376");
    assert!(relocations.next().is_none());
    assert!(relocations.next().is_none());
    assert_eq!((relocations.len(), again.len()), (0, 1));
}

#[test]
fn a_copy_of_relocations_goes_on() {
    let three: Vec<u8> = (1..=3)
        .flat_map(|place| [place, 0, 0, 0, 1, 0, 0, 0x2d])
        .collect();
    let section = Section {
        nreloc: 3,
        ..Section::default()
    };
    let addresses =
        |items: RelocationIterator| items.map(|it| it.unwrap().r_address).collect::<Vec<_>>();
    let mut items = section.iter_relocations(&three, Ctx::default());
    assert_eq!(items.next().unwrap().unwrap().r_address, 1);
    let copy = items.clone();
    assert_eq!(copy.len(), 2);
    assert_eq!(addresses(items), [2, 3]);
    assert_eq!(addresses(copy), [2, 3]);
}

// Symbols.

/// The command of file B's symbols, with another number of them.
fn symtab(nsyms: u32) -> SymtabCommand {
    let mut command = SymtabCommand::new();
    command.symoff = 352;
    command.nsyms = nsyms;
    command.stroff = 368;
    command.strsize = 8;
    command
}

/// The symbols of file B, with another number of them.
fn symbols_of_file_b(nsyms: u32) -> Symbols<'static> {
    Symbols::parse(FILE_B, &symtab(nsyms), Ctx::default()).unwrap()
}

#[test]
fn symbol_of_file_b() {
    let symbols = symbols_of_file_b(1);
    let (name, symbol) = symbols.get(0).unwrap();
    assert_eq!((name, symbol.n_value), ("_main", 0x1_0000_0160));
    assert_eq!((symbol.get_type(), symbol.type_str()), (N_SECT, "N_SECT"));
    assert!(symbol.is_global());
    assert!(!symbol.is_weak() && !symbol.is_undefined() && !symbol.is_stab());
    let bytes = changed(FILE_B, &[(352, 8)]);
    let symbols = Symbols::parse(&bytes, &symtab(1), Ctx::default()).unwrap();
    assert_eq!(fault(symbols.get(0)), "bad offset 376");
}

#[test]
fn symbols_after_the_last() {
    let symbols = symbols_of_file_b(1);
    assert_eq!(fault(symbols.get(1)), "too big 16 of 8");
    assert_eq!(fault(symbols.get(2)), "bad offset 384");
    assert_eq!(
        fault(symbols.get(usize::MAX)),
        "bad offset 18446744073709551615"
    );
}

#[test]
fn exactly_as_many_as_said() {
    let symbols = symbols_of_file_b(3);
    let mut items = symbols.iter();
    let good: Vec<_> = items.by_ref().map(|it| it.is_ok()).collect();
    assert_eq!(good, [true, false, false]);
    assert!(items.next().is_none());
    assert_eq!((&symbols).into_iter().filter(|it| it.is_ok()).count(), 1);
    assert!(SymbolIterator::default().next().is_none());
}

#[test]
fn how_many_symbols_are_left() {
    let symbols = symbols_of_file_b(3);
    assert_eq!(symbols.iter().count(), 3);
    let mut items = symbols.iter();
    let _ = items.next();
    assert_eq!(items.size_hint(), (2, Some(2)));
    let again = items.clone();
    assert_eq!(items.count(), 2);
    assert_eq!(again.len(), 2);
    assert_eq!(SymbolIterator::default().len(), 0);
}

#[test]
fn a_copy_of_symbols_goes_on() {
    let records = [0, 3, 6].map(|name| [name, 0, 0, 0, 15, 1, 0, 0, 0, 0, 0, 0, 0, 0, 0, 0]);
    let bytes = [&records.concat()[..], b"_a\0_b\0_c\0"].concat();
    let symbols = Symbols::new(&bytes, 0, 3, 48).unwrap();
    let mut items = symbols.iter();
    assert_eq!(items.next().unwrap().unwrap().0, "_a");
    let copy = items.clone();
    assert_eq!(copy.len(), 2);
    for left in [items, copy] {
        let names: Vec<_> = left.map(|it| it.unwrap().0).collect();
        assert_eq!(names, ["_b", "_c"]);
    }
}

#[test]
fn symbols_shown() {
    assert_eq!(
        format!("{:?}", symbols_of_file_b(1)),
        "Symbols { bytes: 376 bytes, start: 352, nsyms: 1, strtab: 368, \
         ctx: Ctx { container: Big, le: Little } }",
    );
}

#[test]
fn tables_of_symbols() {
    let mut names_first = symtab(1);
    names_first.stroff = 351;
    let answer = Symbols::parse(FILE_B, &names_first, Ctx::default());
    assert_eq!(fault(answer), "malformed");
    let answer = Symbols::parse(&FILE_B[..352], &symtab(0), Ctx::default());
    assert_eq!(fault(answer), "bad offset 352");
    let untested = Symbols::new(FILE_B, 352, 1, 368).unwrap();
    assert_eq!(untested.get(0).unwrap().0, "_main");
    let ctx = SymbolsCtx {
        nsyms: 1,
        strtab: 16,
        ctx: Ctx::default(),
    };
    let following: Symbols = pread_with(FILE_B, 352, ctx).unwrap();
    assert_eq!(following.get(0).unwrap().0, "_main");
}
