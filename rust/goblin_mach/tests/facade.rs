//! What is written by hand over the proved calls returns what they return.
mod common;

use goblin_mach::bytes::{BE, LE, NATIVE, Pread, Pwrite, StrCtx};
use goblin_mach::mach::constants::{self, cputype};
use goblin_mach::mach::fat::FatArch;
use goblin_mach::mach::header::Header;
use goblin_mach::mach::load_command::{
    LC_UUID, LC_VERSION_MIN_IPHONEOS, Platform, SymtabCommand, VersionMinCommand,
};
use goblin_mach::mach::segment::Segment;
use goblin_mach::mach::symbols::{Nlist, Nlist64};
use goblin_mach::{Container, Ctx, Endian, Error, Object, ScrollError, debug::Goblin};
use goblin_mach::{IntoCtx, Mach, MachO, MultiArch, Record, SingleArch, describe};

fn check(image: &MachO) {
    let listed = image.exports().map(|all| {
        all.into_iter()
            .map(|export| export.name)
            .collect::<Vec<_>>()
    });
    let walked: Result<Vec<_>, _> = image
        .walk_exports()
        .unwrap()
        .into_iter()
        .map(|item| item.map(|(name, _)| name))
        .collect();
    match (listed, walked) {
        (Ok(listed), Ok(walked)) => assert_eq!(listed, walked),
        (Err(a), Err(b)) => assert_eq!(format!("{a:?}"), format!("{b:?}")),
        _ => panic!("one has a fault"),
    }
    assert_eq!(image.segments.len(), image.segments.iter().count());
    for (a, b) in image.segments[..].iter().zip(&image.segments) {
        assert_eq!((a.data(), a.vmaddr), (b.data, b.vmaddr));
    }
}

#[test]
fn same_as_the_proved_calls() {
    for bytes in common::files() {
        match (Mach::try_from(&bytes[..]), Mach::parse(&bytes)) {
            (Ok(_), Ok(Mach::Binary(image))) => {
                let again = MachO::try_from(&bytes[..]).unwrap();
                assert_eq!(format!("{:?}", again.header), format!("{:?}", image.header));
                check(&image);
            }
            (Ok(_), Ok(Mach::Fat(file))) => {
                assert_eq!(
                    MultiArch::try_from(&bytes[..]).unwrap().narches,
                    file.narches
                );
                assert_eq!(file.machos().len(), file.narches);
                let wide = |arch: Result<FatArch, Error>| arch.is_ok_and(|arch| arch.is_64());
                let found = file.find(|arch| arch.is_ok_and(|arch| arch.is_64()));
                assert_eq!(format!("{found:?}"), format!("{:?}", file.find(wide)));
                for (entry, image) in file.into_iter().zip(file.machos()) {
                    match (entry, image) {
                        (Ok(SingleArch::MachO(one)), Ok(other)) => {
                            assert_eq!(format!("{one:?}"), format!("{other:?}"));
                            check(&one);
                        }
                        (Ok(SingleArch::Archive(_)), Err(Error::Malformed(_))) => {}
                        (Err(a), Err(b)) => assert_eq!(format!("{a:?}"), format!("{b:?}")),
                        _ => panic!("one has a fault"),
                    }
                }
            }
            (Err(a), Err(b)) => assert_eq!(a.to_string(), describe(&b).to_string()),
            _ => panic!("one refuses"),
        }
        match (Object::parse(&bytes), Mach::parse(&bytes)) {
            (Ok(Object::Mach(one)), Ok(other)) => {
                assert_eq!(
                    format!("{:?}", Goblin(&one)),
                    format!("{:?}", Goblin(&other))
                );
            }
            (Err(_), Err(_)) | (Ok(Object::Unknown(_)), Err(_)) => {}
            #[cfg(feature = "archive")]
            (Ok(Object::Archive(_)), Err(_)) => {}
            (one, other) => panic!("{one:?} and {other:?}"),
        }
    }
}

#[test]
fn slices_are_read_and_written() {
    let bytes = *b"\x01\x02\x03\x04\x05\x06\x07\x08text\0\xff";
    let at = &mut 0;
    assert_eq!(bytes.gread_with::<u8>(at, LE).unwrap(), 1);
    assert_eq!(bytes.gread_with::<u16>(at, LE).unwrap(), 0x0302);
    assert_eq!(bytes.gread_with::<i16>(at, BE).unwrap(), 0x0405);
    assert_eq!(*at, 5);
    assert_eq!(
        bytes.pread::<u64>(0).unwrap(),
        bytes.pread_with(0, NATIVE).unwrap()
    );
    assert_eq!(bytes.gread::<i8>(at).unwrap(), 6);
    assert_eq!(bytes.pread_with::<u32>(4, BE).unwrap(), 0x0506_0708);
    assert_eq!(
        bytes.pread_with::<i64>(0, BE).unwrap(),
        0x0102_0304_0506_0708
    );
    *at = 8;
    assert_eq!(bytes.gread::<&str>(at).unwrap(), "text");
    assert_eq!(*at, 13);
    let some: &str = bytes.pread_with(8, StrCtx::Length(2)).unwrap();
    let until: &str = bytes
        .pread_with(8, StrCtx::DelimiterUntil(b'x', 3))
        .unwrap();
    assert_eq!((some, until), ("te", "te"));
    assert!(matches!(
        bytes.pread::<&str>(13),
        Err(Error::Scroll(ScrollError::BadInput { .. }))
    ));
    assert_eq!(bytes.pread_with::<&[u8]>(8, 5usize).unwrap(), b"text\0");
    assert!(matches!(
        bytes.pread_with::<u64>(7, LE),
        Err(Error::Scroll(ScrollError::TooBig { size: 8, len: 7 }))
    ));
    assert!(matches!(
        bytes.pread_with::<u32>(usize::MAX, LE),
        Err(Error::Scroll(ScrollError::BadOffset(_)))
    ));

    let mut room = [0; 40];
    let at = &mut 0;
    let command = SymtabCommand {
        nsyms: 3,
        ..SymtabCommand::default()
    };
    assert_eq!(room.gwrite_with(0x0102u16, at, BE).unwrap(), 2);
    assert_eq!(room.gwrite_with(command, at, LE).unwrap(), 24);
    assert_eq!(*at, 26);
    assert_eq!(room[..2], [1, 2]);
    assert_eq!(room.pread_with::<SymtabCommand>(2, LE).unwrap().nsyms, 3);
    assert!(room.pwrite_with(command, 30, LE).is_err());
    let ctx = Ctx::new(Container::Big, LE);
    let header = Header::new(ctx);
    assert_eq!(room.pwrite_with(header, 0, ctx).unwrap(), 32);
    assert_eq!(
        room.pread_with::<Header>(0, ctx).unwrap().magic,
        header.magic
    );
}

#[test]
fn contexts_have_defaults() {
    assert_eq!(Endian::default(), NATIVE);
    assert_eq!(Container::default(), goblin_mach::container::CONTAINER);
    assert_eq!(Ctx::from(BE), Ctx::new(Container::Big, BE));
    assert_eq!(Ctx::from(Container::Little).size(), 4);
    assert!(Ctx::from(LE).is_little_endian() && !Ctx::from(BE).is_little_endian());
}

#[test]
fn constants_have_apples_numbers() {
    assert_eq!(constants::S_SYMBOL_STUBS & constants::SECTION_TYPE, 8);
    assert_eq!(
        constants::SECTION_ATTRIBUTES_USR | constants::SECTION_ATTRIBUTES_SYS,
        constants::SECTION_ATTRIBUTES
    );
    let arm = (cputype::CPU_TYPE_ARM64, cputype::CPU_SUBTYPE_ARM64_E);
    assert_eq!(cputype::get_arch_from_flag("arm64e"), Some(arm));
    assert_eq!(
        cputype::get_arch_name_from_types(arm.0, arm.1),
        Some("arm64e")
    );
    assert_eq!(
        cputype::get_arch_from_flag("x86"),
        cputype::get_arch_from_flag("i386")
    );
    assert_eq!(cputype::get_arch_from_flag("z80"), None);
}

#[test]
fn errors_are_those_of_std() {
    let error: Box<dyn std::error::Error> = Box::new(Mach::parse(b"").unwrap_err());
    assert_eq!(error.to_string(), "malformed: the file ends in its magic");
    let error: Box<dyn std::error::Error> = Box::new(MachO::parse(&[0xcf, 0xfa], 0).unwrap_err());
    let below = error.source().unwrap();
    assert_eq!(below.to_string(), error.to_string());
}

#[cfg(feature = "std")]
#[test]
fn errors_become_those_of_io() {
    let error = std::io::Error::from(Mach::parse(b"").unwrap_err());
    assert_eq!(error.kind(), std::io::ErrorKind::InvalidData);
}

#[cfg(feature = "std")]
#[test]
fn a_header_is_read_from_a_file() {
    use goblin_mach::mach::fat::{FAT_MAGIC, FatHeader};
    let path = concat!(env!("CARGO_MANIFEST_DIR"), "/tests/data/c.macho");
    let header = FatHeader::from_fd(&mut std::fs::File::open(path).unwrap()).unwrap();
    assert_eq!(header.magic, FAT_MAGIC);
}

/// What has no answer in goblin has one here.
#[test]
fn calls_without_conditions() {
    let command = |cmd| VersionMinCommand {
        cmd,
        ..VersionMinCommand::new(Platform::Tvos)
    };
    for cmd in [0, LC_UUID, 0x99, u32::MAX] {
        assert!(matches!(command(cmd).platform(), Platform::Macos));
        assert!(Platform::try_from(cmd).is_err());
    }
    assert!(matches!(
        command(LC_VERSION_MIN_IPHONEOS).platform(),
        Platform::Iphoneos
    ));
    let wide = Nlist64::read(&[7; 16], 0, LE).unwrap();
    let mut bytes = [7; 64];
    for ctx in [
        Ctx::new(Container::Little, LE),
        Ctx::new(Container::Big, BE),
    ] {
        for len in 0..12 {
            Header::new(ctx).into_ctx(&mut bytes[..len], ctx);
            Nlist::from(wide).into_ctx(&mut bytes[..len], ctx);
            Segment::new(ctx, &[]).into_ctx(&mut bytes[..len], ctx);
            IntoCtx::<Endian>::into_ctx(wide, &mut bytes[..len], LE);
            assert_eq!(bytes, [7; 64]);
        }
    }
}

/// A signature gives its fields, and no user can change them.
#[cfg(feature = "signature")]
#[test]
fn blobs_of_a_signature() {
    let words = [0xfade_0cc0, 28, 1, 5, 20, 0xfade_7171, 8u32];
    let bytes: Vec<u8> = words.into_iter().flat_map(u32::to_be_bytes).collect();
    let signature = goblin_mach::signature::CodeSignature::parse(&bytes).unwrap();
    assert_eq!((signature.count(), signature.bytes()), (1, &bytes[..]));
    let slots: Vec<u32> = signature.blobs().map(|blob| blob.unwrap().slot).collect();
    assert_eq!(slots, [5]);
    assert!(signature.blobs().nth(1000).is_none());
}

#[test]
fn data_of_sections() {
    let mut sizes = 0;
    for bytes in common::files() {
        let Ok(image) = MachO::parse(&bytes, 0) else {
            continue;
        };
        let listed = image
            .segments
            .iter()
            .flat_map(|segment| segment.sections().unwrap());
        for (numbered, (section, data)) in image.sections().zip(listed) {
            let numbered = numbered.unwrap();
            assert_eq!(numbered.name().unwrap(), section.name().unwrap());
            assert_eq!(numbered.segname().unwrap(), section.segname().unwrap());
            let found = image.section_data(&numbered);
            assert!(
                found.as_ref().is_ok_and(
                    |found| found.as_ptr_range() == data.as_ptr_range() || data.is_empty()
                )
            );
            sizes += found.unwrap().len();
        }
        assert_eq!(
            image.sections().count(),
            image.segments.iter().map(|one| one.nsects as usize).sum()
        );
    }
    assert!(sizes > 100);
}

#[test]
fn data_of_sections_by_their_flags() {
    let bytes = [7; 40];
    let file = std::fs::read("tests/data/b.macho").unwrap();
    let image = MachO::parse(&file, 0).unwrap();
    let mut found = image.sections().next().unwrap().unwrap();
    found.section.flags = 0;
    (found.section.offset, found.section.size) = (8, 32);
    assert_eq!(
        found.data_in(&bytes).unwrap().as_ptr_range(),
        bytes[8..].as_ptr_range()
    );
    assert!(matches!(found.data_in(&bytes[..39]), Err(Error::Scroll(_))));
    for zeros in [0x1, 0xc, 0x12] {
        found.section.flags = 0x8000_0000 | zeros;
        assert_eq!(found.data_in(&bytes[..39]).unwrap(), b"");
    }
    found.section.sectname = [0xff; 16];
    assert!(found.name().is_err());
}

#[cfg(feature = "archive")]
#[test]
fn images_of_any_file() {
    use goblin_mach::Input;
    let image = std::fs::read("tests/data/b.macho").unwrap();
    let outcomes = |bytes: &[u8]| -> Vec<Result<u32, String>> {
        let opened = Input::parse(bytes).unwrap().machos();
        opened
            .map(|one| {
                one.map(|one| one.header.cputype)
                    .map_err(|error| error.to_string())
            })
            .collect()
    };
    assert_eq!(outcomes(&image), [Ok(0x0100_0007)]);
    let fat = std::fs::read("tests/data/c.macho").unwrap();
    let listed = Input::parse(&fat).unwrap();
    let opened = listed
        .images()
        .map(|item| item.content.and_then(|content| content.open()));
    let wanted: Vec<_> = opened
        .map(|one| {
            one.map(|one| one.header.cputype)
                .map_err(|error| error.to_string())
        })
        .collect();
    assert_eq!(outcomes(&fat), wanted);
    assert!(wanted.iter().any(Result::is_ok) && wanted.iter().any(Result::is_err));
    let member = |name: &str, bytes: &[u8]| {
        [
            format!("{name:<16}{:<32}{:<10}`\n", "0", bytes.len()).as_bytes(),
            bytes,
        ]
        .concat()
    };
    let archive = [
        b"!<arch>\n".to_vec(),
        member("a.o", &image),
        member("text", b"words "),
    ]
    .concat();
    let found = outcomes(&archive);
    assert_eq!((&found[0], found.len()), (&Ok(0x0100_0007), 2));
    assert!(
        found[1]
            .as_ref()
            .is_err_and(|error| error.contains("magic"))
    );
    assert!(outcomes(b"!<arch>\n").is_empty());
}

#[cfg(feature = "signature")]
#[test]
fn signatures_of_images() {
    let mut signed = 0;
    for bytes in common::files() {
        let Ok(image) = MachO::parse(&bytes, 0) else {
            continue;
        };
        let proved = goblin_mach::signature::image::code_signature(&image);
        let (found, wanted) = (image.code_signature().unwrap(), proved.unwrap());
        assert_eq!(
            found.map(|one| one.bytes().as_ptr_range()),
            wanted.map(|one| one.bytes().as_ptr_range())
        );
        signed += found.is_some() as usize;
    }
    assert!(signed > 0);
}

#[test]
fn fields_of_commands_are_those_of_their_records() {
    let bytes = include_bytes!("data/executable.macho");
    let image = MachO::parse(bytes, 0).unwrap();
    let mut segments = image.segments.iter();
    let mut counted = 0;
    for command in &image.load_commands {
        let fields: Vec<_> = image.command_fields(command).collect();
        if command.command.cmd() != 0x19 {
            continue;
        }
        let segment = segments.next().unwrap();
        let number = |name| fields.iter().find(|it| it.name == name).unwrap().number;
        assert_eq!(
            (number("vmaddr"), number("fileoff")),
            (segment.vmaddr, segment.fileoff)
        );
        assert_eq!(number("nsects"), segment.nsects.into());
        assert_eq!(
            fields[0].bytes_in(bytes),
            segment.name().ok().map(str::as_bytes)
        );
        assert_eq!((fields.len(), fields[1].bytes_in(bytes)), (9, None));
        counted += 1;
    }
    assert_eq!(counted, image.segments.len());
    assert!(counted > 1);
}
