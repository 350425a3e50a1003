//! scroll's traits give what this crate's own give.
#![cfg(feature = "scroll")]
mod common;

use goblin_mach::mach::header::{Header, Header64};
use goblin_mach::mach::load_command::{CommandVariant, LoadCommandHeader, Section64};
use goblin_mach::mach::segment::Section;
use goblin_mach::mach::symbols::{Nlist, Nlist64};
use goblin_mach::{Container, Ctx, Error, MachO, Record};
use scroll::ctx::{FromCtx, IntoCtx, SizeWith};
use scroll::{BE, LE, Pread, Pwrite};

#[test]
fn images_are_read_alike() {
    for bytes in common::files() {
        let Ok(image) = MachO::parse(&bytes, 0) else {
            continue;
        };
        let le = scroll::Endian::from(image.little_endian);
        let container = [Container::Little, Container::Big][image.is_64 as usize];
        let ctx = Ctx::new(container, le.into());
        let header: Header = bytes.pread_with(0, ctx).unwrap();
        assert_eq!(format!("{header:?}"), format!("{:?}", image.header));
        assert_eq!(Header::size_with(&ctx), Header::size_with(&container));
        let at = &mut Header::size_with(&ctx);
        for command in &image.load_commands {
            assert_eq!(*at, command.offset);
            let prefix: LoadCommandHeader = bytes.pread_with(*at, le).unwrap();
            assert_eq!(prefix.cmd, command.command.cmd());
            let variant: CommandVariant = bytes.pread_with(*at, le).unwrap();
            assert_eq!(format!("{variant:?}"), format!("{:?}", command.command));
            *at += prefix.cmdsize as usize;
        }
    }
}

#[test]
fn records_are_written_and_read() {
    let mut section = Section64::read(&[5; 80], 0, goblin_mach::LE).unwrap();
    section.addr = 0x0102_0304_0506_0708;
    for le in [LE, BE] {
        let mut bytes = [0; 100];
        let at = &mut 8;
        assert_eq!(bytes.gwrite_with(&section, at, le).unwrap(), 80);
        assert_eq!((*at, Section64::size_with(&le)), (88, 80));
        let read: Section64 = bytes.pread_with(8, le).unwrap();
        assert_eq!(format!("{read:?}"), format!("{section:?}"));
        let own = Section64::read(&bytes, 8, le.into()).unwrap();
        assert_eq!(format!("{read:?}"), format!("{own:?}"));
        let read = Section64::from_ctx(&bytes[8..], le);
        assert_eq!(format!("{read:?}"), format!("{section:?}"));
        let mut again = [0; 80];
        section.into_ctx(&mut again, le);
        assert_eq!(again, bytes[8..88]);
        assert!(bytes.pwrite_with(section, 21, le).is_err());
    }
}

#[test]
fn readers_and_writers_of_fields_end_with_the_bytes() {
    let mut bytes = [5; 80];
    let whole = Section64::from_ctx(&bytes, LE);
    bytes[20..].fill(0);
    let cut = Section64::from_ctx(&bytes[..20], LE);
    let padded = Section64::from_ctx(&bytes, LE);
    assert_eq!(format!("{cut:?}"), format!("{padded:?}"));
    assert_ne!(format!("{cut:?}"), format!("{whole:?}"));
    assert_eq!(Section64::from_ctx(&[], LE).flags, 0);
    let before = bytes;
    for len in 0..80 {
        whole.into_ctx(&mut bytes[..len], LE);
        assert_eq!(bytes, before);
    }
}

#[test]
fn values_are_written_in_a_context() {
    for ctx in [Ctx::new(Container::Little, LE.into()), Ctx::from(BE)] {
        let mut bytes = [0; 80];
        let nlist = Nlist {
            n_strx: 7,
            n_type: 1,
            n_sect: 2,
            n_desc: 3,
            n_value: 9,
        };
        let written = bytes.pwrite_with(nlist.clone(), 0, ctx).unwrap();
        assert_eq!(written, Nlist::size_with(&ctx));
        let read: Nlist = bytes.pread_with(0, ctx).unwrap();
        assert_eq!(format!("{read:?}"), format!("{nlist:?}"));
        let written = bytes.pwrite_with(Section::default(), 0, ctx).unwrap();
        assert_eq!(written, Section::size_with(&ctx));
    }
}

#[test]
fn the_byte_order_is_one_type() {
    let le: scroll::Endian = goblin_mach::LE;
    let ctx = Ctx::from(le);
    let mut bytes = [1, 2, 3, 4, 5, 6, 7, 8];
    let at = &mut 2;
    assert_eq!(bytes.gread_with::<u32>(at, ctx.le).unwrap(), 0x0605_0403);
    assert_eq!(*at, 6);
    assert_eq!(bytes.pwrite_with(-2i16, 0, goblin_mach::BE).unwrap(), 2);
    assert_eq!(
        bytes.pread_with::<i64>(0, goblin_mach::BE).unwrap(),
        0xfffe_0304_0506_0708u64 as i64
    );
    let native: u16 = bytes.pread(0).unwrap();
    assert_eq!(native, u16::from_ne_bytes([0xff, 0xfe]));
    assert_eq!(u64::size_with(&ctx.le), 8);
}

#[test]
fn errors_are_those_of_the_trait() {
    let bytes = [0; 20];
    assert!(matches!(
        bytes.pread_with::<Header64>(0, LE),
        Err(scroll::Error::TooBig { size: 32, len: 20 })
    ));
    assert!(matches!(
        bytes.pread_with::<Nlist64>(20, LE),
        Err(scroll::Error::BadOffset(20))
    ));
    let read = |at| -> Result<u64, Error> { Ok(bytes.pread_with::<u64>(at, LE)?) };
    assert!(matches!(read(0), Ok(0)));
    assert!(matches!(read(16), Err(Error::Scroll(_))));
    let mach: Result<Header, Error> = bytes.pread_with(0, Ctx::from(LE));
    assert!(matches!(mach, Err(Error::Scroll(_) | Error::Malformed(_))));
}
