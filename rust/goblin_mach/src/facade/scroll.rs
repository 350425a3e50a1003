//! The traits of the crate scroll, for the records and the values that goblin has them for. With this module [`Endian`] is scroll's type,
//! as in goblin.
use crate::mach::header::Header;
use crate::mach::load_command::*;
use crate::mach::relocation::RelocationInfo;
use crate::mach::segment::{Section, Segment};
use crate::mach::symbols::{Nlist, Nlist32, Nlist64, Symbols, SymbolsCtx};
use crate::mach::{Container, Ctx, Endian, Error, Record, ScrollError, fat, header};
use crate::shim::Inner;
use scroll::ctx::{FromCtx, IntoCtx, SizeWith, TryFromCtx, TryIntoCtx};

impl From<scroll::Error> for Error {
    #[allow(unreachable_patterns)] // scroll has more errors if it has std.
    fn from(error: scroll::Error) -> Error {
        match error {
            scroll::Error::TooBig { size, len } => ScrollError::TooBig { size, len }.into(),
            scroll::Error::BadOffset(place) => ScrollError::BadOffset(place).into(),
            scroll::Error::BadInput { size, msg } => ScrollError::BadInput { size, msg }.into(),
            _ => Error::Malformed("scroll can read the value"),
        }
    }
}

impl From<Error> for scroll::Error {
    fn from(error: Error) -> scroll::Error {
        match error {
            Error::Scroll(ScrollError::TooBig { size, len }) => scroll::Error::TooBig { size, len },
            Error::Scroll(ScrollError::BadOffset(place)) => scroll::Error::BadOffset(place),
            Error::Scroll(ScrollError::BadInput { size, msg })
            | Error::BufferTooShort(size, msg) => scroll::Error::BadInput { size, msg },
            Error::Malformed(msg) => scroll::Error::BadInput { size: 0, msg },
            Error::BadMagic(_) => scroll::Error::BadInput {
                size: 4,
                msg: "bad magic",
            },
            Error::Memory(_) => scroll::Error::BadInput {
                size: 0,
                msg: "out of memory",
            },
        }
    }
}

// Records: fields one after another.
macro_rules! records {
    ($($kind:path)*) => {$(
        impl<'a> TryFromCtx<'a, Endian> for $kind {
            type Error = scroll::Error;

            fn try_from_ctx(bytes: &'a [u8], le: Endian) -> Result<(Self, usize), scroll::Error> {
                Ok((<$kind as Record>::read(bytes, 0, le)?, <$kind as Record>::SIZE))
            }
        }

        impl TryIntoCtx<Endian> for $kind {
            type Error = scroll::Error;

            fn try_into_ctx(self, bytes: &mut [u8], le: Endian) -> Result<usize, scroll::Error> {
                Ok(self.write(bytes, 0, le)?)
            }
        }

        impl TryIntoCtx<Endian> for &$kind {
            type Error = scroll::Error;

            fn try_into_ctx(self, bytes: &mut [u8], le: Endian) -> Result<usize, scroll::Error> {
                (*self).try_into_ctx(bytes, le)
            }
        }

        impl FromCtx<Endian> for $kind {
            /// If the bytes are too few, those that are missing count as 0. scroll's readers of fields panic then.
            fn from_ctx(bytes: &[u8], le: Endian) -> Self {
                let (mut padded, len) = ([0; 80], bytes.len().min(80));
                padded[..len].copy_from_slice(&bytes[..len]);
                <$kind as Record>::load(&padded, le, Inner(()))
            }
        }

        impl IntoCtx<Endian> for $kind {
            /// If the bytes are too few, nothing is written. scroll's writers of fields panic then.
            fn into_ctx(self, bytes: &mut [u8], le: Endian) {
                crate::mach::IntoCtx::<Endian>::into_ctx(self, bytes, le)
            }
        }

        impl SizeWith<Endian> for $kind {
            fn size_with(_le: &Endian) -> usize {
                <$kind as Record>::SIZE
            }
        }
    )*};
}

records! {
    fat::FatHeader fat::FatArch header::Header32 header::Header64 RelocationInfo Nlist32 Nlist64
    BuildToolVersion BuildVersionCommand DataInCodeEntry DyldInfoCommand Dylib DylibCommand DylibModule DylibModule64
    DylibReference DylibTableOfContents DylinkerCommand DysymtabCommand EncryptionInfoCommand32
    EncryptionInfoCommand64 EntryPointCommand FilesetEntryCommand FvmfileCommand Fvmlib FvmlibCommand IdentCommand
    LinkeditDataCommand LinkerOptionCommand LoadCommandHeader NoteCommand PrebindCksumCommand PreboundDylibCommand
    RoutinesCommand32 RoutinesCommand64 RpathCommand Section32 Section64 SegmentCommand32 SegmentCommand64
    SourceVersionCommand SubClientCommand SubFrameworkCommand SubLibraryCommand SubUmbrellaCommand SymsegCommand
    SymtabCommand TwolevelHint TwolevelHintsCommand UuidCommand VersionMinCommand
}

// Values that this crate reads, writes or measures in a context of its own.
macro_rules! read {
    ($($kind:ty, $ctx:ty;)*) => {$(
        impl<'a> TryFromCtx<'a, $ctx> for $kind {
            type Error = Error;

            fn try_from_ctx(bytes: &'a [u8], ctx: $ctx) -> Result<(Self, usize), Error> {
                <$kind as crate::mach::TryFromCtx<'a, _>>::try_from_ctx(bytes, ctx.into())
            }
        }
    )*};
}

read! {
    Header, Ctx;
    Section, Ctx;
    Nlist, Ctx;
    Symbols<'a>, SymbolsCtx;
    ThreadCommand, Endian;
    CommandVariant, Endian;
}

macro_rules! written {
    ($($kind:ty)*) => {$(
        impl TryIntoCtx<Ctx> for $kind {
            type Error = Error;

            fn try_into_ctx(self, bytes: &mut [u8], ctx: Ctx) -> Result<usize, Error> {
                crate::mach::TryIntoCtx::try_into_ctx(self, bytes, ctx)
            }
        }

        impl IntoCtx<Ctx> for $kind {
            fn into_ctx(self, bytes: &mut [u8], ctx: Ctx) {
                crate::mach::IntoCtx::into_ctx(self, bytes, ctx)
            }
        }

        impl SizeWith<Ctx> for $kind {
            fn size_with(ctx: &Ctx) -> usize {
                <$kind as crate::mach::SizeWith<Ctx>>::size_with(ctx)
            }
        }
    )*};
}

written!(Header Section Nlist Segment<'_>);

impl SizeWith<Container> for Header {
    fn size_with(container: &Container) -> usize {
        <Header as crate::mach::SizeWith<Container>>::size_with(container)
    }
}
