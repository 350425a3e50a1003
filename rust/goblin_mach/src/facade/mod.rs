//! What Rust's users expect beside the proved calls: goblin's paths, and traits of std. Written by hand, each a line or two
//! over a proved call.
use crate::generated::mach as proved;
use crate::mach::exports::{ExportInfo, ExportWalk};
use crate::mach::load_command::{Platform, VersionMinCommand};
use crate::mach::segment::{Segment, Segments};
use crate::mach::{
    ArchRecord, Container, Ctx, Endian, Error, FatTable, Mach, MachO, MultiArch, Result,
    ScrollError, SingleArch,
};
use alloc::string::{String, ToString};
use core::iter::FusedIterator;
use core::{fmt, ops};

#[cfg(feature = "archive")]
mod archive;
#[cfg(feature = "signature")]
pub mod audit;
pub mod bytes;
mod command_fields;
mod constants;
pub mod debug;
mod image;
#[cfg(feature = "archive")]
mod input;
#[cfg(feature = "resolve")]
pub mod resolve;
#[cfg(feature = "scroll")]
mod scroll;
#[cfg(feature = "signature")]
mod signature;

/// Reads Mach-O files: what goblin calls by this path, and more.
pub mod mach {
    pub use super::constants::constants;
    #[cfg(feature = "archive")]
    pub use super::input::InputMachOs;
    pub use super::proved::*;
    pub use super::{Exports, MachOIterator};
    pub use constants::cputype;
}

/// Errors, by goblin's path.
pub mod error {
    pub use crate::mach::{Error, Result};
}

/// The widths and byte orders of images, by goblin's path.
pub mod container {
    pub use crate::mach::{Container, Ctx, Endian};

    /// The width of this processor's addresses.
    pub const CONTAINER: Container = Container::Big;
}

impl fmt::Display for Error {
    fn fmt(&self, f: &mut fmt::Formatter<'_>) -> fmt::Result {
        proved::describe(self).fmt(f)
    }
}

/// Prints what `Display` prints, since `fn main() -> Result` shows an error by `Debug`.
impl fmt::Debug for Error {
    fn fmt(&self, f: &mut fmt::Formatter<'_>) -> fmt::Result {
        fmt::Display::fmt(self, f)
    }
}

impl core::error::Error for Error {
    fn source(&self) -> Option<&(dyn core::error::Error + 'static)> {
        match self {
            Error::Scroll(error) => Some(error),
            _ => None,
        }
    }
}

impl fmt::Display for ScrollError {
    fn fmt(&self, f: &mut fmt::Formatter<'_>) -> fmt::Result {
        match self {
            ScrollError::BadOffset(place) => write!(f, "offset {place} is past the end"),
            ScrollError::TooBig { size, len } => {
                write!(f, "{size} bytes are needed and {len} are left")
            }
            ScrollError::BadInput { size, msg } => write!(f, "{msg}, {size} bytes left"),
        }
    }
}

/// Prints what `Display` prints.
impl fmt::Debug for ScrollError {
    fn fmt(&self, f: &mut fmt::Formatter<'_>) -> fmt::Result {
        fmt::Display::fmt(self, f)
    }
}

impl core::error::Error for ScrollError {}

#[cfg(feature = "std")]
impl From<Error> for std::io::Error {
    fn from(error: Error) -> std::io::Error {
        let kind = match error {
            Error::Memory(_) => std::io::ErrorKind::OutOfMemory,
            _ => std::io::ErrorKind::InvalidData,
        };
        std::io::Error::new(kind, error)
    }
}

#[cfg(feature = "std")]
impl crate::mach::fat::FatHeader {
    /// Reads the header of a fat file from an open file.
    pub fn from_fd(fd: &mut std::fs::File) -> std::io::Result<Self> {
        let mut bytes = [0; crate::mach::fat::SIZEOF_FAT_HEADER];
        std::io::Read::read_exact(fd, &mut bytes)?;
        Ok(Self::from_bytes(bytes))
    }
}

macro_rules! opened {
    ($($kind:ident $open:expr;)*) => {$(
        impl<'a> TryFrom<&'a [u8]> for $kind<'a> {
            type Error = Error;

            fn try_from(bytes: &'a [u8]) -> Result<Self> {
                $open(bytes)
            }
        }
    )*};
}

opened! {
    Mach Mach::parse;
    MachO |bytes| MachO::parse(bytes, 0);
    MultiArch MultiArch::new;
    Object Object::parse;
}

impl<'a> ops::Deref for Segments<'a> {
    type Target = [Segment<'a>];

    fn deref(&self) -> &[Segment<'a>] {
        self.as_slice()
    }
}

impl<'a> Segment<'a> {
    /// Its bytes in the file: those of the field `data`.
    pub fn data(&self) -> &'a [u8] {
        self.data
    }
}

impl VersionMinCommand {
    /// Returns the platform that the command names. If `cmd` names none, it is macOS, since goblin's type has no other answer:
    /// `Platform::try_from(cmd)` is an error then. The command of an image always names one.
    pub fn platform(&self) -> Platform {
        Platform::try_from(self.cmd).unwrap_or(Platform::Macos)
    }
}

#[cfg(not(feature = "scroll"))]
impl Default for Endian {
    /// The byte order of this processor.
    fn default() -> Endian {
        Endian::from(cfg!(target_endian = "little"))
    }
}

impl Default for Container {
    fn default() -> Container {
        container::CONTAINER
    }
}

impl Ctx {
    /// Whether the byte order is little-endian.
    pub fn is_little_endian(self) -> bool {
        self.le.is_little()
    }
}

impl From<Container> for Ctx {
    fn from(container: Container) -> Ctx {
        Ctx::new(container, Endian::default())
    }
}

impl From<Endian> for Ctx {
    fn from(le: Endian) -> Ctx {
        Ctx::new(Container::default(), le)
    }
}

/// Exports one at a time, each with a name of its own: what a `for` loop over [`ExportWalk`] returns.
#[derive(Clone, Debug)]
pub struct Exports<'a, 'b>(ExportWalk<'a, 'b>);

impl<'a> Iterator for Exports<'a, '_> {
    type Item = Result<(String, ExportInfo<'a>)>;

    fn next(&mut self) -> Option<Self::Item> {
        Some(self.0.next()?.map(|(name, info)| (name.to_string(), info)))
    }
}

impl FusedIterator for Exports<'_, '_> {}

impl<'a, 'b> IntoIterator for ExportWalk<'a, 'b> {
    type Item = Result<(String, ExportInfo<'a>)>;
    type IntoIter = Exports<'a, 'b>;

    fn into_iter(self) -> Exports<'a, 'b> {
        Exports(self)
    }
}

impl<'a, R: ArchRecord> FatTable<'a, R> {
    /// Opens the first entry for whose record, or the error of reading it, `f` returns true. Returns None if there is none.
    pub fn find<F: Fn(Result<R>) -> bool>(&self, f: F) -> Option<Result<SingleArch<'a>>> {
        self.find_with(f)
    }
}

/// The images of a fat file: what a `for` loop over goblin 0.2's `MultiArch` returns. An entry that is an archive is an error.
/// Made by [`MultiArch::machos`].
#[derive(Clone, Debug)]
pub struct MachOIterator<'a, 'b>(proved::SingleArchIterator<'a, 'b>);

impl<'a> MultiArch<'a> {
    /// Iterates over the images.
    pub fn machos<'b>(&'b self) -> MachOIterator<'a, 'b> {
        MachOIterator(self.into_iter())
    }
}

impl<'a> Iterator for MachOIterator<'a, '_> {
    type Item = Result<MachO<'a>>;

    fn next(&mut self) -> Option<Self::Item> {
        Some(self.0.next()?.and_then(|entry| match entry {
            SingleArch::MachO(image) => Ok(image),
            SingleArch::Archive(_) => Err(Error::Malformed("an entry is an image")),
        }))
    }

    fn size_hint(&self) -> (usize, Option<usize>) {
        self.0.size_hint()
    }
}

impl ExactSizeIterator for MachOIterator<'_, '_> {}

impl FusedIterator for MachOIterator<'_, '_> {}

/// A file of a kind that this crate reads, by goblin's path.
#[derive(Debug)]
pub enum Object<'a> {
    /// An image or a fat file.
    Mach(Mach<'a>),
    /// A static library.
    #[cfg(feature = "archive")]
    Archive(crate::archive::Archive<'a>),
    /// None of these: the first eight bytes as a little-endian number.
    Unknown(u64),
}

impl<'a> Object<'a> {
    /// Opens a file by its first 16 bytes.
    pub fn parse(bytes: &'a [u8]) -> Result<Object<'a>> {
        let len = bytes.len();
        let Some(first) = proved::take_hint_bytes(bytes) else {
            return Err(Error::Scroll(ScrollError::TooBig { size: 16, len }));
        };
        match proved::peek_bytes(first)? {
            proved::Hint::Mach(_) | proved::Hint::MachFat(_) => {
                Ok(Object::Mach(Mach::parse(bytes)?))
            }
            #[cfg(feature = "archive")]
            proved::Hint::Archive => Ok(Object::Archive(crate::archive::Archive::parse(bytes)?)),
            #[cfg(not(feature = "archive"))]
            proved::Hint::Archive => Ok(Object::Unknown(u64::from_le_bytes(*b"!<arch>\n"))),
            proved::Hint::Unknown(magic) => Ok(Object::Unknown(magic)),
        }
    }
}
