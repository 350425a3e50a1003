//! `Debug` in goblin's form, which names numbers and lists what an image's methods return.
//!
//! `Debug` of a record prints numbers in hexadecimal and names as texts, and of bytes only their number. `Debug` of [`Goblin`] prints what
//! goblin prints.
//!
//! ```
//! use goblin_mach::debug::Goblin;
//! use goblin_mach::mach::header::Header;
//!
//! let header = Header { magic: 0xfeedfacf, cputype: 7, filetype: 2, ..Header::default() };
//! let shown = format!("{:?}", Goblin(&header));
//! assert!(shown.starts_with("Header { magic: 0xfeedfacf, cputype: 7, cpusubtype: 0x0, filetype: \"EXECUTE\","));
//! ```
use crate::mach::exports::Export;
use crate::mach::fat::{FatArch, FatHeader};
use crate::mach::header::{Header, filetype_to_str};
use crate::mach::imports::Import;
use crate::mach::load_command::{CommandVariant, LoadCommand};
use crate::mach::relocation::RelocationInfo;
use crate::mach::segment::{Section, Segment};
use crate::mach::symbols::{Nlist, Nlist32, Nlist64};
use crate::mach::{Container, Ctx, Endian, Mach, MachO, MultiArch, Result};
use alloc::vec::Vec;
use core::fmt::{self, Debug, Formatter};

/// A value that is printed in goblin's form.
#[derive(Clone, Copy)]
pub struct Goblin<'b, T>(pub &'b T);

// Values that are printed one by one in goblin's form.
struct Each<'b, T>(&'b [T]);

impl<'b, T> Debug for Each<'b, T>
where
    Goblin<'b, T>: Debug,
{
    fn fmt(&self, f: &mut Formatter<'_>) -> fmt::Result {
        f.debug_list().entries(self.0.iter().map(Goblin)).finish()
    }
}

// Prints what a result is or why there is none. goblin would panic.
struct Either<T>(Result<T>);

impl<T: Debug> Debug for Either<T> {
    fn fmt(&self, f: &mut Formatter<'_>) -> fmt::Result {
        match &self.0 {
            Ok(value) => value.fmt(f),
            Err(error) => error.fmt(f),
        }
    }
}

// Values that are printed as derived `Debug` prints them: the flag `-` makes records print no hexadecimal numbers.
struct Derived<'b, T>(&'b T);

impl<T: Debug> Debug for Derived<'_, T> {
    fn fmt(&self, f: &mut Formatter<'_>) -> fmt::Result {
        match f.alternate() {
            true => write!(f, "{:-#?}", self.0),
            false => write!(f, "{:-?}", self.0),
        }
    }
}

macro_rules! derived {
    ($($kind:ty)*) => {$(
        impl Debug for Goblin<'_, $kind> {
            fn fmt(&self, f: &mut Formatter<'_>) -> fmt::Result {
                Derived(self.0).fmt(f)
            }
        }
    )*};
}

derived!(LoadCommand CommandVariant Export<'_> Nlist);

// The segments of an image, which goblin prints with the image's context.
struct Listed<'b, 'a>(&'b MachO<'a>);

fn sections(segment: &Segment) -> Result<Vec<Section>> {
    let all = segment.sections()?;
    Ok(all.into_iter().map(|(section, _)| section).collect())
}

macro_rules! shown {
    ($($kind:ty, $name:literal, $at:ident { $($field:literal $value:expr,)* })*) => {$(
        impl Debug for Goblin<'_, $kind> {
            fn fmt(&self, f: &mut Formatter<'_>) -> fmt::Result {
                let $at = self.0;
                f.debug_struct($name)$(.field($field, &$value))*.finish()
            }
        }
    )*};
}

shown! {
    Header, "Header", at {
        "magic" format_args!("0x{:x}", at.magic), "cputype" at.cputype(),
        "cpusubtype" format_args!("0x{:x}", at.cpusubtype()), "filetype" filetype_to_str(at.filetype),
        "ncmds" at.ncmds, "sizeofcmds" at.sizeofcmds, "flags" format_args!("0x{:x}", at.flags),
        "reserved" format_args!("0x{:x}", at.reserved),
    }
    Section, "Section", at {
        "sectname" Either(at.name()), "segname" Either(at.segname()), "addr" at.addr, "size" at.size,
        "offset" at.offset, "align" at.align, "reloff" at.reloff, "nreloc" at.nreloc, "flags" at.flags,
    }
    Segment<'_>, "Segment", at {
        "cmd" at.cmd, "cmdsize" at.cmdsize, "segname" Either(at.name()), "vmaddr" at.vmaddr, "vmsize" at.vmsize,
        "fileoff" at.fileoff, "filesize" at.filesize, "maxprot" at.maxprot, "initprot" at.initprot,
        "nsects" at.nsects, "flags" at.flags, "data" at.data.len(),
        "sections()" sections(at).as_ref().map(|all| Each(all)),
    }
    RelocationInfo, "RelocationInfo", at {
        "r_address" format_args!("{:#x}", at.r_address), "r_info" format_args!("{:#x}", at.r_info),
        "r_symbolnum" format_args!("{:#x}", at.r_symbolnum()), "r_pcrel" at.r_pcrel(),
        "r_length" at.r_length(), "r_extern" at.r_extern(), "r_type" at.r_type(),
    }
    FatHeader, "FatHeader", at { "magic" format_args!("0x{:x}", at.magic), "nfat_arch" at.nfat_arch, }
    // goblin calls the subtype `cmdsize`.
    FatArch, "FatArch", at {
        "cputype" at.cputype(), "cmdsize" at.cpusubtype(), "offset" format_args!("{:#x}", at.offset),
        "size" at.size, "align" at.align,
    }
    Nlist32, "Nlist32", at {
        "n_strx" format_args!("{:04}", at.n_strx), "n_type" format_args!("{:#02x}", at.n_type),
        "n_sect" format_args!("{:#x}", at.n_sect), "n_desc" format_args!("{:#03x}", at.n_desc),
        "n_value" format_args!("{:#x}", at.n_value),
    }
    Nlist64, "Nlist64", at {
        "n_strx" format_args!("{:04}", at.n_strx), "n_type" format_args!("{:#02x}", at.n_type),
        "n_sect" format_args!("{:#x}", at.n_sect), "n_desc" format_args!("{:#03x}", at.n_desc),
        "n_value" format_args!("{:#x}", at.n_value),
    }
    Listed<'_, '_>, "Segments", at {
        "segments" Each(at.0.segments.as_slice()),
        "ctx" Ctx::new(if at.0.is_64 { Container::Big } else { Container::Little }, Endian::from(at.0.little_endian)),
    }
    MachO<'_>, "MachO", at {
        "header" Goblin(&at.header), "load_commands" Derived(&at.load_commands), "segments" Goblin(&Listed(at)),
        "entry" at.entry, "old_style_entry" at.old_style_entry, "libs" at.libs, "name" at.name,
        "little_endian" at.little_endian, "is_64" at.is_64, "symbols()" Derived(&at.symbols().collect::<Vec<_>>()),
        "exports()" Derived(&at.exports()), "imports()" at.imports().as_ref().map(|all| Each(all)),
    }
    Import<'_>, "Import", at {
        "name" at.name, "dylib" at.dylib, "is_lazy" at.is_lazy, "offset" at.offset, "size" at.size,
        "address" at.address, "addend" at.addend, "is_weak" at.is_weak,
        "start_of_sequence_offset" at.start_of_sequence_offset,
    }
    MultiArch<'_>, "MultiArch", at {
        "arches" Either(at.arches().as_ref().map(|all| Each(all)).map_err(|_| crate::Error::Malformed("entries"))),
        "data" at.bytes().len(),
    }
}

impl Debug for Goblin<'_, Mach<'_>> {
    fn fmt(&self, f: &mut Formatter<'_>) -> fmt::Result {
        match self.0 {
            Mach::Fat(file) => f.debug_tuple("Fat").field(&Goblin(file)).finish(),
            Mach::Binary(image) => f.debug_tuple("Binary").field(&Goblin(image)).finish(),
        }
    }
}
