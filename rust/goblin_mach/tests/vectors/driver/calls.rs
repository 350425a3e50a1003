//! The calls of vectors/README.md, and what of this crate answers each.
#[cfg(feature = "archive")]
use super::archives;
#[cfg(feature = "audit")]
use super::audited;
#[cfg(feature = "layout")]
use super::judged;
use super::lines::{Lines, error};
#[cfg(feature = "resolve")]
use super::resolved;
use super::vector::Vector;
#[cfg(feature = "write")]
use super::written;
use super::{dyld, files, image, names};
#[cfg(feature = "signature")]
use super::{said, signed};
use goblin_mach::{MachO, Result};

enum Call {
    /// Reads the file.
    File(fn(&Vector) -> Lines),
    /// Names some numbers, if the crate has names of their kind.
    Names(fn(&Vector) -> Option<Lines>),
    /// Reads the image.
    Image(fn(&MachO) -> Lines),
    /// Looks something up in the image.
    LookUp(fn(&MachO, &Vector) -> Lines),
    /// The crate has no such call, or its feature is off.
    LeftOut,
}

fn call_of(name: &str) -> Option<Call> {
    use Call::{File, Image, LeftOut, LookUp, Names};
    Some(match name {
        "header" => Image(image::header),
        "commands" => Image(image::commands),
        "segments" => Image(image::segments),
        "sections" => Image(image::sections),
        "relocations" => Image(image::relocations),
        "symbols" => Image(image::symbols),
        "libraries" => Image(image::libraries),
        "run-paths" => Image(image::run_paths),
        "ids" => Image(image::ids),
        "function-starts" => Image(image::function_starts),
        "data-in-code" => Image(image::data_in_code),
        "indirect-symbols" => Image(image::indirect_symbols),
        "linker-options" => Image(image::linker_options),
        "build-tools" => Image(image::build_tools),
        "notes" => Image(image::notes),
        "slots" => Image(image::slots),
        "slot-at" => LookUp(image::slot_at),
        "providers" => Image(image::providers),
        "section-at" => LookUp(image::section_at),
        "section-of" => LookUp(image::section_of),
        "strings" => LookUp(image::strings),
        "initializers" => Image(image::initializers),
        "exports" => Image(dyld::exports),
        "walk" => Image(dyld::walk),
        "find" => LookUp(dyld::find),
        "imports" => Image(dyld::imports),
        "iter-imports" => Image(dyld::iter_imports),
        "bindings" => Image(dyld::bindings),
        "weak-binds" => Image(dyld::weak_binds),
        "rebases" => Image(dyld::rebases),
        "fixups" => Image(dyld::fixups),
        "mach" => File(files::mach),
        "entries" => File(files::entries),
        "command-names" => Names(names::commands),
        "file-type-names" => Names(names::file_types),
        "header-flag-names" => Names(names::header_flags),
        "symbol-type-names" => Names(names::symbol_types),
        "relocation-names" => Names(names::relocations),
        "cpu-names" | "platform-names" => LeftOut,
        _ => return call_of_feature(name),
    })
}

/// The calls that features bring.
const OF_FEATURES: &[&str] = &[
    "input",
    "images",
    "archive-kind",
    "members",
    "archive-symbols",
    "archive-find",
    "member-named",
    "write-fat",
    "layout",
    "container",
    "signature",
    "signature-faults",
    "as-signed",
    "requirement",
    "entitlements",
    "security",
    "resolve",
    "audit",
];

fn call_of_feature(name: &str) -> Option<Call> {
    Some(match name {
        #[cfg(feature = "archive")]
        "input" => Call::File(archives::input),
        #[cfg(feature = "archive")]
        "images" => Call::File(archives::images),
        #[cfg(feature = "archive")]
        "archive-kind" => Call::File(archives::archive_kind),
        #[cfg(feature = "archive")]
        "members" => Call::File(archives::members),
        #[cfg(feature = "archive")]
        "archive-symbols" => Call::File(archives::archive_symbols),
        #[cfg(feature = "archive")]
        "archive-find" => Call::File(archives::archive_find),
        #[cfg(feature = "archive")]
        "member-named" => Call::File(archives::member_named),
        #[cfg(feature = "write")]
        "write-fat" => Call::File(written::written),
        #[cfg(feature = "layout")]
        "layout" => Call::File(judged::layout),
        #[cfg(feature = "layout")]
        "container" => Call::File(judged::container),
        #[cfg(feature = "signature")]
        "signature" => Call::Image(signed::signature),
        #[cfg(feature = "signature")]
        "signature-faults" => Call::Image(signed::faults),
        #[cfg(feature = "signature")]
        "as-signed" => Call::Image(signed::as_signed),
        #[cfg(feature = "signature")]
        "requirement" => Call::LookUp(said::requirement),
        #[cfg(feature = "signature")]
        "entitlements" => Call::Image(said::entitlements),
        #[cfg(feature = "signature")]
        "security" => Call::Image(said::security),
        #[cfg(feature = "resolve")]
        "resolve" => Call::File(resolved::resolved),
        #[cfg(feature = "audit")]
        "audit" => Call::File(audited::audited),
        _ if OF_FEATURES.contains(&name) => Call::LeftOut,
        _ => return None,
    })
}

/// What a vector is answered.
pub enum Answer {
    Lines(Lines),
    LeftOut,
    UnknownCall,
}

pub fn open(bytes: &[u8], offset: usize, is_lossy: bool) -> Result<MachO<'_>> {
    if is_lossy {
        MachO::parse_lossy(bytes, offset)
    } else {
        MachO::parse(bytes, offset)
    }
}

fn of_image(vector: &Vector, lines: impl Fn(&MachO) -> Lines) -> Answer {
    Answer::Lines(match open(&vector.bytes, vector.offset, vector.is_lossy) {
        Ok(image) => lines(&image),
        Err(why) => vec![error(&why)],
    })
}

/// Answers a vector.
pub fn answer(vector: &Vector) -> Answer {
    match call_of(&vector.call) {
        None => Answer::UnknownCall,
        Some(Call::LeftOut) => Answer::LeftOut,
        Some(Call::File(lines)) => Answer::Lines(lines(vector)),
        Some(Call::Names(lines)) => lines(vector).map_or(Answer::LeftOut, Answer::Lines),
        Some(Call::Image(lines)) => of_image(vector, lines),
        Some(Call::LookUp(lines)) => of_image(vector, |image| lines(image, vector)),
    }
}
