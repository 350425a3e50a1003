//! What an image says: its header, its commands, and the tables that they name.
use super::lines::{Lines, add, ended, error, found, list, padded, quoted, whole, word_if};
use super::vector::Vector;
use goblin_mach::relocation::RelocationInfo;
use goblin_mach::segment::NumberedSection;
use goblin_mach::slots::{IndirectSymbol, SlotKind, SlotSymbol, SymbolSlot};
use goblin_mach::{
    Library, LibraryKind, MachO, Note, Provider, Result, id_place, load_command::CommandVariant,
    read_text,
};

pub fn header(image: &MachO) -> Lines {
    let header = &image.header;
    let bits = if image.is_64 { 64 } else { 32 };
    let order = if image.little_endian { "little" } else { "big" };
    let symbols = image.symbols.as_ref().map_or(0, |symbols| symbols.len());
    vec![
        format!(
            "header {:#x} cpu {:#x} {:#x} type {} flags {:#x} {bits} {order}",
            header.magic, header.cputype, header.cpusubtype, header.filetype, header.flags
        ),
        format!(
            "holds commands {} segments {} libraries {} run-paths {} symbols {symbols} entry {:#x}{}",
            image.load_commands.len(),
            image.segments.as_slice().len(),
            image.libs.len() - 1,
            image.rpaths.len(),
            image.entry,
            word_if(image.old_style_entry, "thread")
        ),
        "end".to_string(),
    ]
}

pub fn commands(image: &MachO) -> Lines {
    whole(Ok(&image.load_commands), |it| {
        let command = &it.command;
        format!(
            "command {:#x} at {:#x} size {}",
            command.cmd(),
            it.offset,
            command.cmdsize()
        )
    })
}

pub fn segments(image: &MachO) -> Lines {
    whole(Ok(image.segments.as_slice()), |it| {
        format!(
            "segment {} at {:#x} size {:#x} file {:#x} {:#x} data {} protection {:#x} {:#x} sections {} flags {:#x}",
            padded(&it.segname),
            it.vmaddr,
            it.vmsize,
            it.fileoff,
            it.filesize,
            it.data.len(),
            it.initprot,
            it.maxprot,
            it.nsects,
            it.flags
        )
    })
}

pub fn sections(image: &MachO) -> Lines {
    let mut lines = Vec::new();
    for (number, segment) in image.segments.as_slice().iter().enumerate() {
        add(&mut lines, segment.into_iter(), |(it, data)| {
            format!(
                "section {number} {} of {} at {:#x} size {:#x} offset {:#x} data {} align {} relocations {} at {:#x} flags {:#x}",
                padded(&it.sectname),
                padded(&it.segname),
                it.addr,
                it.size,
                it.offset,
                data.len(),
                it.align,
                it.nreloc,
                it.reloff,
                it.flags
            )
        });
    }
    ended(lines)
}

fn relocation(segment: usize, section: usize, it: RelocationInfo) -> String {
    let (address, info) = (it.r_address, it.r_info);
    format!("relocation {segment} {section} address {address:#x} info {info:#x}")
}

pub fn relocations(image: &MachO) -> Lines {
    let mut lines = Vec::new();
    for (segment, it) in image.segments.as_slice().iter().enumerate() {
        for (number, section) in it.into_iter().enumerate() {
            match section {
                Ok((section, _)) => {
                    let items = section.iter_relocations(image.bytes(), image.ctx());
                    add(&mut lines, items, |it| relocation(segment, number, it));
                }
                Err(why) => lines.push(error(&why)),
            }
        }
    }
    ended(lines)
}

pub fn symbols(image: &MachO) -> Lines {
    list(image.symbols(), |(name, it)| {
        format!(
            "symbol {} value {:#x} type {:#x} section {} description {:#x}",
            quoted(name),
            it.n_value,
            it.n_type,
            it.n_sect,
            it.n_desc
        )
    })
}

fn library(it: Library) -> String {
    let kind = match it.kind {
        LibraryKind::Required => "required",
        LibraryKind::Weak => "weak",
        LibraryKind::Reexport => "reexport",
        LibraryKind::Upward => "upward",
        LibraryKind::Lazy => "lazy",
        _ => panic!("the vectors have no such variant"),
    };
    let used = it.attributes;
    [
        format!("library {} {} {kind}", it.ordinal, quoted(it.name)),
        format!(" timestamp {}", it.timestamp),
        format!(" current {:#x}", it.current_version),
        format!(" compatible {:#x}", it.compatibility_version),
        word_if(used.is_weak, "used-weak"),
        word_if(used.is_reexport, "used-reexport"),
        word_if(used.is_upward, "used-upward"),
        word_if(used.is_delayed, "used-delayed"),
    ]
    .concat()
}

pub fn libraries(image: &MachO) -> Lines {
    list(image.libraries().map(Ok), library)
}

pub fn run_paths(image: &MachO) -> Lines {
    whole(Ok(&image.rpaths), |path| format!("path {}", quoted(path)))
}

/// The names of an image as a library, without those that can't be read, which an image in lossy mode may have.
pub fn ids(image: &MachO) -> Lines {
    let places = image.load_commands.iter().filter_map(id_place);
    let names = places.filter_map(|place| read_text(image.bytes(), place).ok());
    list(names.map(Ok), |name| format!("id {}", quoted(name)))
}

pub fn function_starts(image: &MachO) -> Lines {
    list(image.function_starts(), |address| {
        format!("start {address:#x}")
    })
}

pub fn data_in_code(image: &MachO) -> Lines {
    list(image.data_in_code(), |it| {
        format!(
            "data {:#x} length {} kind {}",
            it.offset, it.length, it.kind
        )
    })
}

pub fn indirect_symbols(image: &MachO) -> Lines {
    list(image.indirect_symbols(), |it| {
        let symbol = match it {
            IndirectSymbol::Symbol(number) => number.to_string(),
            IndirectSymbol::Local => "local".to_string(),
            IndirectSymbol::Absolute => "absolute".to_string(),
            IndirectSymbol::LocalAbsolute => "local-absolute".to_string(),
            _ => panic!("the vectors have no such variant"),
        };
        format!("indirect {symbol}")
    })
}

pub fn linker_options(image: &MachO) -> Lines {
    list(image.linker_options(), |(command, text)| {
        let place = image.load_commands[command].offset;
        format!("option {} of {place:#x}", quoted(text))
    })
}

pub fn build_tools(image: &MachO) -> Lines {
    list(image.build_tools(), |(command, it)| {
        let place = image.load_commands[command].offset;
        format!("tool {} version {:#x} of {place:#x}", it.tool, it.version)
    })
}

pub fn notes(image: &MachO) -> Lines {
    let is_note = |it: &CommandVariant| matches!(it, CommandVariant::Note(_));
    let commands = image.load_commands.iter().filter(|it| is_note(&it.command));
    let mut places = commands.map(|it| it.offset);
    // There is an item for each command.
    let placed = image.notes().map(|note| {
        let command = places.next().unwrap_or(0);
        note.map(|note| (command, note))
    });
    list(placed, |(command, note)| note_line(image, command, note))
}

fn note_line(image: &MachO, command: usize, note: Note) -> String {
    // The bytes of a note are bytes of the file.
    let place = (note.data.as_ptr() as usize).wrapping_sub(image.bytes().as_ptr() as usize);
    let at = word_if(!note.data.is_empty(), &format!("at {place:#x}"));
    let size = note.data.len();
    format!(
        "note {}{at} size {size} of {command:#x}",
        quoted(note.owner)
    )
}

fn slot(it: SymbolSlot) -> String {
    let kind = match it.kind {
        SlotKind::Pointer => "pointer",
        SlotKind::LazyPointer => "lazy-pointer",
        SlotKind::Stub => "stub",
        SlotKind::LazyLibraryPointer => "lazy-library-pointer",
        SlotKind::ThreadLocalPointer => "thread-local-pointer",
        _ => panic!("the vectors have no such variant"),
    };
    let symbol = match it.symbol {
        SlotSymbol::Named { index, name } => format!("{index} {}", quoted(name)),
        SlotSymbol::Local => "local".to_string(),
        SlotSymbol::Absolute => "absolute".to_string(),
        SlotSymbol::LocalAbsolute => "local-absolute".to_string(),
        _ => panic!("the vectors have no such variant"),
    };
    format!(
        "slot {kind} at {:#x} size {} segment {} section {} index {} of {symbol}",
        it.address, it.len, it.segment, it.section, it.index
    )
}

pub fn slots(image: &MachO) -> Lines {
    list(image.symbol_slots(), slot)
}

pub fn slot_at(image: &MachO, vector: &Vector) -> Lines {
    found(image.symbol_slot_at(vector.address), slot)
}

/// Where a symbol is looked up.
pub fn place_of(provider: Provider) -> String {
    match provider {
        Provider::Library { ordinal, name } => format!("{ordinal} {}", quoted(name)),
        Provider::Itself => "itself".to_string(),
        Provider::MainExecutable => "main-executable".to_string(),
        Provider::Flat => "flat".to_string(),
        Provider::WeakLookup => "weak-look-up".to_string(),
        _ => panic!("the vectors have no such variant"),
    }
}

pub fn providers(image: &MachO) -> Lines {
    let provider = |symbol: Result<(_, _)>| image.symbol_provider(&symbol?.1).transpose();
    list(image.symbols().map(provider), |provider| match provider {
        Some(provider) => format!("provider {}", place_of(provider)),
        None => "none".to_string(),
    })
}

fn section(it: NumberedSection) -> String {
    let s = it.section;
    format!(
        "found {} of {} segment {} section {} at {:#x} size {:#x} offset {:#x} align {} relocations {} at {:#x} flags {:#x} reserved {:#x} {:#x}",
        padded(&s.sectname),
        padded(&s.segname),
        it.segment,
        it.number,
        s.addr,
        s.size,
        s.offset,
        s.align,
        s.nreloc,
        s.reloff,
        s.flags,
        s.reserved1,
        s.reserved2
    )
}

pub fn section_at(image: &MachO, vector: &Vector) -> Lines {
    found(Ok(image.section_at(vector.address)), section)
}

pub fn section_of(image: &MachO, vector: &Vector) -> Lines {
    found(image.section_of(vector.number() as usize), section)
}

pub fn strings(image: &MachO, vector: &Vector) -> Lines {
    let section = match image.section_of(vector.number() as usize) {
        Ok(Some(section)) => section,
        Ok(None) => return ended(vec!["none".to_string()]),
        Err(why) => return vec![error(&why)],
    };
    match image.strings_of(&section) {
        Ok(items) => list(items.map(Ok), |it| {
            format!("string {:#x} {}", it.place, quoted(it.bytes))
        }),
        Err(why) => vec![error(&why)],
    }
}

pub fn initializers(image: &MachO) -> Lines {
    match image.initializers() {
        Ok(items) => list(items, |it| {
            format!(
                "initializer at {:#x} target {:#x} segment {} section {}",
                it.slot, it.target, it.section.segment, it.section.number
            )
        }),
        Err(why) => vec![error(&why)],
    }
}
