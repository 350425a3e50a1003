//! Answers a vector by object: vectors_object CALL FILE.
#[path = "../../printed.rs"]
mod printed;

use object::macho::{self, DylibCommand, FatHeader, MachHeader32, MachHeader64};
use object::read::archive::ArchiveFile;
use object::read::macho::{FatArch, LoadCommandData, LoadCommandVariant, MachHeader, Nlist, Section, Segment};
use object::{Endianness, FileKind};
use printed::{Lines, quoted};

type Order = Endianness;
type Result<T> = std::result::Result<T, Box<dyn std::error::Error>>;

fn header<H: MachHeader<Endian = Order>>(it: &H, order: Order, lines: &mut Lines) {
    let (magic, bits) = if it.is_type_64() { (macho::MH_MAGIC_64, 64) } else { (macho::MH_MAGIC, 32) };
    let (cpu, subtype, kind, flags) = (it.cputype(order), it.cpusubtype(order), it.filetype(order), it.flags(order));
    let order_name = if order == Order::Little { "little" } else { "big" };
    lines.add(format!("header {magic:#x} cpu {cpu:#x} {subtype:#x} type {kind} flags {flags:#x} {bits} {order_name}"));
    lines.add(format!("holds commands {}", it.ncmds(order)));
}

fn segment<S: Segment<Endian = Order>>(it: &S, order: Order, bytes: &[u8]) -> Result<String> {
    let data = it.data(order, bytes).map_err(|()| "segment data")?.len();
    let [at, size, from, len]: [u64; 4] = [it.vmaddr(order).into(), it.vmsize(order).into(), it.fileoff(order).into(), it.filesize(order).into()];
    let (name, sections) = (quoted(it.name()), it.nsects(order));
    let (initial, most, flags) = (it.initprot(order), it.maxprot(order), it.flags(order));
    Ok(format!(
        "segment {name} at {at:#x} size {size:#x} file {from:#x} {len:#x} data {data} protection {initial:#x} {most:#x} sections {sections} flags {flags:#x}"
    ))
}

fn section<S: Section<Endian = Order>>(it: &S, number: usize, order: Order, bytes: &[u8]) -> Result<String> {
    let data = it.data(order, bytes).map_err(|()| "section data")?.len();
    let (at, size): (u64, u64) = (it.addr(order).into(), it.size(order).into());
    let (name, of, offset, align) = (quoted(it.name()), quoted(it.segment_name()), it.offset(order), it.align(order));
    let (count, from, flags) = (it.nreloc(order), it.reloff(order), it.flags(order));
    Ok(format!(
        "section {number} {name} of {of} at {at:#x} size {size:#x} offset {offset:#x} data {data} align {align} \
         relocations {count} at {from:#x} flags {flags:#x}"
    ))
}

fn relocations<S: Section<Endian = Order>>(it: &S, place: (usize, usize), order: Order, bytes: &[u8], lines: &mut Lines) -> Result<()> {
    for relocation in it.relocations(order, bytes)? {
        let (address, info) = (relocation.r_word0.get(order), relocation.r_word1.get(order));
        lines.add(format!("relocation {} {} address {address:#x} info {info:#x}", place.0, place.1));
    }
    Ok(())
}

fn library(it: &DylibCommand<Order>, name: &[u8], kind: &str, ordinal: usize, order: Order) -> String {
    let it = &it.dylib;
    let (timestamp, current, compatible) = (it.timestamp.get(order), it.current_version.get(order), it.compatibility_version.get(order));
    format!("library {ordinal} {} {kind} timestamp {timestamp} current {current:#x} compatible {compatible:#x}", quoted(name))
}

fn kind_of_library(command: u32) -> &'static str {
    match command {
        macho::LC_LOAD_WEAK_DYLIB => "weak",
        macho::LC_REEXPORT_DYLIB => "reexport",
        macho::LC_LOAD_UPWARD_DYLIB => "upward",
        macho::LC_LAZY_LOAD_DYLIB => "lazy",
        _ => "required",
    }
}

/// Adds the lines that a command gives to the answer of a call. `counts` are the numbers of segments and of libraries before the command.
fn of_command<H: MachHeader<Endian = Order>>(
    call: &str, command: LoadCommandData<Order>, counts: &mut (usize, usize), order: Order, bytes: &[u8], lines: &mut Lines,
) -> Result<()> {
    if let Some((it, rest)) = H::Segment::from_command(command)? {
        let number = counts.0;
        counts.0 += 1;
        if call == "segments" {
            lines.add(segment(it, order, bytes)?);
        }
        for (index, it) in it.sections(order, rest)?.iter().enumerate() {
            match call {
                "sections" => lines.add(section(it, number, order, bytes)?),
                "relocations" => relocations(it, (number, index), order, bytes, lines)?,
                _ => {}
            }
        }
    }
    if let (Some(it), "symbols") = (command.symtab()?, call) {
        let table = it.symbols::<H, _>(order, bytes)?;
        for it in table.iter() {
            let (name, value): (_, u64) = (quoted(it.name(order, table.strings())?), it.n_value(order).into());
            lines.add(format!("symbol {name} value {value:#x} type {:#x} section {} description {:#x}", it.n_type(), it.n_sect(), it.n_desc(order)));
        }
    }
    match (call, command.variant()?) {
        ("libraries", LoadCommandVariant::Dylib(it)) => {
            counts.1 += 1;
            lines.add(library(it, command.string(order, it.dylib.name)?, kind_of_library(command.cmd()), counts.1, order));
        }
        ("ids", LoadCommandVariant::IdDylib(it)) => lines.add(format!("id {}", quoted(command.string(order, it.dylib.name)?))),
        ("run-paths", LoadCommandVariant::Rpath(it)) => lines.add(format!("path {}", quoted(command.string(order, it.path)?))),
        _ => {}
    }
    Ok(())
}

fn of_image<H: MachHeader<Endian = Order>>(call: &str, bytes: &[u8], lines: &mut Lines) -> Result<()> {
    let image = H::parse(bytes, 0)?;
    let order = image.endian()?;
    if call == "header" {
        header(image, order, lines);
    }
    let mut commands = image.load_commands(order, bytes, 0)?;
    let (mut at, mut counts) = (size_of::<H>(), (0, 0));
    while let Some(command) = commands.next()? {
        if call == "commands" {
            command.variant()?;
            lines.add(format!("command {:#x} at {at:#x} size {}", command.cmd(), command.cmdsize()));
        }
        at += command.cmdsize() as usize;
        of_command::<H>(call, command, &mut counts, order, bytes, lines)?;
    }
    Ok(())
}

fn entries<A: FatArch>(entries: &[A], lines: &mut Lines) -> Result<()> {
    for it in entries {
        let (offset, size): (u64, u64) = (it.offset().into(), it.size().into());
        lines.add(format!("entry cpu {:#x} {:#x} at {offset:#x} size {size} align {}", it.cputype(), it.cpusubtype(), it.align()));
    }
    Ok(())
}

fn input(bytes: &[u8], lines: &mut Lines) -> Result<()> {
    lines.add(match FileKind::parse(bytes)? {
        FileKind::MachO32 | FileKind::MachO64 => "image".into(),
        FileKind::MachOFat32 => format!("fat {}", FatHeader::parse_arch32(bytes)?.len()),
        FileKind::MachOFat64 => format!("fat64 {}", FatHeader::parse_arch64(bytes)?.len()),
        FileKind::Archive => "archive".into(),
        _ => return Err("another kind of file".into()),
    });
    Ok(())
}

fn number(field: Option<u64>) -> String {
    field.map_or("none".into(), |number| number.to_string())
}

fn members(bytes: &[u8], lines: &mut Lines) -> Result<()> {
    for member in ArchiveFile::parse(bytes)?.members() {
        let it = member?;
        let (at, size) = it.file_range();
        let (date, owner, group, mode) = (number(it.date()), number(it.uid()), number(it.gid()), number(it.mode()));
        lines.add(format!("member {} at {at:#x} size {size} date {date} owner {owner} group {group} mode {mode}", quoted(it.name())));
    }
    Ok(())
}

fn answer(call: &str, bytes: &[u8], lines: &mut Lines) -> Result<()> {
    let kind = FileKind::parse(bytes);
    match call {
        "input" => input(bytes, lines),
        "members" => members(bytes, lines),
        "entries" => match kind? {
            FileKind::MachOFat32 => entries(FatHeader::parse_arch32(bytes)?, lines),
            FileKind::MachOFat64 => entries(FatHeader::parse_arch64(bytes)?, lines),
            _ => Ok(()),
        },
        _ if kind? == FileKind::MachO32 => of_image::<MachHeader32<Order>>(call, bytes, lines),
        _ => of_image::<MachHeader64<Order>>(call, bytes, lines),
    }
}

fn main() {
    let (call, bytes, _) = printed::arguments();
    let mut lines = Lines::default();
    let answer = answer(&call, &bytes, &mut lines);
    printed::print(lines, answer, call != "input");
}
