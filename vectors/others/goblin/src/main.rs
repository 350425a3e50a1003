//! Answers a vector by goblin: vectors_goblin CALL FILE [NAME].
#[path = "../../printed.rs"]
mod printed;

use goblin::archive::{Archive, Member};
use goblin::error::{Error, Result};
use goblin::mach::exports::ExportInfo;
use goblin::mach::{Mach, MachO};
use printed::{Lines, quoted};

/// Returns the bytes of a name of 16 bytes, up to the first zero.
fn short(name: &[u8; 16]) -> &[u8] {
    &name[..name.iter().position(|&byte| byte == 0).unwrap_or(16)]
}

fn header(image: &MachO, lines: &mut Lines) -> Result<()> {
    let (header, bits) = (&image.header, if image.is_64 { 64 } else { 32 });
    let order = if image.little_endian { "little" } else { "big" };
    let (cpu, subtype) = (header.cputype, header.cpusubtype);
    lines.add(format!("header {:#x} cpu {cpu:#x} {subtype:#x} type {} flags {:#x} {bits} {order}", header.magic, header.filetype, header.flags));
    let counts = [image.load_commands.len(), image.segments.len(), image.libs.len() - 1, image.symbols().count()];
    let thread = if image.old_style_entry { " thread" } else { "" };
    lines.add(format!("holds commands {} segments {} libraries {} symbols {} entry {:#x}{thread}", counts[0], counts[1], counts[2], counts[3], image.entry));
    Ok(())
}

fn commands(image: &MachO, lines: &mut Lines) -> Result<()> {
    for it in &image.load_commands {
        lines.add(format!("command {:#x} at {:#x} size {}", it.command.cmd(), it.offset, it.command.cmdsize()));
    }
    Ok(())
}

fn segments(image: &MachO, lines: &mut Lines) -> Result<()> {
    for it in &image.segments {
        let (name, data) = (quoted(short(&it.segname)), it.data.len());
        lines.add(format!(
            "segment {name} at {:#x} size {:#x} file {:#x} {:#x} data {data} protection {:#x} {:#x} sections {} flags {:#x}",
            it.vmaddr, it.vmsize, it.fileoff, it.filesize, it.initprot, it.maxprot, it.nsects, it.flags
        ));
    }
    Ok(())
}

fn sections(image: &MachO, lines: &mut Lines) -> Result<()> {
    for (number, segment) in image.segments.iter().enumerate() {
        for section in segment {
            let (it, data) = section?;
            lines.add(format!(
                "section {number} {} of {} at {:#x} size {:#x} offset {:#x} data {} align {} relocations {} at {:#x} flags {:#x}",
                quoted(short(&it.sectname)), quoted(short(&it.segname)), it.addr, it.size, it.offset, data.len(), it.align, it.nreloc, it.reloff, it.flags
            ));
        }
    }
    Ok(())
}

fn relocations(image: &MachO, lines: &mut Lines) -> Result<()> {
    for (_, relocations, _) in image.relocations()? {
        for it in relocations {
            let it = it?;
            lines.add(format!("relocation address {:#x} info {:#x}", it.r_address as u32, it.r_info));
        }
    }
    Ok(())
}

fn symbols(image: &MachO, lines: &mut Lines) -> Result<()> {
    for symbol in image.symbols() {
        let (name, it) = symbol?;
        let name = quoted(name.as_bytes());
        lines.add(format!("symbol {name} value {:#x} type {:#x} section {} description {:#x}", it.n_value, it.n_type, it.n_sect, it.n_desc));
    }
    Ok(())
}

fn libraries(image: &MachO, lines: &mut Lines) -> Result<()> {
    for (ordinal, name) in image.libs.iter().enumerate().skip(1) {
        lines.add(format!("library {ordinal} {}", quoted(name.as_bytes())));
    }
    Ok(())
}

fn exports(image: &MachO, lines: &mut Lines) -> Result<()> {
    for it in image.exports()? {
        let name = quoted(it.name.as_bytes());
        lines.add(match it.info {
            ExportInfo::Regular { address, flags } => format!("export {name} at {address:#x} flags {flags:#x}"),
            ExportInfo::Reexport { lib, lib_symbol_name, flags } => {
                let renamed = lib_symbol_name.map_or(String::new(), |name| format!(" as {}", quoted(name.as_bytes())));
                format!("export {name} of {}{renamed} flags {flags:#x}", quoted(lib.as_bytes()))
            }
            ExportInfo::Stub { stub_offset, resolver_offset, flags } => {
                let (stub, resolver): (u64, u64) = (stub_offset.into(), resolver_offset.into());
                format!("export {name} stub {stub:#x} resolver {resolver:#x} flags {flags:#x}")
            }
        });
    }
    Ok(())
}

fn imports(image: &MachO, lines: &mut Lines) -> Result<()> {
    for it in image.imports()? {
        let (name, library) = (quoted(it.name.as_bytes()), quoted(it.dylib.as_bytes()));
        let words = [if it.is_weak { " weak" } else { "" }, if it.is_lazy { " lazy" } else { "" }].concat();
        let start = it.start_of_sequence_offset;
        lines.add(format!("import {name} of {library} at {:#x} {:#x} size {} addend {} start {start}{words}", it.address, it.offset, it.size, it.addend));
    }
    Ok(())
}

fn mach(bytes: &[u8], lines: &mut Lines) -> Result<()> {
    lines.add(match Mach::parse(bytes)? {
        Mach::Fat(fat) => format!("fat {}", fat.narches),
        Mach::Binary(_) => "image".into(),
    });
    Ok(())
}

fn entries(bytes: &[u8], lines: &mut Lines) -> Result<()> {
    if let Mach::Fat(fat) = Mach::parse(bytes)? {
        for entry in fat.iter_arches() {
            let it = entry?;
            lines.add(format!("entry cpu {:#x} {:#x} at {:#x} size {} align {}", it.cputype, it.cpusubtype, it.offset, it.size, it.align));
        }
    }
    Ok(())
}

fn member(name: &str, it: &Member) -> String {
    format!("member {} header {:#x} at {:#x} size {}", quoted(name.as_bytes()), it.header_offset, it.offset, it.size())
}

fn members(bytes: &[u8], lines: &mut Lines) -> Result<()> {
    for (name, it, _) in Archive::parse(bytes)?.summarize() {
        lines.add(member(name, it));
    }
    Ok(())
}

fn found(bytes: &[u8], symbol: &str, lines: &mut Lines) -> Result<()> {
    let archive = Archive::parse(bytes)?;
    let summary = archive.summarize();
    let found = summary.iter().find(|(_, _, symbols)| symbols.contains(&symbol));
    lines.add(found.map_or("none".into(), |(name, it, _)| member(name, it)));
    Ok(())
}

fn of_image(call: &str, bytes: &[u8], lines: &mut Lines) -> Result<()> {
    let image = MachO::parse(bytes, 0)?;
    match call {
        "header" => header(&image, lines),
        "commands" => commands(&image, lines),
        "segments" => segments(&image, lines),
        "sections" => sections(&image, lines),
        "relocations" => relocations(&image, lines),
        "symbols" => symbols(&image, lines),
        "libraries" => libraries(&image, lines),
        "exports" => exports(&image, lines),
        "imports" => imports(&image, lines),
        _ => Err(Error::Malformed("no such call".into())),
    }
}

fn main() {
    let (call, bytes, name) = printed::arguments();
    let mut lines = Lines::default();
    let answer = match call.as_str() {
        "mach" => mach(&bytes, &mut lines),
        "entries" => entries(&bytes, &mut lines),
        "members" => members(&bytes, &mut lines),
        "archive-find" => found(&bytes, &name, &mut lines),
        _ => of_image(&call, &bytes, &mut lines),
    };
    printed::print(lines, answer, !["mach", "archive-find"].contains(&call.as_str()));
}
