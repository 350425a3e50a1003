//! What dyld reads: the opcodes of an image, decoded by hand, and the binds and exports by place.
use goblin::mach::bind_opcodes::*;
use goblin::mach::exports::ExportInfo;
use goblin::mach::load_command::{CommandVariant, DyldInfoCommand};
use goblin::mach::MachO;
use std::{env, fs};

type Any = Box<dyn std::error::Error>;

fn skip_number(stream: &[u8], at: &mut usize) -> u64 {
    let (mut value, mut shift) = (0, 0);
    while let Some(byte) = stream.get(*at) {
        *at += 1;
        value |= u64::from(byte & 0x7f).checked_shl(shift).unwrap_or(0);
        shift += 7;
        if byte & 0x80 == 0 {
            break;
        }
    }
    value
}

fn decode(stream: &[u8]) -> Vec<String> {
    let (mut at, mut lines) = (0, Vec::new());
    while let Some(byte) = stream.get(at) {
        at += 1;
        let immediate = byte & BIND_IMMEDIATE_MASK;
        let line = match byte & BIND_OPCODE_MASK {
            BIND_OPCODE_DONE => "done".into(),
            BIND_OPCODE_SET_DYLIB_ORDINAL_IMM => format!("library {immediate}"),
            BIND_OPCODE_SET_DYLIB_ORDINAL_ULEB => format!("library {}", skip_number(stream, &mut at)),
            BIND_OPCODE_SET_DYLIB_SPECIAL_IMM => format!("special library {immediate:#x}"),
            BIND_OPCODE_SET_SYMBOL_TRAILING_FLAGS_IMM => {
                let name: Vec<u8> = stream[at..].iter().copied().take_while(|byte| *byte != 0).collect();
                at += name.len() + 1;
                format!("symbol {} flags {immediate:#x}", String::from_utf8_lossy(&name))
            }
            BIND_OPCODE_SET_TYPE_IMM => format!("type {immediate}"),
            BIND_OPCODE_SET_ADDEND_SLEB => format!("addend {:#x}", skip_number(stream, &mut at)),
            BIND_OPCODE_SET_SEGMENT_AND_OFFSET_ULEB => {
                format!("segment {immediate} offset {:#x}", skip_number(stream, &mut at))
            }
            BIND_OPCODE_ADD_ADDR_ULEB => format!("add {:#x}", skip_number(stream, &mut at)),
            BIND_OPCODE_DO_BIND => "bind".into(),
            BIND_OPCODE_DO_BIND_ADD_ADDR_ULEB => format!("bind, add {:#x}", skip_number(stream, &mut at)),
            BIND_OPCODE_DO_BIND_ADD_ADDR_IMM_SCALED => format!("bind, add pointers {immediate}"),
            BIND_OPCODE_DO_BIND_ULEB_TIMES_SKIPPING_ULEB => {
                let times = skip_number(stream, &mut at);
                format!("bind {times} times, skip {:#x}", skip_number(stream, &mut at))
            }
            opcode => format!("opcode {opcode:#x}"),
        };
        lines.push(line);
    }
    lines
}

fn info(image: &MachO) -> Option<DyldInfoCommand> {
    image.load_commands.iter().find_map(|command| match command.command {
        CommandVariant::DyldInfo(info) | CommandVariant::DyldInfoOnly(info) => Some(info),
        _ => None,
    })
}

fn section_at(image: &MachO, address: u64) -> Result<String, Any> {
    for segment in image.segments.iter() {
        for (section, _data) in segment.sections()? {
            if (section.addr..section.addr + section.size).contains(&address) {
                return Ok(format!("{} {}", segment.name()?, section.name()?));
            }
        }
    }
    Ok("nowhere".into())
}

fn main() -> Result<(), Any> {
    let bytes = fs::read(env::args().nth(1).ok_or("usage: opcodes FILE")?)?;
    let image = MachO::parse(&bytes, 0)?;
    if let Some(info) = info(&image) {
        let streams = [("bind", info.bind_off, info.bind_size), ("lazy", info.lazy_bind_off, info.lazy_bind_size)];
        for (name, start, size) in streams {
            println!("{name}:");
            let stream = bytes.get(start as usize..start as usize + size as usize).unwrap_or(&[]);
            decode(stream).iter().for_each(|line| println!("  {line}"));
        }
    }
    for import in image.imports()? {
        let (place, kind) = (section_at(&image, import.address)?, if import.is_lazy { "lazy" } else { "now" });
        println!("{place} {:#x} {kind} {} {} {:+}", import.address, import.dylib, import.name, import.addend);
    }
    for export in image.exports()? {
        match export.info {
            ExportInfo::Regular { address, .. } => println!("export {} at {address:#x}", export.name),
            ExportInfo::Reexport { lib, lib_symbol_name, .. } => {
                println!("export {} from {lib} {}", export.name, lib_symbol_name.unwrap_or("by its name"))
            }
            ExportInfo::Stub { .. } => println!("export {} by a stub", export.name),
        }
    }
    Ok(())
}
