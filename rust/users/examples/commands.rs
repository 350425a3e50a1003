//! The header, load commands, segments, sections and relocations of an image.
use goblin::container::{Container, Ctx, Endian};
use goblin::mach::constants::SECTION_TYPE;
use goblin::mach::cputype::get_arch_name_from_types;
use goblin::mach::header::filetype_to_str;
use goblin::mach::load_command::{cmd_to_str, CommandVariant};
use goblin::mach::MachO;
use std::{env, fs};

type Any = Box<dyn std::error::Error>;

fn main() -> Result<(), Any> {
    let bytes = fs::read(env::args().nth(1).ok_or("usage: commands FILE")?)?;
    let image = MachO::parse(&bytes, 0)?;
    let container = if image.is_64 { Container::Big } else { Container::Little };
    let ctx = Ctx::new(container, Endian::from(image.little_endian));
    println!(
        "{} {:?} {} commands",
        filetype_to_str(image.header.filetype),
        get_arch_name_from_types(image.header.cputype(), image.header.cpusubtype()),
        image.header.ncmds
    );
    for command in &image.load_commands {
        let variant = &command.command;
        println!("{:#x} {} {}", command.offset, cmd_to_str(variant.cmd()), variant.cmdsize());
        match variant {
            CommandVariant::Uuid(uuid) => println!("  uuid {:02x?}", uuid.uuid),
            CommandVariant::Main(main) => println!("  entry {:#x}", main.entryoff),
            CommandVariant::LoadDylib(dylib) => println!("  version {:#x}", dylib.dylib.current_version),
            _ => {}
        }
    }
    for segment in image.segments.iter() {
        let name = segment.name()?;
        println!("segment {name} {:#x} {:#x} {} sections", segment.vmaddr, segment.vmsize, segment.nsects);
        for (section, data) in segment.sections()? {
            let kind = section.flags & SECTION_TYPE;
            println!("  section {} {:#x} type {kind:#x} {} bytes", section.name()?, section.addr, data.len());
            for relocation in section.iter_relocations(&bytes, ctx) {
                let relocation = relocation?;
                println!(
                    "    {:#x} {} type {} extern {}",
                    relocation.r_address,
                    relocation.r_symbolnum(),
                    relocation.r_type(),
                    relocation.is_extern()
                );
            }
        }
    }
    Ok(())
}
