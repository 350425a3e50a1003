//! What a symbol server reads: the debug id, the cpu, the kind and the symbols of each image of a file.
use goblin::mach::constants::cputype::get_arch_name_from_types;
use goblin::mach::header::{MH_BUNDLE, MH_CORE, MH_DSYM, MH_DYLIB, MH_EXECUTE, MH_OBJECT};
use goblin::mach::load_command::CommandVariant;
use goblin::mach::symbols::{N_SECT, N_TYPE};
use goblin::mach::{Mach, MachO};
use std::collections::BTreeMap;
use std::{env, fs};

type Any = Box<dyn std::error::Error>;

fn kind(image: &MachO) -> &'static str {
    match image.header.filetype {
        MH_OBJECT => "object",
        MH_EXECUTE => "executable",
        MH_DYLIB => "library",
        MH_BUNDLE => "bundle",
        MH_DSYM => "debug",
        MH_CORE => "dump",
        _ => "other",
    }
}

fn debug_id(image: &MachO) -> String {
    for command in &image.load_commands {
        if let CommandVariant::Uuid(found) = command.command {
            return found.uuid.iter().map(|byte| format!("{byte:02x}")).collect();
        }
    }
    "none".into()
}

fn load_address(image: &MachO) -> u64 {
    let text = image.segments.iter().find(|segment| matches!(segment.name(), Ok("__TEXT")));
    text.map_or(0, |segment| segment.vmaddr)
}

fn has_section(image: &MachO, wanted: &str) -> Result<bool, Any> {
    for segment in &image.segments {
        for section in segment {
            let (section, data) = section?;
            if section.name()? == wanted && !data.is_empty() {
                return Ok(true);
            }
        }
    }
    Ok(false)
}

fn symbols<'a>(image: &'a MachO) -> BTreeMap<u64, &'a str> {
    let mut found = BTreeMap::new();
    for (name, nlist) in image.symbols().filter_map(Result::ok) {
        let is_code = nlist.n_type & N_TYPE == N_SECT && nlist.n_sect != 0;
        if !nlist.is_stab() && is_code && !name.is_empty() {
            let shown = name.strip_prefix('_').unwrap_or(name);
            found.entry(nlist.n_value.wrapping_sub(load_address(image))).or_insert(shown);
        }
    }
    found
}

fn show(image: &MachO) -> Result<(), Any> {
    let arch = get_arch_name_from_types(image.header.cputype(), image.header.cpusubtype());
    println!("{} {} {}", debug_id(image), arch.unwrap_or("unknown"), kind(image));
    println!("loads at {:#x}, 64 bits {}", load_address(image), image.is_64);
    for section in ["__debug_info", "__eh_frame", "__unwind_info"] {
        println!("{section} {}", has_section(image, section)?);
    }
    for (address, name) in symbols(image) {
        println!("{address:#x} {name}");
    }
    Ok(())
}

fn main() -> Result<(), Any> {
    let bytes = fs::read(env::args().nth(1).ok_or("usage: debug_ids FILE")?)?;
    match Mach::parse(&bytes)? {
        Mach::Binary(image) => show(&image),
        Mach::Fat(fat) => fat.iter_arches().try_for_each(|arch| {
            let arch = arch?;
            match MachO::parse(arch.slice(&bytes), 0) {
                Ok(image) => show(&image),
                Err(_) => Ok(println!("no image at {:#x}", arch.offset)),
            }
        }),
    }
}
