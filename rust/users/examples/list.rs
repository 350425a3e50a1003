//! What a file links: the libraries, exports and imports of each image.
use goblin::mach::{Mach, MachO, MultiArch};
use std::{env, fs};

type Any = Box<dyn std::error::Error>;

fn show(image: &MachO) -> Result<(), Any> {
    println!(
        "name {:?} entry {:#x} 64 {} le {}",
        image.name, image.entry, image.is_64, image.little_endian
    );
    for lib in &image.libs {
        println!("lib {lib}");
    }
    for export in image.exports()? {
        println!("export {:#x} {} {:?}", export.offset, export.name, export.info);
    }
    for import in image.imports()? {
        println!(
            "import {:#x} {} {} {:#x} lazy {} weak {}",
            import.address, import.dylib, import.name, import.addend, import.is_lazy, import.is_weak
        );
    }
    Ok(())
}

fn show_all(fat: &MultiArch, bytes: &[u8]) -> Result<(), Any> {
    for arch in fat.iter_arches() {
        let arch = arch?;
        println!(
            "arch {:#x} {:#x} at {:#x} size {:#x} align {}",
            arch.cputype(),
            arch.cpusubtype(),
            arch.offset,
            arch.size,
            arch.align
        );
        match MachO::parse(arch.slice(bytes), 0) {
            Ok(image) => show(&image)?,
            Err(_) => println!("no image"),
        }
    }
    let wide = fat.find(|arch| arch.map(|arch| arch.is_64()).unwrap_or(false));
    println!("has an image of 64 bits: {}", wide.is_some());
    Ok(())
}

fn main() -> Result<(), Any> {
    let bytes = fs::read(env::args().nth(1).ok_or("usage: list FILE")?)?;
    match Mach::parse(&bytes)? {
        Mach::Fat(fat) => show_all(&fat, &bytes),
        Mach::Binary(image) => show(&image),
    }
}
