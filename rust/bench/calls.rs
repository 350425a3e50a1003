//! The calls of goblin, in one source for goblin and for goblin_mach.
use crate::bench::Answer;
use goblin::error::Result;
use goblin::mach::{Mach, MachO};

pub fn exports(image: &MachO, answer: &mut Answer) -> Result<()> {
    for export in &image.exports()? {
        answer.named(export.offset, export.name.as_bytes());
    }
    Ok(())
}

pub fn imports(image: &MachO, answer: &mut Answer) -> Result<()> {
    for import in &image.imports()? {
        answer.imported(import.address, import.dylib.as_bytes(), import.name.as_bytes());
    }
    Ok(())
}

pub fn symbols(image: &MachO, answer: &mut Answer) -> Result<()> {
    for symbol in image.symbols() {
        let (name, nlist) = symbol?;
        answer.named(nlist.n_value, name.as_bytes());
    }
    Ok(())
}

pub fn relocations(image: &MachO, answer: &mut Answer) -> Result<()> {
    for (number, relocations, _) in image.relocations()? {
        for relocation in relocations {
            let relocation = relocation?;
            answer.relocated(number as u64, relocation.r_address as u32, relocation.r_info);
        }
    }
    Ok(())
}

pub fn parse(bytes: &[u8], answer: &mut Answer) -> Result<()> {
    answer.count(match Mach::parse(bytes)? {
        Mach::Fat(file) => file.arches()?.len(),
        Mach::Binary(image) => image.load_commands.len(),
    });
    Ok(())
}

fn both(image: &MachO, answer: &mut Answer) -> Result<()> {
    exports(image, answer)?;
    imports(image, answer)
}

pub fn link_view(bytes: &[u8], answer: &mut Answer) -> Result<()> {
    match Mach::parse(bytes)? {
        Mach::Fat(file) => {
            for entry in &file {
                if let Some(image) = crate::image_of(entry?) {
                    both(&image, answer)?;
                }
            }
            Ok(())
        }
        Mach::Binary(image) => both(&image, answer),
    }
}

type Call = fn(&MachO, &mut Answer) -> Result<()>;

/// Times the call that the arguments name. `more` has calls that only one of the crates has.
pub fn run(more: &[(&str, Call)]) {
    let (word, bytes, seconds) = crate::bench::arguments();
    let of_files = [("parse", parse as fn(&[u8], &mut Answer) -> Result<()>), ("link_view", link_view)];
    let of_images = [("exports", exports as Call), ("imports", imports), ("symbols", symbols), ("relocations", relocations)];
    if let Some((_, call)) = of_files.iter().find(|(name, _)| *name == word) {
        crate::bench::bench(seconds, |answer| call(&bytes, answer).unwrap());
    } else if let Some((_, call)) = of_images.iter().chain(more).find(|(name, _)| *name == word) {
        let image = MachO::parse(&bytes, 0).unwrap();
        crate::bench::bench(seconds, |answer| call(&image, answer).unwrap());
    } else {
        crate::bench::usage("there is no such word")
    }
}
