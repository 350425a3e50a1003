//! Prints what an image exports, each name with its address: `exports FILE`.
use goblin_mach::MachO;
use goblin_mach::exports::ExportInfo;
use std::{env, error::Error, fs};

fn main() -> Result<(), Box<dyn Error>> {
    let bytes = fs::read(env::args().nth(1).ok_or("usage: exports FILE")?)?;
    let image = MachO::parse(&bytes, 0)?;
    for export in image.exports()? {
        match (&export.info, image.export_address(&export.info)) {
            (ExportInfo::Reexport { lib, .. }, _) => println!("{} of {lib}", export.name),
            (_, Some(address)) => println!("{} {address:#x}", export.name),
            (_, None) => println!("{} at no address", export.name),
        }
    }
    Ok(())
}
