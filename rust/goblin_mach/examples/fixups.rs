//! Prints what dyld writes into an image that it loads: `fixups FILE`.
use goblin_mach::{MachO, Provider};
use std::{env, error::Error, fs};

fn main() -> Result<(), Box<dyn Error>> {
    let bytes = fs::read(env::args().nth(1).ok_or("usage: fixups FILE")?)?;
    let image = MachO::parse(&bytes, 0)?;
    for rebase in image.rebases() {
        let rebase = rebase?;
        println!("{:#x} rebase {:x?}", rebase.address, rebase.target);
    }
    for binding in image.bindings() {
        let binding = binding?;
        let from = match binding.provider {
            Provider::Library { name, .. } => name,
            _ => "no library by name",
        };
        println!("{:#x} bind {} of {from}", binding.address, binding.name);
    }
    Ok(())
}
