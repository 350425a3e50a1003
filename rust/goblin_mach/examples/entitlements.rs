//! Prints the entitlements of an image, in XML: `entitlements FILE`.
use goblin_mach::MachO;
use std::io::{self, Write};
use std::{env, error::Error, fs};

fn main() -> Result<(), Box<dyn Error>> {
    let bytes = fs::read(env::args().nth(1).ok_or("usage: entitlements FILE")?)?;
    let image = MachO::parse(&bytes, 0)?;
    let Some(signature) = image.code_signature()? else {
        println!("not signed");
        return Ok(());
    };
    match signature.entitlements()? {
        Some(text) => io::stdout().write_all(text)?,
        None => println!("no entitlements"),
    }
    Ok(())
}
