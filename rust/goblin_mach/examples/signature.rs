//! Prints who an image is signed as, and each fault of the signature: `signature FILE`. Who signed is not verified.
use goblin_mach::MachO;
use goblin_mach::signature::image::{code_directory, signature_faults};
use std::{env, error::Error, fs};

fn main() -> Result<(), Box<dyn Error>> {
    let bytes = fs::read(env::args().nth(1).ok_or("usage: signature FILE")?)?;
    let image = MachO::parse(&bytes, 0)?;
    let Some(directory) = code_directory(&image)? else {
        println!("not signed");
        return Ok(());
    };
    println!(
        "{} of team {}",
        directory.identifier()?.unwrap_or("-"),
        directory.team()?.unwrap_or("-")
    );
    let hash: String = directory
        .cdhash()
        .iter()
        .map(|byte| format!("{byte:02x}"))
        .collect();
    println!("code directory {hash}, {} pages", directory.page_count());
    let mut count = 0;
    for fault in signature_faults(&image)?.into_iter().flatten() {
        println!("{fault:?}");
        count += 1;
    }
    println!("{count} faults");
    Ok(())
}
