//! Prints what an image has at each address: `address FILE ADDRESS..`, with addresses in hexadecimal.
use goblin_mach::{FoundAt, MachO};
use std::{env, error::Error, fs};

fn main() -> Result<(), Box<dyn Error>> {
    let mut words = env::args().skip(1);
    let bytes = fs::read(words.next().ok_or("usage: address FILE ADDRESS..")?)?;
    let image = MachO::parse(&bytes, 0)?;
    for word in words {
        let address = u64::from_str_radix(word.trim_start_matches("0x"), 16)?;
        let found = FoundAt::look_up(&image, address);
        print!("{address:#x}");
        match &found.section {
            Some(section) => print!(" {},{}", section.segname()?, section.name()?),
            None => print!(" no section"),
        }
        if let Some(symbol) = &found.symbol {
            print!(" {}+{:#x}", symbol.name, symbol.distance);
        }
        if let Some(function) = &found.function {
            print!(" function {:#x}..{:#x}", function.start, function.end);
        }
        println!();
    }
    Ok(())
}
