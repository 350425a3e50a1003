//! Prints the symbol at each address: `symbolize FILE ADDRESS..`, with addresses in hexadecimal.
use goblin_mach::{AddressMap, MachO};
use std::{env, error::Error, fs};

fn main() -> Result<(), Box<dyn Error>> {
    let mut words = env::args().skip(1);
    let bytes = fs::read(words.next().ok_or("usage: symbolize FILE ADDRESS..")?)?;
    let image = MachO::parse(&bytes, 0)?;
    let map = AddressMap::new(&image)?;
    for word in words {
        let address = u64::from_str_radix(word.trim_start_matches("0x"), 16)?;
        match map.look_up(address).symbol {
            Some(found) => println!("{address:#x} {}+{:#x}", found.name, found.distance),
            None => println!("{address:#x} no symbol"),
        }
    }
    Ok(())
}
