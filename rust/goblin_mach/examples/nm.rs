//! Prints the symbols of each image of a file: `nm FILE`.
use goblin_mach::Input;
use std::{env, error::Error, fs};

fn main() -> Result<(), Box<dyn Error>> {
    let bytes = fs::read(env::args().nth(1).ok_or("usage: nm FILE")?)?;
    for image in Input::parse(&bytes)?.machos() {
        for symbol in image?.symbols() {
            let (name, nlist) = symbol?;
            println!("{:016x} {} {name}", nlist.n_value, nlist.type_str());
        }
    }
    Ok(())
}
