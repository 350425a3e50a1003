//! Prints the unique number of each image of a file: `uuid FILE`.
use goblin_mach::Input;
use std::{env, error::Error, fs};

fn main() -> Result<(), Box<dyn Error>> {
    let bytes = fs::read(env::args().nth(1).ok_or("usage: uuid FILE")?)?;
    for image in Input::parse(&bytes)?.machos() {
        match image?.uuid() {
            Some(uuid) => println!("{:032x}", u128::from_be_bytes(uuid)),
            None => println!("no uuid"),
        }
    }
    Ok(())
}
