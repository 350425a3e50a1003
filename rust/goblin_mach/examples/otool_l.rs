//! Prints the load commands and the libraries of each image of a file: `otool_l FILE`.
use goblin_mach::Input;
use std::{env, error::Error, fs};

fn main() -> Result<(), Box<dyn Error>> {
    let bytes = fs::read(env::args().nth(1).ok_or("usage: otool_l FILE")?)?;
    for image in Input::parse(&bytes)?.machos() {
        let image = image?;
        for command in &image.load_commands {
            println!("{:#x} {:#x?}", command.offset, command.command);
        }
        for library in image.libraries() {
            println!("{} {:?}", library.name, library.kind);
        }
        for path in &image.rpaths {
            println!("searched in {path}");
        }
    }
    Ok(())
}
