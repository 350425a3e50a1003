//! Splits a universal file: `fat_split FILE FOLDER` writes each entry as `FOLDER/0`, `FOLDER/1` and so on.
use goblin_mach::write::file_entries;
use std::{env, error::Error, fs, path::Path};

fn main() -> Result<(), Box<dyn Error>> {
    let words: Vec<String> = env::args().skip(1).collect();
    let [file, folder] = words.as_slice() else {
        return Err("usage: fat_split FILE FOLDER".into());
    };
    let bytes = fs::read(file)?;
    let entries = file_entries(&bytes).map_err(|refusal| format!("{refusal:?}"))?;
    for (number, entry) in entries.iter().enumerate() {
        fs::write(Path::new(folder).join(number.to_string()), entry.bytes)?;
        println!(
            "{number} cpu {:#x} {} bytes",
            entry.cputype,
            entry.bytes.len()
        );
    }
    Ok(())
}
