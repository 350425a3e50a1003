//! The symbols of an image: their addresses, types or sections, and names.
use goblin::mach::symbols::{Nlist, N_SECT};
use goblin::mach::MachO;
use std::{env, fs};

type Any = Box<dyn std::error::Error>;

fn place(nlist: &Nlist, sections: &[String]) -> String {
    if nlist.is_stab() {
        return "stab".into();
    }
    if nlist.get_type() != N_SECT {
        return nlist.type_str().into();
    }
    match sections.get(nlist.n_sect.wrapping_sub(1)) {
        Some(section) => section.clone(),
        None => "no section".into(),
    }
}

fn main() -> Result<(), Any> {
    let bytes = fs::read(env::args().nth(1).ok_or("usage: nm FILE")?)?;
    let image = MachO::parse(&bytes, 0)?;
    let mut names = Vec::new();
    for sections in image.segments.sections() {
        for section in sections {
            let (section, _data) = section?;
            names.push(format!("{},{}", section.segname()?, section.name()?));
        }
    }
    for symbol in image.symbols() {
        let (name, nlist) = symbol?;
        let scope = if nlist.is_global() { "global" } else { "local" };
        let weak = if nlist.is_weak() { " weak" } else { "" };
        println!("{:016x} {} {scope}{weak} {name}", nlist.n_value, place(&nlist, &names));
    }
    Ok(())
}
