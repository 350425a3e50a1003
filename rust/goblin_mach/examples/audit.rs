//! Prints the faults of the layout of an image, and whether the file is sound: `audit FILE`.
use goblin_mach::audit::{ImageReport, InputReport, Report, audit};
use std::{env, error::Error, fs};

fn main() -> Result<(), Box<dyn Error>> {
    let bytes = fs::read(env::args().nth(1).ok_or("usage: audit FILE")?)?;
    let report = audit(&bytes, 1_000_000)?;
    if let InputReport::Mach(Report::Image(ImageReport::Opens(parts))) = &report {
        for fault in &parts.layout {
            println!("{fault}");
        }
    }
    println!("{}", report.verdict());
    Ok(())
}
