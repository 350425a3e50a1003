//! Times goblin_mach: bench WORD FILE SECONDS.
#[path = "../../bench.rs"]
mod bench;
#[path = "../../calls.rs"]
mod calls;

use bench::Answer;
use goblin::error::Result;
use goblin::mach::exports::ExportInfo;
use goblin::mach::{MachO, SingleArch};

fn image_of(entry: SingleArch<'_>) -> Option<MachO<'_>> {
    match entry {
        SingleArch::MachO(image) => Some(image),
        SingleArch::Archive(_) => None,
    }
}

fn exports_stream(image: &MachO, answer: &mut Answer) -> Result<()> {
    let mut walk = image.walk_exports()?;
    while let Some(item) = walk.next() {
        let (name, info) = item?;
        let ExportInfo::Regular { address, .. } = info else { continue };
        answer.named(address, name.as_bytes());
    }
    Ok(())
}

fn imports_stream(image: &MachO, answer: &mut Answer) -> Result<()> {
    for import in image.iter_imports() {
        let import = import?;
        answer.imported(import.address, import.dylib.as_bytes(), import.name.as_bytes());
    }
    Ok(())
}

fn main() {
    calls::run(&[("exports_stream", exports_stream), ("imports_stream", imports_stream)]);
}
