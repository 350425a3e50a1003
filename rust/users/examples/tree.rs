//! What a packager reads: the tree of libraries from a file on, among the files of its folder, and which import is where.
use goblin::mach::MachO;
use std::collections::BTreeSet;
use std::path::{Path, PathBuf};
use std::{env, fs};

type Any = Box<dyn std::error::Error>;

// Returns the file of the folder whose name as a library is the given one.
fn provider(folder: &Path, name: &str) -> Option<PathBuf> {
    let mut paths: Vec<PathBuf> = fs::read_dir(folder).ok()?.filter_map(|entry| Some(entry.ok()?.path())).collect();
    paths.sort();
    paths.into_iter().find(|path| {
        let bytes = fs::read(path).unwrap_or_default();
        MachO::parse(&bytes, 0).map_or(false, |image| image.name == Some(name))
    })
}

fn exports(path: &Path) -> Result<BTreeSet<String>, Any> {
    let bytes = fs::read(path)?;
    let image = MachO::parse(&bytes, 0)?;
    Ok(image.exports()?.into_iter().map(|export| export.name.to_string()).collect())
}

fn show(path: &Path, depth: usize, seen: &mut BTreeSet<PathBuf>) -> Result<(), Any> {
    let bytes = fs::read(path)?;
    let image = MachO::parse(&bytes, 0)?;
    let (folder, margin) = (path.parent().unwrap_or(Path::new(".")), "  ".repeat(depth));
    println!("{margin}{} entry {:#x}", image.name.unwrap_or("program"), image.entry);
    let imports = image.imports()?;
    for library in image.libs.iter().filter(|library| **library != "self") {
        let found = provider(folder, library);
        let there = found.as_deref().map_or(Ok(BTreeSet::new()), exports)?;
        let names: BTreeSet<&str> = imports.iter().filter(|one| one.dylib == *library).map(|one| one.name).collect();
        println!("{margin}  {library} in the folder: {}, {} names of it", found.is_some(), names.len());
        for name in names {
            println!("{margin}    {name} {}", if there.contains(name) { "is exported" } else { "is not exported" });
        }
        if let Some(found) = found.filter(|found| seen.insert(found.clone())) {
            show(&found, depth + 1, seen)?;
        }
    }
    Ok(())
}

fn main() -> Result<(), Any> {
    let path = PathBuf::from(env::args().nth(1).ok_or("usage: tree FILE")?);
    show(&path, 0, &mut BTreeSet::from([path.clone()]))
}
