//! The images on which the tests run.
use std::fs;
use std::path::Path;

/// The images of this package and, if the crate is in its repository, those of the programs' tests.
pub fn files() -> Vec<Vec<u8>> {
    let package = Path::new(env!("CARGO_MANIFEST_DIR"));
    let mut found = Vec::new();
    add(&package.join("tests/data"), &mut found);
    add(&package.join("../../crates"), &mut found);
    assert!(found.len() >= 3);
    found
}

fn add(folder: &Path, found: &mut Vec<Vec<u8>>) {
    let Ok(entries) = fs::read_dir(folder) else {
        return;
    };
    for path in entries.map(|entry| entry.unwrap().path()) {
        if path.is_dir() {
            add(&path, found);
        } else if path.extension().is_some_and(|end| end == "macho") {
            found.push(fs::read(path).unwrap());
        }
    }
}
