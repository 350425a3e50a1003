//! The function on the first page of `goblin_mach` for a program that reads ELF and PE too.
use goblin_mach::mach::Mach;

/// Prints the libraries that a program loads, whatever system it is for.
pub fn libraries(bytes: &[u8]) -> Result<(), Box<dyn std::error::Error>> {
    match goblin_mach::Object::parse(bytes)? {
        goblin_mach::Object::Mach(Mach::Binary(image)) => println!("{:?}", image.libs),
        goblin_mach::Object::Mach(Mach::Fat(file)) => println!("{} images", file.narches),
        _ => match goblin::Object::parse(bytes)? {
            goblin::Object::Elf(elf) => println!("{:?}", elf.libraries),
            goblin::Object::PE(pe) => println!("{:?}", pe.libraries),
            _ => println!("another kind of file"),
        },
    }
    Ok(())
}

#[test]
fn is_that_of_the_page() {
    let page = include_str!("../../../goblin_mach/README.md");
    let code = page
        .split("```rust,ignore\n")
        .nth(1)
        .and_then(|rest| rest.split("```").next());
    assert!(include_str!("beside.rs").contains(code.unwrap()));
}

#[test]
fn reads_files_of_both_crates() {
    libraries(include_bytes!(
        "../../../../crates/machresolve/data/l.macho"
    ))
    .unwrap();
    libraries(&std::fs::read(std::env::current_exe().unwrap()).unwrap()).unwrap();
    assert!(libraries(b"no file of any kind").is_ok());
    assert!(libraries(b"short").is_err());
}
