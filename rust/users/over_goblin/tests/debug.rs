//! `Debug` of `goblin_mach::debug::Goblin` prints what goblin's `Debug` prints, for all images of the repository.
use goblin_mach::debug::Goblin;
use std::fmt::Debug;
use std::fs;
use std::path::Path;

fn each(folder: &Path, check: &mut dyn FnMut(&[u8])) {
    for entry in fs::read_dir(folder).unwrap() {
        let path = entry.unwrap().path();
        if path.is_dir() {
            each(&path, check);
        } else if path.extension().is_some_and(|end| end == "macho") {
            check(&fs::read(&path).unwrap());
        }
    }
}

fn shown(value: impl Debug) -> String {
    // scroll calls the size of a LEB128 number `count`.
    format!("{value:?}").replace(", count: ", ", size: ")
}

fn compare(theirs: &goblin::mach::MachO, ours: &goblin_mach::MachO) -> bool {
    // goblin 0.2.1 doesn't know some commands, and prints them in another way than this crate.
    let known = |shown: &String| !shown.contains("Unimplemented");
    let mut all = true;
    for (a, b) in theirs.load_commands.iter().zip(&ours.load_commands) {
        if known(&shown(a)) {
            assert_eq!(shown(a), shown(Goblin(b)));
            assert_eq!(format!("{a:#?}"), format!("{:#?}", Goblin(b)));
        } else {
            all = false;
        }
    }
    assert_eq!(shown(&theirs.header), shown(Goblin(&ours.header)));
    for (a, b) in theirs.segments.iter().zip(&ours.segments) {
        assert_eq!(shown(a), shown(Goblin(b)));
    }
    if all {
        assert_eq!(shown(theirs), shown(Goblin(ours)));
    }
    all
}

#[test]
fn same() {
    let crates = Path::new(env!("CARGO_MANIFEST_DIR")).join("../../../crates");
    let mut whole = 0;
    each(&crates, &mut |bytes| {
        let theirs = goblin::mach::Mach::parse(bytes);
        let ours = goblin_mach::Mach::parse(bytes);
        match (theirs, ours) {
            (Ok(goblin::mach::Mach::Binary(a)), Ok(goblin_mach::Mach::Binary(b))) => {
                whole += compare(&a, &b) as usize
            }
            (Ok(goblin::mach::Mach::Fat(a)), Ok(goblin_mach::Mach::Fat(b))) => {
                assert_eq!(shown(&a), shown(Goblin(&b)));
                for arch in a.iter_arches() {
                    let bytes = arch.unwrap().slice(bytes);
                    let theirs = goblin::mach::MachO::parse(bytes, 0);
                    let ours = goblin_mach::MachO::parse(bytes, 0);
                    match (theirs, ours) {
                        (Ok(a), Ok(b)) => whole += compare(&a, &b) as usize,
                        (Err(_), Err(_)) => {}
                        _ => panic!("one refuses"),
                    }
                }
            }
            (Err(_), Err(_)) => {}
            _ => panic!("one refuses"),
        }
    });
    assert!(whole >= 20, "only {whole} images are the same as a whole");
}

#[test]
fn small_records() {
    let theirs = goblin::mach::relocation::RelocationInfo { r_address: 0x30, r_info: 0x2d00_0002 };
    let ours = goblin_mach::relocation::RelocationInfo { r_address: 0x30, r_info: 0x2d00_0002 };
    assert_eq!(shown(theirs), shown(Goblin(&ours)));
    let theirs = goblin::mach::fat::FatHeader { magic: 0xcafe_babe, nfat_arch: 2 };
    let ours = goblin_mach::fat::FatHeader { magic: 0xcafe_babe, nfat_arch: 2 };
    assert_eq!(shown(theirs), shown(Goblin(&ours)));
    let theirs = goblin::mach::symbols::Nlist64 { n_strx: 1, n_type: 2, n_sect: 3, n_desc: 4, n_value: 5 };
    let ours = goblin_mach::symbols::Nlist64 { n_strx: 1, n_type: 2, n_sect: 3, n_desc: 4, n_value: 5 };
    assert_eq!(shown(theirs), shown(Goblin(&ours)));
    let theirs = goblin::mach::symbols::Nlist32 { n_strx: 1, n_type: 2, n_sect: 3, n_desc: 4, n_value: 5 };
    let ours = goblin_mach::symbols::Nlist32 { n_strx: 1, n_type: 2, n_sect: 3, n_desc: 4, n_value: 5 };
    assert_eq!(shown(theirs), shown(Goblin(&ours)));
}
