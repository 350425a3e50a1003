//! The calls that take no memory succeed if each growth would be refused.
use crate::LEFT;
use crate::growths::page;
use crate::samples::{FILE_B, FILE_C, FILE_D};
use goblin_mach::exports::{Export, ExportInfo, ExportTrie};
use goblin_mach::segment::Segments;
use goblin_mach::{Ctx, Error, Mach, MachO, MultiArch, Steps};

/// Makes calls while each growth is refused.
fn without_memory<T>(calls: impl FnOnce() -> T) -> T {
    LEFT.set(0);
    let answer = calls();
    LEFT.set(usize::MAX);
    answer
}

/// How many items there are, if all are `Ok`.
fn count<T>(items: impl Iterator<Item = Result<T, Error>>) -> Option<usize> {
    items
        .map(|item| item.ok())
        .try_fold(0, |count, item| item.map(|_| count + 1))
}

#[test]
fn lists_of_segments() {
    let mut list = Segments::new(Ctx::default());
    list.push(page(0)).unwrap();
    let found = without_memory(|| {
        let is_none = Segments::new(Ctx::default()).get_mut(0).is_none();
        let counts = (
            list.as_slice().len(),
            list.iter().count(),
            (&list).into_iter().count(),
        );
        let is_some = list.sections().next().is_some();
        (is_none, counts, is_some && list.get_mut(0).is_some())
    });
    assert_eq!(found, (true, (1, 1, 1), true));
}

#[test]
fn images() {
    let image = MachO::parse(FILE_B, 0).unwrap();
    let found = without_memory(|| {
        let counts = (
            count(image.symbols()),
            count(image.iter_imports()),
            image.libraries().count(),
        );
        let is_there = matches!(image.find_export("a"), Ok(Some(_)));
        let is_missing = matches!(image.find_export("b"), Ok(None));
        let is_bare = !image.is_object_file() && image.notes().next().is_none();
        (counts, is_there, is_missing, is_bare)
    });
    assert_eq!(found, ((Some(1), Some(2), 1), true, true, true));
}

#[test]
fn what_dyld_binds() {
    let image = MachO::parse(FILE_D, 0).unwrap();
    let found = without_memory(|| {
        let chained = image.chained_fixups().unwrap().unwrap();
        let counts = (
            count(image.fixups()),
            count(image.opcode_bindings()),
            count(image.bindings()),
        );
        let is_end = image.weak_binds().next_counted(&mut Steps::new()).is_none();
        (
            image.base(),
            chained.imports().len(),
            chained.header().imports_count,
            counts,
            is_end,
        )
    });
    assert_eq!(
        found,
        (0x1_0000_0000, 1, 1, (Some(4), Some(2), Some(4)), true)
    );
}

#[test]
fn fat_files() {
    let (is_fat, entries, is_there, is_refused) = without_memory(|| {
        let is_fat = matches!(Mach::parse(FILE_C), Ok(Mach::Fat(_)));
        let is_lossy = matches!(Mach::parse_lossy(FILE_C), Ok(Mach::Fat(_)));
        let file = MultiArch::new(FILE_C).unwrap();
        let is_there = matches!(file.find_cputype(0x0100_000c), Ok(Some(_)));
        let is_refused = matches!(file.get(0), Err(Error::Memory(_)));
        (
            is_fat && is_lossy,
            count(file.iter_arches()),
            is_there,
            is_refused,
        )
    });
    assert_eq!((is_fat, entries, is_there), (true, Some(2), true));
    assert!(is_refused, "what is refused does refuse");
}

/// A trie of three names.
const EXPORTS: [u8; 64] = [
    0, 1, 0x5f, 0, 5, 0, 2, 0x5f, 0x6d, 0x68, 0x5f, 0x65, 0x78, 0x65, 0x63, 0x75, 0x74, 0x65, 0x5f,
    0x68, 0x65, 0x61, 0x64, 0x65, 0x72, 0, 0x1f, 0x6d, 0x61, 0, 0x23, 2, 0, 0, 0, 0, 2, 0x78, 0x69,
    0x6d, 0x75, 0x6d, 0, 0x30, 0x69, 0x6e, 0, 0x35, 3, 0, 0xc0, 0x1e, 0, 3, 0, 0xd0, 0x1e, 0, 0, 0,
    0, 0, 0, 0,
];

/// "a" leads to a node without branches, "ab" to one with "c".
const TWO_FIT: [u8; 21] = [
    0, 2, 0x61, 0, 10, 0x61, 0x62, 0, 12, 0, 0, 0, 0, 1, 0x63, 0, 17, 2, 0, 7, 0,
];

/// A look-up takes memory only if more than one branch fits at a node.
#[test]
fn look_ups() {
    let trie = ExportTrie::at(&EXPORTS, 0, EXPORTS.len());
    let info = ExportInfo::parse(&EXPORTS, &[], 0, 0).unwrap();
    assert_eq!(
        without_memory(|| Export::new(String::new(), info).offset),
        0
    );
    for name in ["_main", "_maximum", "__mh_execute_header"] {
        let found = without_memory(|| trie.find(&[], name));
        assert!(matches!(found, Ok(Some(_))), "{name}");
    }
    for name in ["", "_", "_ma", "_mainx", "main"] {
        let found = without_memory(|| trie.find(&[], name));
        assert!(matches!(found, Ok(None)), "{name}");
    }
    let two = ExportTrie::at(&TWO_FIT, 0, TWO_FIT.len());
    let found = without_memory(|| two.find(&[], "abc"));
    assert!(matches!(found, Err(Error::Memory(_))));
}
