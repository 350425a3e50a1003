//! Each allocation is refused in turn. The result is then `Error::Memory`, and never an abort or a panic.
#![cfg(all(feature = "layout", feature = "write"))]
#[path = "../common/mod.rs"]
mod common;
mod growths;
mod none;
#[path = "../common/samples.rs"]
mod samples;

use goblin_mach::exports::ExportInfo;
use goblin_mach::write::{FatEntry, Form, create, fat_order};
use goblin_mach::{
    AddressMap, AllStretches, AllocError, Error, LinkView, Mach, MachO, MultiArch, SingleArch,
    SymbolMap, layout, link_view,
};
use samples::{FILE_A, FILE_B, FILE_C};
use std::alloc::{GlobalAlloc, Layout, System};
use std::cell::Cell;
use std::ptr;

thread_local! {
    // How many allocations are granted before one is refused.
    static LEFT: Cell<usize> = const { Cell::new(usize::MAX) };
    // Whether all are granted after one that is refused.
    static ONCE: Cell<bool> = const { Cell::new(false) };
    // The most bytes that an allocation may have.
    static MOST: Cell<usize> = const { Cell::new(usize::MAX) };
}

/// The allocator of std, until as many allocations were made as are left.
struct Scarce;

fn may(size: usize) -> bool {
    let take = |left: &Cell<usize>| match left.get() {
        usize::MAX => true,
        0 => {
            if ONCE.get() {
                left.set(usize::MAX);
            }
            false
        }
        n => {
            left.set(n - 1);
            true
        }
    };
    let fits = MOST.try_with(|most| size <= most.get()).unwrap_or(true);
    fits && LEFT.try_with(take).unwrap_or(true)
}

unsafe impl GlobalAlloc for Scarce {
    unsafe fn alloc(&self, layout: Layout) -> *mut u8 {
        if may(layout.size()) {
            unsafe { System.alloc(layout) }
        } else {
            ptr::null_mut()
        }
    }
    unsafe fn dealloc(&self, at: *mut u8, layout: Layout) {
        unsafe { System.dealloc(at, layout) }
    }
    unsafe fn realloc(&self, at: *mut u8, layout: Layout, size: usize) -> *mut u8 {
        if may(size) {
            unsafe { System.realloc(at, layout, size) }
        } else {
            ptr::null_mut()
        }
    }
}

#[global_allocator]
static ALLOC: Scarce = Scarce;

/// The result, if it is not refused memory.
fn unless_memory<T>(result: Result<T, Error>) -> Result<Result<T, Error>, Error> {
    match result {
        Err(Error::Memory(error)) => Err(Error::Memory(error)),
        other => Ok(other),
    }
}

/// Calls all that allocates, and returns the number of items.
fn work(bytes: &[u8]) -> Result<usize, Error> {
    let mut count = 0;
    if let Ok(image) = unless_memory(MachO::parse(bytes, 0))? {
        count += unless_memory(image.exports())?.map_or(0, |all| all.len());
        count += unless_memory(image.imports())?.map_or(0, |all| all.len());
        count += unless_memory(image.relocations())?.map_or(0, |all| all.len());
        count += layout::layout_faults(&image)?.len();
        count += SymbolMap::new(&image)?.len();
        count += usize::from(AddressMap::new(&image)?.look_up(0).section.is_some());
        count += usize::from(AllStretches::of_image(&image)?.first_with(0).is_some());
        let mut walk = image.walk_exports()?;
        while let Some(item) = walk.next() {
            count += usize::from(unless_memory(item)?.is_ok());
        }
        count += usize::from(unless_memory(image.find_export("_main"))?.is_ok());
    }
    for item in unless_memory(link_view(bytes))?.unwrap_or_default() {
        if let Ok(LinkView::Image { exports, imports }) = unless_memory(item)? {
            count += exports.len() + imports.len();
        }
    }
    Ok(count)
}

/// Calls `work` with no allocation allowed, then one, and so on, until it returns what it returns with memory enough.
fn each_in_turn<T: PartialEq + std::fmt::Debug>(work: impl Fn() -> Result<T, Error>) -> usize {
    let wanted = work().unwrap();
    for left in 0.. {
        LEFT.set(left);
        let result = work();
        LEFT.set(usize::MAX);
        match result {
            Ok(found) => {
                assert_eq!(found, wanted);
                return left;
            }
            Err(Error::Memory(_)) => {}
            Err(error) => panic!("{error}"),
        }
    }
    unreachable!()
}

#[test]
fn readers_out_of_memory() {
    let refused: usize = common::files()
        .iter()
        .map(|bytes| each_in_turn(|| work(bytes)))
        .sum();
    assert!(refused > 30);
}

/// Lossy mode leaves out no library because memory was refused.
#[test]
fn lossy_mode_out_of_memory() {
    let opened = |bytes: &[u8], libraries: &[&str]| match Mach::parse_lossy(bytes)? {
        Mach::Binary(image) => Ok(image.libs == libraries),
        Mach::Fat(_) => panic!("an image"),
    };
    for (bytes, libraries) in [(&FILE_A[..], &["self"][..]), (FILE_B, &["self", "L"])] {
        assert!(opened(bytes, libraries).unwrap());
        assert!(each_in_turn(|| opened(bytes, libraries)) > 0);
    }
}

#[cfg(feature = "resolve")]
#[test]
fn resolve_out_of_memory() {
    use goblin_mach::resolve::{Given, ResolveFailure, resolve};
    let given = |path, bytes| Given { path, bytes };
    let program = given("p.macho", &include_bytes!("../data/p.macho")[..]);
    let libraries = [
        given("l.macho", &include_bytes!("../data/l.macho")[..]),
        given("m.macho", include_bytes!("../data/m.macho")),
    ];
    let refused = each_in_turn(|| match resolve(program, &libraries) {
        Ok(resolved) => Ok(resolved),
        Err(ResolveFailure::Memory) => Err(Error::Memory(AllocError)),
        Err(failure) => panic!("{failure}"),
    });
    assert!(refused > 30);
}

#[cfg(feature = "audit")]
#[test]
fn audit_out_of_memory() {
    use goblin_mach::audit::audit;
    let refused = each_in_turn(|| {
        let report = audit(FILE_C, 1000)?;
        Ok(report.verdict())
    });
    assert!(refused > 10);
}

#[test]
fn records_out_of_memory() {
    let file = MultiArch::new(FILE_C).unwrap();
    let refused = each_in_turn(|| file.arches().map(|records| records.len()));
    assert!(refused > 0);
    let refused = each_in_turn(|| {
        file.get(0)
            .map(|entry| matches!(entry, SingleArch::MachO(_)))
    });
    assert!(refused > 1);
}

/// The entry that needs memory is one error, and the archive after it needs none.
#[test]
fn entries_out_of_memory() {
    let file = MultiArch::new(FILE_C).unwrap();
    for left in 0.. {
        let mut entries = file.into_iter();
        LEFT.set(left);
        let items = [entries.next(), entries.next(), entries.next()];
        LEFT.set(usize::MAX);
        let [image, archive, none] = items;
        assert!(matches!(archive, Some(Ok(SingleArch::Archive(bytes))) if bytes.len() == 16));
        assert!(none.is_none());
        match image {
            Some(Err(Error::Memory(_))) => {}
            Some(Ok(SingleArch::MachO(_))) if left > 1 => return,
            other => panic!("{other:?} with {left} allocations"),
        }
    }
}

/// Refused memory is the result of the whole view, and never an item of it.
#[test]
fn view_out_of_memory() {
    let viewed = || {
        let items = link_view(FILE_C)?;
        let is_refused = |item: &Result<LinkView, Error>| matches!(item, Err(Error::Memory(_)));
        Ok((items.len(), items.iter().any(is_refused)))
    };
    assert_eq!(viewed().unwrap(), (2, false));
    assert!(each_in_turn(viewed) > 1);
}

#[test]
fn writers() {
    let files = common::files();
    let images: Vec<&[u8]> = files
        .iter()
        .map(Vec::as_slice)
        .filter(|bytes| MachO::parse(bytes, 0).is_ok())
        .collect();
    let made = || match create(Form::Bits32, &images[..1]) {
        Ok(file) => Ok(file),
        Err(refusal) => {
            LEFT.set(usize::MAX);
            assert!(format!("{refusal:?}").contains("out of memory"));
            Err(Error::Memory(AllocError))
        }
    };
    assert!(each_in_turn(made) > 0);
}

/// The order of entries is stable, and entries are unchanged if memory is refused.
#[test]
fn order_of_entries() {
    let entries: Vec<FatEntry> = (0..1_000u32)
        .map(|n| FatEntry {
            cputype: 7 + n % 5,
            cpusubtype: n % 3,
            align: 12 + n % 2,
            bytes: &[],
        })
        .collect();
    let shown = |entries: &[FatEntry]| {
        format!(
            "{:?}",
            entries
                .iter()
                .map(|e| (e.cputype, e.cpusubtype, e.align))
                .collect::<Vec<_>>()
        )
    };
    let unchanged = shown(&entries);
    each_in_turn(|| {
        let left = LEFT.replace(usize::MAX);
        let mut sorted = entries.clone();
        LEFT.set(left);
        let result = fat_order(&mut sorted);
        LEFT.set(usize::MAX);
        let found = shown(&sorted);
        assert!(result.is_ok() != (found == unchanged));
        result.map(|()| found)
    });
}

/// An image of one command, which names a trie. The trie's root has 2,000 leaves, of six bytes each, whose addresses are their
/// numbers.
fn wide_trie() -> Vec<u8> {
    let command = [0x8000_0033, 16, 48, 28_003];
    let header = [0xfeed_facf, 0x0100_0007, 3, 2, 1, 16, 0, 0];
    let words = header.into_iter().chain(command);
    let mut bytes: Vec<u8> = words.flat_map(u32::to_le_bytes).collect();
    let number = |n: u32| {
        [
            (n % 128 + 128) as u8,
            (n / 128 % 128 + 128) as u8,
            (n / 16_384) as u8,
        ]
    };
    bytes.extend([0, 0xd0, 0x0f]);
    for leaf in 0..2000 {
        bytes.extend(format!("{leaf:04}\0").into_bytes());
        bytes.extend(number(16_003 + 6 * leaf));
    }
    for leaf in 0..2000 {
        bytes.extend([4, 0]);
        bytes.extend(number(leaf));
        bytes.push(0);
    }
    bytes
}

/// A look-up takes no memory if at each node only one branch fits the name.
#[test]
fn look_ups() {
    let bytes = wide_trie();
    let image = MachO::parse(&bytes, 0).unwrap();
    for leaf in 0..2000 {
        let name = format!("{leaf:04}");
        LEFT.set(0);
        let found = image.find_export(&name);
        LEFT.set(usize::MAX);
        assert!(matches!(found, Ok(Some(ExportInfo::Regular { address, .. })) if address == leaf));
    }
}
