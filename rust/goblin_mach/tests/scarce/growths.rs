//! One growth is refused in turn, and then each from it on. The result is the error of refused memory and nothing else, and the
//! same call made again returns its answer. Each call has as many refused runs as growths, so one that swallows a refusal has
//! too few.
use crate::samples::{FILE_B, FILE_C, FILE_D};
use crate::{LEFT, MOST, ONCE};
use goblin_mach::exports::ExportTrie;
use goblin_mach::fat::FatArch;
use goblin_mach::imports::BindInterpreter;
use goblin_mach::load_command::DyldInfoCommand;
use goblin_mach::segment::{Segment, Segments};
use goblin_mach::symbols::Symbols;
use goblin_mach::write::{FatEntry, fat_order, write_fat, write_fat64};
use goblin_mach::{
    AddressMap, AllStretches, Ctx, Error, Mach, MachO, MultiArch, Result, SingleArch, SymbolMap,
    link_view,
};
use std::fmt::Debug;

/// Calls with the growth of a number refused, counted from 0, and with each after it if `once` is false.
fn refusing<T>(number: usize, once: bool, call: impl FnOnce() -> T) -> T {
    ONCE.set(once);
    LEFT.set(number);
    let answer = call();
    LEFT.set(usize::MAX);
    ONCE.set(false);
    answer
}

/// Returns how many runs of a call are refused, with one growth refused in each.
fn refused_runs<T: Debug>(call: impl Fn() -> Result<T>) -> usize {
    let want = format!("{:?}", call().unwrap());
    for number in 0..100 {
        match refusing(number, true, &call) {
            Ok(got) => {
                assert_eq!(format!("{got:?}"), want, "without growth {number}");
                return number;
            }
            Err(Error::Memory(_)) => {}
            Err(error) => panic!("{error} at growth {number}"),
        }
        assert_eq!(
            format!("{:?}", call().unwrap()),
            want,
            "after growth {number}"
        );
        let dry = refusing(number, false, &call);
        assert!(matches!(dry, Err(Error::Memory(_))), "from growth {number}");
    }
    panic!("no run without a refusal");
}

/// A chain of 20 nodes, one branch each, and a node with an export.
fn chain() -> Vec<u8> {
    let node = |n: u8| [0, 1, 97, 0, (n * 6 + 6) | 0x80, 0];
    let mut bytes: Vec<u8> = (0..20).flat_map(node).collect();
    bytes[118] = 248;
    bytes.extend([2, 0, 5, 0]);
    bytes
}

/// Seven nodes with an export each, which share one list of five branches to the end.
const SHARED_LIST: [u8; 104] = [
    0, 135, 128, 0, 97, 97, 0, 174, 128, 0, 98, 97, 0, 179, 128, 0, 99, 97, 0, 184, 128, 0, 100,
    97, 0, 189, 128, 0, 101, 97, 0, 194, 128, 0, 102, 97, 0, 199, 128, 0, 103, 97, 0, 204, 128, 0,
    160, 128, 0, 0, 7, 155, 128, 0, 0, 7, 150, 128, 0, 0, 7, 145, 128, 0, 0, 7, 140, 128, 0, 0, 7,
    135, 128, 0, 0, 7, 130, 128, 0, 0, 7, 133, 128, 0, 0, 232, 128, 0, 0, 232, 128, 0, 0, 232, 128,
    0, 0, 232, 128, 0, 0, 232, 128, 0,
];

/// A bind that is repeated three times, with room for the whole count, and three single ones.
const TIMES: [u8; 9] = [0x11, 0x70, 0, 0xc0, 3, 8, 0x90, 0x90, 0x90];

/// A bind that is repeated three times, with 8 bytes between two.
const SKIPPING: [u8; 11] = [0x11, 0x40, 0x5f, 0x61, 0, 0x70, 0, 0xc0, 3, 8, 0];

fn trie(bytes: &[u8]) -> ExportTrie<'_> {
    ExportTrie::at(bytes, 0, bytes.len())
}

/// A segment of a page at an address.
pub fn page(vmaddr: u64) -> Segment<'static> {
    let mut segment = Segment::new(Ctx::default(), &[]);
    segment.vmaddr = vmaddr;
    segment.vmsize = 0x1000;
    segment
}

/// The number of growths in which the imports of a stream of binds are listed, over a segment of a page.
fn binds(bytes: &[u8]) -> usize {
    let bind_size = bytes.len() as u32;
    let command = DyldInfoCommand {
        bind_size,
        ..DyldInfoCommand::default()
    };
    let segments = [page(0)];
    let stream = BindInterpreter::new(bytes, &command);
    refused_runs(|| stream.imports(&["self", "L"], &segments, Ctx::default()))
}

/// The records of 24 symbols of the first section without names, in no order of their addresses, and the end of their names.
fn symbols() -> Vec<u8> {
    let record = |n: u8| [0, 0, 0, 0, 14, 1, 0, 0, n ^ 5, 0, 0, 0, 0, 0, 0, 0];
    (0..24).flat_map(record).chain([0]).collect()
}

/// Thirty entries for three CPUs, with falling subtypes.
fn entries() -> Vec<FatEntry<'static>> {
    let entry = |n: u32| FatEntry {
        cputype: n % 3,
        cpusubtype: 30 - n,
        align: 2,
        bytes: b"abcd",
    };
    (0..30).map(entry).collect()
}

#[test]
fn readers() {
    let image = MachO::parse(FILE_B, 0).unwrap();
    let first = &image.segments.as_slice()[0];
    assert_eq!(refused_runs(|| Mach::parse(FILE_B)), 4);
    assert_eq!(refused_runs(|| MachO::parse_lossy(FILE_B, 0)), 4);
    assert_eq!(refused_runs(|| image.exports()), 4);
    assert_eq!(refused_runs(|| image.imports()), 1);
    assert_eq!(refused_runs(|| Ok(image.relocations()?.len())), 1);
    assert_eq!(refused_runs(|| first.sections()), 1);
}

#[test]
fn maps_of_symbols() {
    let records = symbols();
    let mut image = MachO::parse(FILE_B, 0).unwrap();
    image.symbols = Some(Symbols::new(&records, 0, 24, 384).unwrap());
    let nearest = || {
        Ok(SymbolMap::new(&image)?
            .symbol_in_section(1, 9)
            .map(|found| found.index))
    };
    assert_eq!(refused_runs(nearest), 5);
}

#[test]
fn maps_of_addresses() {
    let image = MachO::parse(FILE_B, 0).unwrap();
    let found = || {
        Ok(AddressMap::new(&image)?
            .look_up(0x100000138)
            .section
            .is_some())
    };
    assert_eq!(refused_runs(found), 5);
}

#[test]
fn segments_by_addresses() {
    let image = MachO::parse(FILE_B, 0).unwrap();
    let start = image.segments.as_slice()[0].vmaddr;
    let first = || {
        let segments = AllStretches::of_image(&image)?;
        Ok(segments.first_with(start).map(|segment| segment.memory))
    };
    assert_eq!(refused_runs(first), 6);
}

#[test]
fn tries() {
    let chain = chain();
    assert_eq!(refused_runs(|| trie(&chain).exports(&[])), 6);
    assert_eq!(refused_runs(|| trie(&SHARED_LIST).exports(&[])), 12);
}

#[test]
fn streams_of_binds() {
    assert_eq!(binds(&TIMES), 2);
    assert_eq!(binds(&SKIPPING), 1);
}

#[test]
fn fat_files() {
    let is_ok = |found: Result<FatArch>| found.is_ok();
    assert_eq!(refused_runs(|| MultiArch::new(FILE_C)?.arches()), 1);
    assert_eq!(refused_runs(|| MultiArch::new(FILE_C)?.get(0)), 4);
    assert_eq!(
        refused_runs(|| MultiArch::new(FILE_C)?.find(is_ok).unwrap()),
        4
    );
    assert_eq!(refused_runs(|| link_view(FILE_C)), 11);
}

#[test]
fn written_files() {
    let entries = entries();
    assert_eq!(refused_runs(|| write_fat(&entries)), 2);
    assert_eq!(refused_runs(|| write_fat64(&entries)), 2);
}

/// An order that is refused leaves the entries as they are.
#[test]
fn ordered_entries() {
    let unchanged = format!("{:?}", entries());
    for number in 0..100 {
        let mut sorted = entries();
        let answer = refusing(number, true, || fat_order(&mut sorted));
        match answer {
            Ok(()) => return assert_eq!((number, sorted[0].cpusubtype), (3, 3)),
            Err(Error::Memory(_)) => assert_eq!(format!("{sorted:?}"), unchanged),
            Err(error) => panic!("{error}"),
        }
    }
    panic!("no run without a refusal");
}

/// An entry that is refused doesn't end the list.
#[test]
fn entries_of_a_fat_file() {
    for number in 0..4 {
        let file = MultiArch::new(FILE_C).unwrap();
        let mut entries = (&file).into_iter();
        let refused = refusing(number, true, || entries.next());
        assert!(matches!(refused, Some(Err(Error::Memory(_)))), "{number}");
        assert!(matches!(entries.next(), Some(Ok(SingleArch::Archive(_)))));
        assert!(entries.next().is_none());
    }
}

/// A segment that is refused leaves the list as it is, and can be pushed again.
#[test]
fn pushed_segments() {
    let mut runs = 0;
    for number in 0..4 {
        let mut list = Segments::new(Ctx::default());
        LEFT.set(number);
        ONCE.set(true);
        for vmaddr in 0..12 {
            if let Err(error) = list.push(page(vmaddr)) {
                assert!(matches!(error, Error::Memory(_)));
                assert_eq!(list.as_slice().len() as u64, vmaddr);
                list.push(page(vmaddr)).unwrap();
                runs += 1;
            }
        }
        LEFT.set(usize::MAX);
        ONCE.set(false);
        let places: Vec<u64> = list.iter().map(|segment| segment.vmaddr).collect();
        assert_eq!(places, (0..12).collect::<Vec<u64>>());
    }
    assert_eq!(runs, 3);
}

/// One opcode requests room for 2^64 - 1 imports.
#[test]
fn more_binds_than_memory() {
    let mut bytes = vec![0x11, 0x70, 0, 0xc0];
    bytes.extend([255; 9]);
    bytes.extend([1, 0]);
    let command = DyldInfoCommand {
        bind_size: 15,
        ..DyldInfoCommand::default()
    };
    let stream = BindInterpreter::new(&bytes, &command);
    let answer = stream.imports(&["self", "L"], &[page(0)], Ctx::default());
    assert!(matches!(answer, Err(Error::Memory(_))));
}

/// The last of these entries would be at 2^32 or after it, in a file that isn't written; the one before it would not.
#[test]
fn places_of_32_bits() {
    let bytes = vec![0; 1 << 20];
    let entry = |n| FatEntry {
        cputype: 7,
        cpusubtype: n,
        align: 0,
        bytes: &bytes,
    };
    let entries: Vec<FatEntry> = (0..4097).map(entry).collect();
    MOST.set(1 << 20);
    let answers = [
        write_fat(&entries),
        write_fat(&entries[..4096]),
        write_fat64(&entries),
    ];
    MOST.set(usize::MAX);
    let [too_far, near, wide] = answers.map(Result::unwrap_err);
    assert!(matches!(too_far, Error::Malformed(_)), "{too_far}");
    assert!(matches!(near, Error::Memory(_)), "{near}");
    assert!(matches!(wide, Error::Memory(_)), "{wide}");
}

/// A growth is refused for its size, too: more memory after less isn't refused.
#[test]
fn small_growths() {
    let image = MachO::parse(FILE_D, 0).unwrap();
    let entries = entries();
    let calls: [&dyn Fn() -> Result<usize>; 5] = [
        &|| Ok(MachO::parse(FILE_B, 0)?.load_commands.len()),
        &|| Ok(image.exports()?.len()),
        &|| Ok(image.imports()?.len()),
        &|| Ok(link_view(FILE_C)?.len()),
        &|| Ok(write_fat(&entries)?.len()),
    ];
    for call in calls {
        let want = call().unwrap();
        let mut given = 0;
        for most in 0..2048 {
            MOST.set(8 * most);
            let answer = call();
            MOST.set(usize::MAX);
            match answer {
                Ok(found) => {
                    assert_eq!(found, want);
                    given += 1;
                }
                Err(error) => assert!(matches!(error, Error::Memory(_)) && given == 0),
            }
        }
        assert!(given > 1);
    }
}
