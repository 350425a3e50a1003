//! Tables of load commands as iterators of their own: beginnings of a file, and how much is left.
use goblin_mach::load_command::{CommandVariant, LinkeditDataCommand, LoadCommand};
use goblin_mach::{
    BuildToolIterator, DataInCodeIterator, FunctionStarts, LE, LinkerOptionIterator, NoteIterator,
};

const BASE: u64 = 0x1_0000_0000;

/// The offset of the first table.
const STREAM: u32 = 0x100;

fn words(numbers: &[u32]) -> Vec<u8> {
    numbers.iter().flat_map(|it| it.to_le_bytes()).collect()
}

fn linkedit(cmd: u32, dataoff: u32, datasize: u32) -> Vec<u8> {
    words(&[cmd, 16, dataoff, datasize])
}

/// Five commands, and at `STREAM` the bytes of their tables.
fn file() -> Vec<u8> {
    let mut bytes = [
        linkedit(0x26, STREAM, 4),
        linkedit(0x29, STREAM + 4, 16),
        words(&[0x2d, 16, 2]),
        b"a\0b\0".to_vec(),
        words(&[0x32, 32, 1, 0, 0, 1, 3, 1]),
        words(&[0x31, 40]),
        b"0123456789abcdef".to_vec(),
        words(&[STREAM + 8, 0, 12, 0]),
    ]
    .concat();
    bytes.resize(STREAM as usize, 0);
    bytes.extend([0x80, 0x0c, 0x10, 0x20]);
    bytes.extend([1, 2, 3, 4, 5, 6, 7, 8].repeat(2));
    bytes
}

fn commands(bytes: &[u8], count: usize) -> Vec<LoadCommand> {
    let mut place = 0;
    (0..count)
        .map(|_| LoadCommand::parse(bytes, &mut place, LE).unwrap())
        .collect()
}

/// The places of the function starts and of the data in code.
fn places(commands: &[LoadCommand]) -> (LinkeditDataCommand, LinkeditDataCommand) {
    match [&commands[0].command, &commands[1].command] {
        [
            CommandVariant::FunctionStarts(starts),
            CommandVariant::DataInCode(entries),
        ] => (*starts, *entries),
        _ => panic!("function starts and data in code"),
    }
}

/// How many items of all tables can be read.
fn readable(bytes: &[u8], commands: &[LoadCommand]) -> usize {
    let (starts, entries) = places(commands);
    FunctionStarts::new(bytes, &starts)
        .iter(BASE)
        .flatten()
        .count()
        + DataInCodeIterator::new(bytes, &entries, LE)
            .flatten()
            .count()
        + LinkerOptionIterator::new(bytes, commands).flatten().count()
        + BuildToolIterator::new(bytes, commands, LE)
            .flatten()
            .count()
        + NoteIterator::new(bytes, commands).flatten().count()
}

// A beginning of a file, with the commands of the whole one, gives what the whole one gives, up to an error.
#[test]
fn every_prefix() {
    let bytes = file();
    let found = commands(&bytes, 5);
    let (starts, _) = places(&found);
    let all: Vec<_> = FunctionStarts::new(&bytes, &starts)
        .iter(BASE)
        .map(|it| it.unwrap())
        .collect();
    assert_eq!(all, [0x1_0000_0600, 0x1_0000_0610, 0x1_0000_0630]);
    let mut counts = vec![0];
    for len in 0..=bytes.len() {
        let prefix = &bytes[..len];
        let mut given = FunctionStarts::new(prefix, &starts).iter(BASE);
        let good: Vec<_> = given.by_ref().map_while(Result::ok).collect();
        assert!(all.starts_with(&good), "{len} bytes");
        assert!(given.next().is_none());
        counts.push(readable(prefix, &found));
    }
    assert!(counts.is_sorted());
    counts.dedup();
    assert_eq!(counts.last(), Some(&9));
    assert_eq!(counts.len(), 9);
}

// The command claims 536,870,911 entries, and the file has ten thousand.
#[test]
fn entries_left() {
    let mut bytes = linkedit(0x29, 16, u32::MAX);
    bytes.resize(16 + 80_000, 1);
    let found = commands(&bytes, 1);
    let CommandVariant::DataInCode(entries) = found[0].command else {
        panic!("data in code");
    };
    let mut all = DataInCodeIterator::new(&bytes, &entries, LE);
    assert_eq!(all.len(), 536_870_911);
    let places = all.by_ref().take(10_000).map(|it| it.unwrap().offset);
    assert!(places.into_iter().all(|offset| offset == 0x0101_0101));
    assert_eq!(all.len(), 536_860_911);
    assert!(all.next().unwrap().is_err());
    assert!(all.next().unwrap().is_err());
    assert_eq!(all.size_hint(), (536_860_909, Some(536_860_909)));
}
