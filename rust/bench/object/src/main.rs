//! Times object's reader of load commands: bench WORD FILE SECONDS. It reads no export tries and no bind opcodes.
#[path = "../../bench.rs"]
mod bench;

use bench::Answer;
use object::macho::{FatHeader, MachHeader64};
use object::read::Result;
use object::read::macho::{LoadCommandIterator, LoadCommandVariant, MachHeader, Nlist, Section, Segment};
use object::Endianness;

type Header = MachHeader64<Endianness>;

fn commands(bytes: &[u8]) -> Result<(Endianness, LoadCommandIterator<'_, Endianness>)> {
    let header = Header::parse(bytes, 0)?;
    let endian = header.endian()?;
    Ok((endian, header.load_commands(endian, bytes, 0)?))
}

/// Reads the symbols. It tests each name for UTF-8, as goblin does.
fn symbols(bytes: &[u8], answer: &mut Answer) -> Result<()> {
    let (endian, mut commands) = commands(bytes)?;
    while let Some(command) = commands.next()? {
        if let Some(command) = command.symtab()? {
            let table = command.symbols::<Header, _>(endian, bytes)?;
            for symbol in table.iter() {
                let name = std::str::from_utf8(symbol.name(endian, table.strings())?).expect("UTF-8");
                answer.named(symbol.n_value(endian), name.as_bytes());
            }
        }
    }
    Ok(())
}

fn relocations(bytes: &[u8], answer: &mut Answer) -> Result<()> {
    let (endian, mut commands) = commands(bytes)?;
    while let Some(command) = commands.next()? {
        if let Some((segment, rest)) = command.segment_64()? {
            for (number, section) in segment.sections(endian, rest)?.iter().enumerate() {
                for relocation in section.relocations(endian, bytes)? {
                    answer.relocated(number as u64, relocation.r_word0.get(endian), relocation.r_word1.get(endian));
                }
            }
        }
    }
    Ok(())
}

/// Reads the record of each command, or the table of a fat file. It keeps none of them.
fn parse(bytes: &[u8], answer: &mut Answer) -> Result<()> {
    let mut count = 0;
    if bytes.starts_with(&[0xca, 0xfe, 0xba, 0xbe]) {
        count = FatHeader::parse_arch32(bytes)?.len();
    } else {
        let (_, mut commands) = commands(bytes)?;
        while let Some(command) = commands.next()? {
            count += usize::from(!matches!(command.variant()?, LoadCommandVariant::Other));
        }
    }
    answer.count(count);
    Ok(())
}

fn main() {
    let (word, bytes, seconds) = bench::arguments();
    let call = match word.as_str() {
        "symbols" => symbols,
        "relocations" => relocations,
        "parse" => parse,
        _ => bench::usage("there is no such word"),
    };
    bench::bench(seconds, |answer| call(&bytes, answer).unwrap());
}
