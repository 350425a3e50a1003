//! Fat files that are written.
use super::lines::{Lines, agreed, error};
use super::vector::Vector;
use goblin_mach::Result;
use goblin_mach::write::{FatEntry, FatPart, write_fat, write_fat64, write_parts};

fn part(numbers: &[u64]) -> FatPart {
    FatPart {
        offset: numbers[0] as usize,
        len: numbers[1] as usize,
        cputype: numbers[2] as u32,
        cpusubtype: numbers[3] as u32,
        align: numbers[4] as u32,
        reserved: 0,
    }
}

/// The file, in a buffer of the caller's that has the size that a first call says.
fn placed(bytes: &[u8], parts: &[FatPart], is_64: bool) -> Result<Vec<u8>> {
    let mut file = vec![0; write_parts(bytes, parts, is_64, &mut [])?];
    write_parts(bytes, parts, is_64, &mut file)?;
    Ok(file)
}

/// The file as a new vector.
fn made(bytes: &[u8], parts: &[FatPart], is_64: bool) -> Result<Vec<u8>> {
    let entry = |it: &FatPart| FatEntry {
        cputype: it.cputype,
        cpusubtype: it.cpusubtype,
        align: it.align,
        bytes: &bytes[it.offset..][..it.len],
    };
    let entries: Vec<_> = parts.iter().map(entry).collect();
    if is_64 {
        write_fat64(&entries)
    } else {
        write_fat(&entries)
    }
}

fn dump(file: &[u8]) -> Lines {
    let mut lines = vec![format!("size {}", file.len())];
    for (row, bytes) in file.chunks(16).enumerate() {
        if bytes.iter().any(|&byte| byte != 0) {
            let pairs: String = bytes.iter().map(|byte| format!("{byte:02x}")).collect();
            lines.push(format!("{:#x}: {pairs}", 16 * row));
        }
    }
    lines.push("end".to_string());
    lines
}

fn lines(file: Result<Vec<u8>>) -> Lines {
    match file {
        Ok(file) => dump(&file),
        Err(why) => vec![error(&why)],
    }
}

/// Writes a file by both calls, if both can be called: parts need not lie in the bytes.
pub fn written(vector: &Vector) -> Lines {
    let (bytes, is_64) = (&vector.bytes, vector.number() == 64);
    let parts: Vec<_> = vector.parts.iter().map(|it| part(it)).collect();
    let lies_in = |it: &FatPart| {
        let end = it.offset.checked_add(it.len);
        end.is_some_and(|end| end <= bytes.len())
    };
    let answer = lines(placed(bytes, &parts, is_64));
    if parts.iter().all(lies_in) {
        return agreed(answer, &lines(made(bytes, &parts, is_64)));
    }
    answer
}
