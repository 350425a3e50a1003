//! Whole files: what they are, and the entries of fat files.
use super::lines::{Lines, ended, error};
use super::vector::Vector;
use goblin_mach::fat::{FAT_MAGIC, FatArch};
use goblin_mach::{ArchRecord, FAT_MAGIC_64, FatArch64, FatTable, Mach, peek};

pub fn mach(vector: &Vector) -> Lines {
    let bytes = &vector.bytes;
    let opened = if vector.is_lossy {
        Mach::parse_lossy(bytes)
    } else {
        Mach::parse(bytes)
    };
    vec![match opened {
        Ok(Mach::Binary(_)) => "image".to_string(),
        Ok(Mach::Fat(file)) => format!("fat {}", file.narches),
        Err(why) => error(&why),
    }]
}

/// The records of a table, up to the first that isn't whole in the bytes.
fn records<R: ArchRecord>(bytes: &[u8], line: impl Fn(R) -> String) -> Lines {
    let mut lines = Vec::new();
    let Ok(table) = FatTable::<R>::new(bytes) else {
        return ended(lines);
    };
    for record in table.iter_arches() {
        match record {
            Ok(record) => lines.push(line(record)),
            Err(why) => {
                lines.push(error(&why));
                break;
            }
        }
    }
    ended(lines)
}

fn entry(cpu: [u32; 2], offset: u64, size: u64, align: u32) -> String {
    let [cputype, cpusubtype] = cpu;
    format!("entry cpu {cputype:#x} {cpusubtype:#x} at {offset:#x} size {size} align {align}")
}

pub fn entries(vector: &Vector) -> Lines {
    match peek(&vector.bytes, 0) {
        Ok(FAT_MAGIC) => records(&vector.bytes, |it: FatArch| {
            let cpu = [it.cputype, it.cpusubtype];
            entry(cpu, it.offset.into(), it.size.into(), it.align)
        }),
        Ok(FAT_MAGIC_64) => records(&vector.bytes, |it: FatArch64| {
            entry([it.cputype, it.cpusubtype], it.offset, it.size, it.align)
        }),
        _ => ended(Vec::new()),
    }
}
