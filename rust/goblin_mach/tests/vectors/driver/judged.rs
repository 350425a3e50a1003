//! Faults of layout.
use super::calls::open;
use super::lines::{Lines, error, whole};
use super::vector::Vector;
use goblin_mach::fat::{FAT_MAGIC, FatArch};
use goblin_mach::layout::{LayoutFault, Owner, container_faults, layout_faults};
use goblin_mach::{FAT_MAGIC_64, FatArch64, peek};

fn hyphened(words: &str) -> String {
    words.replace(' ', "-")
}

fn owner(it: Owner) -> String {
    format!(
        "{} {:#x} {}",
        hyphened(it.part.words()),
        it.command,
        it.index
    )
}

pub fn fault(it: LayoutFault) -> String {
    let (rule, found, limit) = (hyphened(it.rule.words()), it.found, it.limit);
    let other = it
        .other
        .map_or(String::new(), |it| format!(" other {}", owner(it)));
    format!(
        "fault {rule} of {} found {found:#x} limit {limit:#x}{other}",
        owner(it.owner)
    )
}

/// The faults of the file that begins with the image.
pub fn layout(vector: &Vector) -> Lines {
    let bytes = vector.bytes.get(vector.offset..).unwrap_or(&[]);
    match open(bytes, 0, vector.is_lossy) {
        Ok(image) => whole(layout_faults(&image), fault),
        Err(why) => vec![error(&why)],
    }
}

pub fn container(vector: &Vector) -> Lines {
    let bytes = &vector.bytes;
    let faults = match peek(bytes, 0) {
        Ok(FAT_MAGIC) => container_faults::<FatArch>(bytes),
        Ok(FAT_MAGIC_64) => container_faults::<FatArch64>(bytes),
        _ => Ok(Vec::new()),
    };
    whole(faults, fault)
}
