//! Code signatures.
use super::lines::{Lines, error, found, list, quoted, reason, word_if};
use goblin_mach::signature::image::{code_signature, is_as_signed, signature_faults};
use goblin_mach::signature::{
    CodeFault, CodeSignature, DirectoryFault, SignatureFault, SpecialFault,
};
use goblin_mach::{Error, MachO, Result};

/// A text, `none`, or in brackets why it can't be read.
fn text<T>(found: Result<Option<T>>, shown: impl Fn(T) -> String) -> String {
    match found {
        Ok(Some(text)) => shown(text),
        Ok(None) => "none".to_string(),
        Err(why) => format!("({})", reason(&why)),
    }
}

fn said(signature: CodeSignature) -> Result<String> {
    let it = signature.directory()?;
    let cdhash: String = it
        .cdhash()
        .iter()
        .map(|byte| format!("{byte:02x}"))
        .collect();
    Ok(format!(
        "signature {} team {} version {:#x} flags {:#x} hash {} limit {} pages {} page-size {} entitlements {} cdhash {cdhash}",
        text(it.identifier(), quoted),
        text(it.team(), quoted),
        it.head().version,
        it.head().flags,
        it.head().hash_type,
        it.code_limit(),
        it.page_count(),
        it.head().page_size,
        text(signature.entitlements(), |xml| xml.len().to_string()),
    ))
}

pub fn signature(image: &MachO) -> Lines {
    match code_signature(image) {
        Ok(None) => vec!["unsigned".to_string()],
        Ok(Some(signature)) => found(said(signature).map(Some), |line| line),
        Err(why) => vec![error(&why)],
    }
}

/// A fault of a signature, as C has it.
#[derive(Default)]
struct Row {
    kind: &'static str,
    slot: u32,
    index: u32,
    found: u64,
    limit: u64,
    why: Option<Error>,
}

fn code(slot: u32, fault: CodeFault) -> Row {
    let row = |kind, index, found, limit| Row {
        kind,
        slot,
        index,
        found,
        limit,
        why: None,
    };
    match fault {
        CodeFault::Scattered { place } => row("scattered", 0, place.into(), 0),
        CodeFault::Limit { limit, len } => row("limit", 0, limit, len),
        CodeFault::Slots { slots, pages } => row("slots", 0, slots.into(), pages),
        CodeFault::Page { index, start, end } => row("page", index, start, end),
        _ => panic!("the vectors have no such variant"),
    }
}

fn special(slot: u32, fault: SpecialFault) -> Row {
    let (kind, index) = match fault {
        SpecialFault::Unknown { slot } => ("unknown", slot),
        SpecialFault::Unsealed { slot } => ("unsealed", slot),
        SpecialFault::Changed { slot } => ("special", slot),
        SpecialFault::Absent { slot } => ("absent", slot),
        _ => panic!("the vectors have no such variant"),
    };
    Row {
        kind,
        slot,
        index,
        ..Row::default()
    }
}

fn of_directory(slot: u32, fault: DirectoryFault) -> Row {
    let unread = |kind, why| Row {
        kind,
        slot,
        why: Some(why),
        ..Row::default()
    };
    match fault {
        DirectoryFault::Identifier(why) => unread("identifier", why),
        DirectoryFault::Team(why) => unread("team", why),
        DirectoryFault::Short { limit, dataoff } => {
            let (found, limit) = (limit, dataoff.into());
            Row {
                kind: "short",
                slot,
                found,
                limit,
                ..Row::default()
            }
        }
        DirectoryFault::Code(fault) => code(slot, fault),
        DirectoryFault::Special(fault) => special(slot, fault),
        _ => panic!("the vectors have no such variant"),
    }
}

fn row(fault: SignatureFault) -> Row {
    match fault {
        SignatureFault::Blob { index, error } => Row {
            kind: "blob",
            index,
            why: Some(error),
            ..Row::default()
        },
        SignatureFault::Magic { index, slot, magic } => Row {
            kind: "magic",
            slot,
            index,
            found: magic.into(),
            ..Row::default()
        },
        SignatureFault::Refused(why) => Row {
            kind: "directory",
            why: Some(why),
            ..Row::default()
        },
        SignatureFault::First(fault) => of_directory(0, fault),
        SignatureFault::Alternate { slot, fault } => of_directory(slot, fault),
        _ => panic!("the vectors have no such variant"),
    }
}

pub fn fault(fault: SignatureFault) -> String {
    let Row {
        kind,
        slot,
        index,
        found,
        limit,
        why,
    } = row(fault);
    let why = why.map_or(String::new(), |why| word_if(true, &error(&why)));
    format!("fault {kind} slot {slot:#x} index {index} found {found:#x} limit {limit:#x}{why}")
}

pub fn faults(image: &MachO) -> Lines {
    match signature_faults(image) {
        Ok(faults) => list(faults.into_iter().flatten().map(Ok), fault),
        Err(why) => vec![error(&why)],
    }
}

pub fn as_signed(image: &MachO) -> Lines {
    vec![match is_as_signed(image) {
        Ok(true) => "yes".to_string(),
        Ok(false) => "no".to_string(),
        Err(why) => error(&why),
    }]
}
