//! Whether a file is sound, and what is found in it.
use super::lines::{Lines, ended, error};
use super::vector::Vector;
use super::{judged, signed};
use goblin_mach::audit::{
    AuditedPart, FileFinding, FindingKind, ItemFault, ItemList, Soundness, audit,
};

fn part(it: AuditedPart) -> &'static str {
    match it {
        AuditedPart::Sections => "sections",
        AuditedPart::Relocations => "relocations",
        AuditedPart::Symbols => "symbols",
        AuditedPart::Exports => "exports",
        AuditedPart::Imports => "imports",
        AuditedPart::Fixups => "fixups",
        AuditedPart::Bindings => "bindings",
        AuditedPart::Signature => "signature",
        AuditedPart::Members => "members",
        AuditedPart::Entries => "entries",
        _ => panic!("the vectors have no such variant"),
    }
}

fn item(it: &ItemFault) -> String {
    let index = it.place.index;
    let place = match it.place.list {
        ItemList::Sections(segment) => format!("sections {segment} {index}"),
        ItemList::Relocations(segment, section) => {
            format!("relocations {segment} {section} {index}")
        }
        ItemList::Symbols => format!("symbols {index}"),
        ItemList::Exports => format!("exports {index}"),
        ItemList::Imports => format!("imports {index}"),
        ItemList::Fixups => format!("fixups {index}"),
        ItemList::Bindings => format!("bindings {index}"),
        _ => panic!("the vectors have no such variant"),
    };
    format!("item {place} {}", error(&it.error))
}

/// The line of a fault, with another first word.
fn named(word: &str, line: &str) -> String {
    format!("{word}{}", line.trim_start_matches("fault"))
}

fn kind(it: FindingKind) -> String {
    match it {
        FindingKind::Refused(why) => format!("refused {}", error(why)),
        FindingKind::Lossy(why) => format!("lossy {}", error(why)),
        FindingKind::Table(why) => format!("table {}", error(why)),
        FindingKind::NoEntries => "no-entries".to_string(),
        FindingKind::Archive(why) => format!("archive {}", error(why)),
        FindingKind::Item(fault) => item(fault),
        FindingKind::More(list, count) => format!("more {} {count}", part(list)),
        FindingKind::Past(list, count) => format!("past-the-end {} {count}", part(list)),
        FindingKind::Cut(list) => format!("limit-met {}", part(list)),
        FindingKind::Unreadable(why) => format!("unreadable {}", error(why)),
        FindingKind::Signature(fault) => named("signature", &signed::fault(fault.clone())),
        FindingKind::Layout(fault) => named("layout", &judged::fault(*fault)),
        _ => panic!("the vectors have no such variant"),
    }
}

fn finding(it: &FileFinding) -> String {
    let numbered =
        |word, number: Option<usize>| number.map_or(String::new(), |it| format!(" {word} {it}"));
    let entry = numbered("entry", it.place.entry);
    let member = numbered("member", it.place.member);
    format!("finding{entry}{member} {}", kind(it.kind))
}

/// What is found in a file, and the verdict. A number is how many items of a list are visited.
pub fn audited(vector: &Vector) -> Lines {
    let limit = vector.numbers.first();
    let limit = limit.map_or(usize::MAX, |it| it[0] as usize);
    let Ok(report) = audit(&vector.bytes, limit) else {
        return vec!["error no-memory".to_string()];
    };
    let Ok(findings) = report.findings() else {
        return vec!["error no-memory".to_string()];
    };
    let verdict = match report.verdict() {
        Soundness::Sound => "sound",
        Soundness::Unended => "unended",
        Soundness::Faulty => "faulty",
        _ => panic!("the vectors have no such variant"),
    };
    let mut lines: Lines = findings.iter().map(finding).collect();
    lines.push(format!("verdict {verdict}"));
    ended(lines)
}
