//! Static libraries, and all that a file of any kind has in it.
use super::lines::{Lines, error, found, list, quoted, reason, word_if};
use super::vector::Vector;
use goblin_mach::archive::{Archive, ArchiveKind, Member};
use goblin_mach::{Content, Input, InputItem, Result, begins_archive};

pub fn input(vector: &Vector) -> Lines {
    vec![match Input::parse(&vector.bytes) {
        Ok(Input::Image(_)) => "image".to_string(),
        Ok(Input::Fat(file)) => format!("fat {}", file.narches),
        Ok(Input::Fat64(file)) => format!("fat64 {}", file.narches),
        Ok(Input::Archive(_)) => "archive".to_string(),
        Err(why) => error(&why),
    }]
}

fn name_of(member: &Member) -> String {
    match member.name_bytes() {
        Ok(name) => quoted(name),
        Err(why) => format!("({})", reason(&why)),
    }
}

/// The line of an item: an image, an archive without members, or what else is there, with the reason why it is no image.
fn item(it: InputItem) -> Result<String> {
    let content = it.content?;
    let entry = it
        .place
        .entry
        .map_or(String::new(), |number| format!(" entry {number}"));
    let (member, start) = match &content {
        Content::Member(member) => (format!(" member {}", name_of(member)), member.start),
        Content::File(_) | Content::NoMember => (String::new(), 0),
    };
    let (kind, why) = match (&content, content.open()) {
        (Content::NoMember, _) => ("archive", String::new()),
        (_, Ok(_)) => ("image", String::new()),
        (_, Err(why)) => ("other", word_if(true, &error(&why))),
    };
    let place = it.place.offset + start as u64;
    Ok(format!("{kind}{entry}{member} at {place:#x}{why}"))
}

pub fn images(vector: &Vector) -> Lines {
    match Input::parse(&vector.bytes) {
        Ok(input) => list(input.images().map(item), |line| line),
        Err(why) => vec![error(&why)],
    }
}

pub fn archive_kind(vector: &Vector) -> Lines {
    let bytes = &vector.bytes;
    if !begins_archive(bytes) {
        return vec!["none".to_string()];
    }
    if bytes.starts_with(b"!<thin>") {
        return vec!["thin".to_string()];
    }
    vec![match Archive::parse(bytes).map(|archive| archive.kind()) {
        Ok(ArchiveKind::Gnu) => "gnu".to_string(),
        Ok(ArchiveKind::Bsd) => "bsd".to_string(),
        Err(why) => error(&why),
    }]
}

fn member(it: Member) -> String {
    let number = |number: Option<u64>| number.map_or("none".to_string(), |it| it.to_string());
    format!(
        "member {} header {:#x} at {:#x} size {} date {} owner {} group {} mode {}",
        name_of(&it),
        it.offset(),
        it.start,
        it.bytes.len(),
        number(it.date()),
        number(it.uid()),
        number(it.gid()),
        number(it.mode())
    )
}

pub fn members(vector: &Vector) -> Lines {
    match Archive::parse(&vector.bytes) {
        Ok(archive) => list(archive.members(), member),
        Err(why) => vec![error(&why)],
    }
}

pub fn archive_symbols(vector: &Vector) -> Lines {
    match Archive::parse(&vector.bytes).and_then(|archive| archive.symbols()) {
        Ok(symbols) => list(symbols.into_iter().flatten(), |it| {
            format!("symbol {} member {:#x}", quoted(it.name), it.member)
        }),
        Err(why) => vec![error(&why)],
    }
}

pub fn archive_find(vector: &Vector) -> Lines {
    let archive = Archive::parse(&vector.bytes);
    found(
        archive.and_then(|it| it.find_symbol(&vector.wanted_name)),
        member,
    )
}

/// The first member of a name, or the fault before it.
pub fn member_named(vector: &Vector) -> Lines {
    let has_name = |it: &Result<Member>| match it {
        Ok(member) => member
            .name_bytes()
            .is_ok_and(|name| name == vector.wanted_name.as_bytes()),
        Err(_) => true,
    };
    let archive = Archive::parse(&vector.bytes);
    found(
        archive.and_then(|it| it.members().find(has_name).transpose()),
        member,
    )
}
