//! How answers are written as lines.
use goblin_mach::{Error, Result, ScrollError};

pub type Lines = Vec<String>;

/// A name in quotes.
pub fn quoted(name: impl AsRef<[u8]>) -> String {
    let mut text = String::from("\"");
    for &byte in name.as_ref() {
        match byte {
            b'"' | b'\\' => text += &format!("\\x{byte:02x}"),
            b' '..=b'~' => text.push(char::from(byte)),
            _ => text += &format!("\\x{byte:02x}"),
        }
    }
    text + "\""
}

/// A name of at most 16 bytes, which zeros fill.
pub fn padded(name: &[u8; 16]) -> String {
    let end = name.iter().position(|&byte| byte == 0);
    quoted(&name[..end.unwrap_or(name.len())])
}

/// What an error is, without the word `error`.
pub fn reason(error: &Error) -> String {
    match error {
        Error::Malformed(_) => "malformed".to_string(),
        Error::BadMagic(magic) => format!("bad-magic {magic:#x}"),
        Error::Scroll(ScrollError::BadOffset(place)) => format!("bad-offset {place:#x}"),
        Error::Scroll(ScrollError::TooBig { size, len }) => format!("too-big {size} {len}"),
        Error::Scroll(ScrollError::BadInput { size, .. }) => format!("bad-input {size}"),
        Error::BufferTooShort(count, what) => format!("too-short {count} {what}"),
        Error::Memory(_) => "no-memory".to_string(),
    }
}

pub fn error(error: &Error) -> String {
    format!("error {}", reason(error))
}

/// A word if something holds, with the blank before it.
pub fn word_if(holds: bool, word: &str) -> String {
    if holds {
        format!(" {word}")
    } else {
        String::new()
    }
}

/// Adds the line of each item, and `more` if there is an item after the end.
pub fn add<T>(
    lines: &mut Lines,
    mut items: impl Iterator<Item = Result<T>>,
    line: impl Fn(T) -> String,
) {
    for item in items.by_ref() {
        lines.push(item.map_or_else(|why| error(&why), &line));
    }
    if items.next().is_some() {
        lines.push("more".to_string());
    }
}

/// Adds the end of a list, if an error hasn't ended it.
pub fn ended(mut lines: Lines) -> Lines {
    if !lines.last().is_some_and(|line| line.starts_with("error ")) {
        lines.push("end".to_string());
    }
    lines
}

/// An answer that another call must give, too. If it doesn't, a line says so.
pub fn agreed(mut lines: Lines, other: &[String]) -> Lines {
    if lines != other {
        lines.push("another call differs".to_string());
    }
    lines
}

/// A list of items that may be errors.
pub fn list<T>(items: impl Iterator<Item = Result<T>>, line: impl Fn(T) -> String) -> Lines {
    let mut lines = Vec::new();
    add(&mut lines, items, line);
    ended(lines)
}

/// A list that is there as a whole, or an error.
pub fn whole<T>(items: Result<impl IntoIterator<Item = T>>, line: impl Fn(T) -> String) -> Lines {
    match items {
        Ok(items) => list(items.into_iter().map(Ok), line),
        Err(why) => vec![error(&why)],
    }
}

/// The line of the one thing that was looked up, or `none`.
pub fn found<T>(found: Result<Option<T>>, line: impl Fn(T) -> String) -> Lines {
    vec![match found {
        Ok(Some(found)) => line(found),
        Ok(None) => "none".to_string(),
        Err(why) => error(&why),
    }]
}

#[cfg(test)]
mod tests {
    use super::*;

    fn listed(mut items: Vec<Option<Result<u8>>>) -> Lines {
        items.reverse();
        list(std::iter::from_fn(|| items.pop().flatten()), |it| {
            it.to_string()
        })
    }

    #[test]
    fn ends_of_lists() {
        let fault = || Some(Err(Error::Malformed("")));
        assert_eq!(listed(vec![Some(Ok(1)), None, None]), ["1", "end"]);
        assert_eq!(
            listed(vec![Some(Ok(1)), fault(), None]),
            ["1", "error malformed"]
        );
        assert_eq!(
            listed(vec![fault(), Some(Ok(1)), None]),
            ["error malformed", "1", "end"]
        );
        assert_eq!(
            listed(vec![Some(Ok(1)), None, Some(Ok(2))]),
            ["1", "more", "end"]
        );
        assert_eq!(
            listed(vec![fault(), None, fault()]),
            ["error malformed", "more", "end"]
        );
    }

    #[test]
    fn names_in_quotes() {
        assert_eq!(
            quoted(b" a\"b\\\x00~\x7f\xc3"),
            r#"" a\x22b\x5c\x00~\x7f\xc3""#
        );
        assert_eq!(padded(b"abcdefghijklmnop"), r#""abcdefghijklmnop""#);
        assert_eq!(padded(b"ab\0cdefghijklmno"), r#""ab""#);
    }

    #[test]
    fn calls_that_differ() {
        let lines = || vec!["a".to_string()];
        assert_eq!(agreed(lines(), &lines()), ["a"]);
        assert_eq!(agreed(lines(), &[]), ["a", "another call differs"]);
    }
}
