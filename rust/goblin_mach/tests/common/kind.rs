//! Errors as short texts, which tests compare.
use goblin_mach::{Error, ScrollError};

/// The kind of an error with its numbers.
pub fn kind(error: &Error) -> String {
    match error {
        Error::Malformed(_) => "malformed".into(),
        Error::BadMagic(magic) => format!("bad magic {magic:#x}"),
        Error::Scroll(ScrollError::BadOffset(place)) => format!("bad offset {place}"),
        Error::Scroll(ScrollError::TooBig { size, len }) => format!("too big {size} of {len}"),
        Error::Scroll(ScrollError::BadInput { size, .. }) => format!("bad input {size}"),
        Error::BufferTooShort(count, what) => format!("too short {count} {what}"),
        Error::Memory(_) => "memory".into(),
    }
}

/// The kind of the error of an answer.
pub fn fault<T>(answer: Result<T, Error>) -> String {
    match answer {
        Ok(_) => "no error".into(),
        Err(error) => kind(&error),
    }
}
