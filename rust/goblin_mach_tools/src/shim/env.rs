//! The arguments and the environment of the process.
use super::rt::HostRuntime;
use super::{AllocError, TryGrow, TryString};
use std::ffi::OsStr;
use std::vec::IntoIter;

/// Why an argument or a variable is not given.
pub(crate) enum FillError {
    /// There are fewer arguments, or no such variable.
    NotPresent,
    /// It is longer than the buffer.
    TooLong,
}

/// What has arguments and an environment.
pub(crate) trait Env {
    /// Copies the argument of this number to the start of the buffer, and returns its length. Number 0 is the program's name.
    fn arg(&self, number: usize, buffer: &mut [u8]) -> Result<usize, FillError>;

    /// Copies the variable of this name to the start of the buffer, and returns its length.
    fn var(&self, name: &str, buffer: &mut [u8]) -> Result<usize, FillError>;
}

/// Copies a text to the start of a buffer, and returns its length.
fn copy_to(buffer: &mut [u8], text: &OsStr) -> Result<usize, FillError> {
    let bytes = text.as_encoded_bytes();
    let room = buffer.get_mut(..bytes.len()).ok_or(FillError::TooLong)?;
    room.copy_from_slice(bytes);
    Ok(bytes.len())
}

impl Env for HostRuntime {
    fn arg(&self, number: usize, buffer: &mut [u8]) -> Result<usize, FillError> {
        copy_to(buffer, self.words.get(number).ok_or(FillError::NotPresent)?)
    }

    fn var(&self, name: &str, buffer: &mut [u8]) -> Result<usize, FillError> {
        copy_to(
            buffer,
            &std::env::var_os(name).ok_or(FillError::NotPresent)?,
        )
    }
}

/// The arguments; none if one is no text, or memory is refused.
pub(crate) fn args(rt: &HostRuntime) -> Result<IntoIter<String>, AllocError> {
    let mut words = Vec::new();
    for word in &rt.words {
        words.try_push(TryString::from_str(word.to_str().ok_or(AllocError)?)?)?;
    }
    Ok(words.into_iter())
}
