use core::fmt;

/// A text of at most `CAP` bytes in the value itself.
pub(crate) struct ArrayString<const CAP: usize> {
    bytes: [u8; CAP],
    len: usize,
}

impl<const CAP: usize> ArrayString<CAP> {
    pub(crate) fn new() -> Self {
        ArrayString {
            bytes: [0; CAP],
            len: 0,
        }
    }

    pub(crate) fn as_str(&self) -> &str {
        core::str::from_utf8(&self.bytes[..self.len]).unwrap_or_default()
    }
}

/// `write_str` adds the whole text, or fails and adds nothing.
impl<const CAP: usize> fmt::Write for ArrayString<CAP> {
    fn write_str(&mut self, text: &str) -> fmt::Result {
        let room = self.bytes[self.len..]
            .get_mut(..text.len())
            .ok_or(fmt::Error)?;
        room.copy_from_slice(text.as_bytes());
        self.len += text.len();
        Ok(())
    }
}

#[cfg(test)]
mod tests {
    use super::*;
    use fmt::Write;

    #[test]
    fn a_text_is_added_whole_or_not_at_all() {
        let mut text: ArrayString<4> = ArrayString::new();
        assert_eq!(text.as_str(), "");
        assert!(text.write_str("abc").is_ok());
        assert!(text.write_str("de").is_err());
        assert_eq!(text.as_str(), "abc");
        assert!(text.write_str("é").is_err());
        assert!(text.write_str("d").is_ok());
        assert!(text.write_str("").is_ok());
        assert_eq!(text.as_str(), "abcd");
    }
}
