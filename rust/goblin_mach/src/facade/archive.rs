//! What a member of an archive holds that no user may change, since the place of its name rests on it.
use crate::archive::Member;

impl Member<'_> {
    /// The place of its header in the archive.
    pub fn offset(&self) -> usize {
        self.offset
    }
}
