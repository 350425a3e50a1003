//! What a signature holds that no user may change, since its readers rely on it.
use crate::signature::{CodeDirectory, CodeSignature, DirectoryHead};

impl<'a> CodeSignature<'a> {
    /// The bytes of the signature.
    pub fn bytes(&self) -> &'a [u8] {
        self.bytes
    }

    /// The number of its blobs.
    pub fn count(&self) -> u32 {
        self.count
    }
}

impl<'a> CodeDirectory<'a> {
    /// The bytes of its blob.
    pub fn bytes(&self) -> &'a [u8] {
        self.bytes
    }

    /// The fields that every version has.
    pub fn head(&self) -> DirectoryHead {
        self.head
    }
}
