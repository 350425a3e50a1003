//! No code: see examples/ and tests/.
