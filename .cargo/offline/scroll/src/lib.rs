//! Is found where the crate scroll is looked up, and has nothing of it.
#![no_std]

compile_error!(
    "this is not scroll: build outside of this repository, or name the crate's source, as with \
    --config 'source.crates-io.replace-with=\"debian\"' --config 'source.debian.directory=\"/usr/share/cargo/registry\"'"
);
