// goblin's own tests, unchanged, over this crate.
#![cfg(feature = "debian")]
include!("/usr/share/cargo/registry/goblin-0.2.1/tests/macho.rs");
