#![doc = include_str!("../README.md")]
#![deny(unsafe_code)]

extern crate alloc;

// Written by hand.
mod manual;
mod shim;

// Made of the sources in Rattle by tools/erase.
mod generated;

use std::process::ExitCode;

macro_rules! programs {
    ($($name:ident)*) => {$(
        #[doc = concat!("Runs `", stringify!($name), "` with the arguments of the process.")]
        pub fn $name() -> ExitCode {
            let rt = shim::rt::HostRuntime::new();
            match manual::print(&manual::texts!($name), rt.arguments()) {
                Some(status) => status,
                None => generated::$name::main(rt),
            }
        }
    )*};
}

programs!(machaudit machfat machfixups machinfo machresolve machsign machsyms);

/// Runs `machdump` with the arguments of the process.
pub fn machdump() -> ExitCode {
    generated::machdump::main(shim::rt::HostRuntime::new())
}
