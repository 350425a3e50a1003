//! The handle of the runtime.
use super::fs::OpenFile;
use super::io::{self, Stream, Write};
use core::cell::OnceCell;
use core::fmt::Display;
use std::ffi::OsString;
use std::time::Instant;

/// What a program has of the system: arguments, streams, files and a clock.
pub(crate) struct HostRuntime {
    pub(super) words: Vec<OsString>,
    pub(super) start: OnceCell<Instant>,
}

impl HostRuntime {
    pub(crate) fn new() -> HostRuntime {
        HostRuntime {
            words: std::env::args_os().collect(),
            start: OnceCell::new(),
        }
    }

    /// The arguments after the program's name.
    pub(crate) fn arguments(&self) -> &[OsString] {
        self.words.get(1..).unwrap_or_default()
    }

    pub(crate) fn stdin(&self) -> Stream {
        Stream::new(0)
    }

    #[cfg(unix)]
    pub(crate) fn stdout(&self) -> impl io::IsTerminal {
        io::stream(1)
    }

    #[cfg(not(unix))]
    pub(crate) fn stdout(&self) -> impl io::IsTerminal {
        std::io::stdout()
    }

    pub(crate) fn stderr(&self) -> std::io::Stderr {
        std::io::stderr()
    }
}

/// What prints to standard error.
pub(crate) trait Eprint {
    fn eprint(&self, text: impl Display) -> io::Result<()>;
    fn eprintln(&self, text: impl Display) -> io::Result<()>;
}

impl Eprint for HostRuntime {
    fn eprint(&self, text: impl Display) -> io::Result<()> {
        write!(self.stderr(), "{text}")
    }

    fn eprintln(&self, text: impl Display) -> io::Result<()> {
        writeln!(self.stderr(), "{text}")
    }
}

/// What has files.
pub(crate) trait Files {
    type File: Write + OpenFile;

    /// Opens the file with a name.
    fn open(&self, options: &std::fs::OpenOptions, path: &str) -> io::Result<Self::File>;
}

impl Files for HostRuntime {
    type File = std::fs::File;

    fn open(&self, options: &std::fs::OpenOptions, path: &str) -> io::Result<std::fs::File> {
        options.open(path)
    }
}
