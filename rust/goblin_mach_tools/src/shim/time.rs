//! The clock.
use super::io;
use super::rt::HostRuntime;
use std::panic;
use std::time::Instant;

pub(crate) use core::time::Duration;

/// What has a clock.
pub(crate) trait Clock {
    /// The time since the first reading.
    fn monotonic(&self) -> io::Result<Duration>;
}

impl Clock for HostRuntime {
    /// (The clock of std ends by a panic if it can't be read.)
    fn monotonic(&self) -> io::Result<Duration> {
        let hook = panic::take_hook();
        panic::set_hook(Box::new(|_| {}));
        let read = panic::catch_unwind(Instant::now);
        panic::set_hook(hook);
        let now = read.map_err(|_| io::Error::from(io::ErrorKind::Other))?;
        Ok(now.saturating_duration_since(*self.start.get_or_init(|| now)))
    }
}
