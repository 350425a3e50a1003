//! Streams, and a buffer in front of a writer.
use super::AllocError;
use super::rt::HostRuntime;
use core::marker::PhantomData;
use std::fs::File;

pub(crate) use std::io::{Error, ErrorKind, Read, Result, Write};

/// What may be a terminal.
pub(crate) trait IsTerminal {
    fn is_terminal(&self) -> bool;
}

impl<T: std::io::IsTerminal> IsTerminal for T {
    fn is_terminal(&self) -> bool {
        std::io::IsTerminal::is_terminal(self)
    }
}

/// A stream of the process. (That of std takes memory for a buffer, which can't be refused.)
#[cfg(unix)]
#[allow(unsafe_code)]
pub(super) fn stream(number: i32) -> std::os::fd::BorrowedFd<'static> {
    // SAFETY: std opens the streams 0, 1 and 2 before a program begins, if they are closed, and nothing here closes them.
    unsafe { std::os::fd::BorrowedFd::borrow_raw(number) }
}

/// A stream of the process without a buffer of its own, or that of std if the system gives no other.
pub(crate) struct Stream(Option<File>);

impl Stream {
    /// Standard input, number 0, or standard output, number 1.
    #[cfg(unix)]
    pub(super) fn new(number: i32) -> Stream {
        Stream(stream(number).try_clone_to_owned().ok().map(File::from))
    }

    #[cfg(not(unix))]
    pub(super) fn new(_number: i32) -> Stream {
        Stream(None)
    }
}

/// Standard output, as what prints lends it.
pub(crate) struct Printer<'r, P>(Stream, PhantomData<&'r P>);

/// Standard output.
pub(crate) fn writer(_rt: &HostRuntime) -> Printer<'_, HostRuntime> {
    Printer(Stream::new(1), PhantomData)
}

impl<P> Write for Printer<'_, P> {
    fn write(&mut self, buf: &[u8]) -> Result<usize> {
        self.0.write(buf)
    }

    fn flush(&mut self) -> Result<()> {
        self.0.flush()
    }
}

impl Read for Stream {
    fn read(&mut self, buf: &mut [u8]) -> Result<usize> {
        match &mut self.0 {
            Some(file) => file.read(buf),
            None => std::io::stdin().read(buf),
        }
    }
}

impl Write for Stream {
    fn write(&mut self, buf: &[u8]) -> Result<usize> {
        match &mut self.0 {
            Some(file) => file.write(buf),
            None => {
                let count = std::io::stdout().write(buf)?;
                std::io::stdout().flush()?;
                Ok(count)
            }
        }
    }

    fn flush(&mut self) -> Result<()> {
        Ok(())
    }
}

/// The bytes of a buffer.
const CAPACITY: usize = 8192;

/// A writer with a buffer in front of it. (That of std can't be refused memory.)
pub(crate) struct BufWriter<W: Write> {
    inner: W,
    buffer: Vec<u8>,
}

impl<W: Write> BufWriter<W> {
    pub(crate) fn new(inner: W) -> core::result::Result<BufWriter<W>, AllocError> {
        let mut buffer = Vec::new();
        buffer.try_reserve_exact(CAPACITY)?;
        Ok(BufWriter { inner, buffer })
    }

    pub(crate) fn get_mut(&mut self) -> &mut W {
        &mut self.inner
    }

    /// Writes what the buffer may have no room for.
    #[cold]
    fn write_long(&mut self, mut bytes: &[u8]) -> Result<()> {
        while !bytes.is_empty() {
            match self.write(bytes) {
                Ok(0) => return Err(Error::from(ErrorKind::WriteZero)),
                Ok(count) => bytes = &bytes[count..],
                Err(error) if error.kind() == ErrorKind::Interrupted => {}
                Err(error) => return Err(error),
            }
        }
        Ok(())
    }

    /// Writes the bytes of the buffer. What a failure leaves unwritten stays there.
    fn flush_buffer(&mut self) -> Result<()> {
        let mut written = 0;
        let flushed = loop {
            if written == self.buffer.len() {
                break Ok(());
            }
            match self.inner.write(&self.buffer[written..]) {
                Ok(0) => break Err(Error::from(ErrorKind::WriteZero)),
                Ok(count) => written += count,
                Err(error) if error.kind() == ErrorKind::Interrupted => {}
                Err(error) => break Err(error),
            }
        };
        self.buffer.drain(..written);
        flushed
    }
}

impl<W: Write> Write for BufWriter<W> {
    fn write(&mut self, bytes: &[u8]) -> Result<usize> {
        if bytes.len() > CAPACITY - self.buffer.len() {
            self.flush_buffer()?;
        }
        if bytes.len() >= CAPACITY {
            return self.inner.write(bytes);
        }
        self.buffer.extend_from_slice(bytes);
        Ok(bytes.len())
    }

    /// Writes as std's does, and at once what the buffer has room for.
    #[inline]
    fn write_all(&mut self, bytes: &[u8]) -> Result<()> {
        if bytes.len() <= CAPACITY - self.buffer.len() {
            self.buffer.extend_from_slice(bytes);
            return Ok(());
        }
        self.write_long(bytes)
    }

    fn flush(&mut self) -> Result<()> {
        self.flush_buffer()?;
        self.inner.flush()
    }
}

impl<W: Write> Drop for BufWriter<W> {
    fn drop(&mut self) {
        let _ = self.flush_buffer();
    }
}
