//! Standard input and output that report every error, and standard error.
//!
//! Std's do not: a descriptor that is not open for reading is an empty input, one that is not open
//! for writing accepts everything, and output is buffered. A file over the same descriptor passes
//! each call on.

use super::HostRuntime;
use core::fmt;
use std::fs::File;
use std::io::{self, ErrorKind};

#[cfg(not(windows))]
use std::os::fd::AsFd as AsOwned;
#[cfg(windows)]
use std::os::windows::io::AsHandle as AsOwned;

pub use std::io::{Read, Result, Write};

/// A stream, or an error in each call if the descriptor is not open.
pub struct Stream(Option<File>);

impl Stream {
    /// Opens a file over the same descriptor.
    pub fn over(stream: impl AsOwned) -> Self {
        #[cfg(not(windows))]
        let copy = stream.as_fd().try_clone_to_owned();
        #[cfg(windows)]
        let copy = stream.as_handle().try_clone_to_owned();
        Self(copy.ok().map(File::from))
    }

    fn file(&mut self) -> Result<&mut File> {
        self.0.as_mut().ok_or(ErrorKind::NotFound.into())
    }
}

impl Read for Stream {
    fn read(&mut self, bytes: &mut [u8]) -> Result<usize> {
        self.file()?.read(bytes)
    }
}

impl Write for Stream {
    fn write(&mut self, bytes: &[u8]) -> Result<usize> {
        self.file()?.write(bytes)
    }

    fn flush(&mut self) -> Result<()> {
        self.file()?.flush()
    }
}

/// Standard input.
pub fn reader(_rt: &HostRuntime) -> Stream {
    Stream::over(io::stdin())
}

/// Standard output.
pub fn writer(_rt: &HostRuntime) -> Stream {
    Stream::over(io::stdout())
}

/// Writes to std's standard error; the caller ignores the result.
pub fn eprint(_rt: &HostRuntime, text: fmt::Arguments<'_>) -> Result<()> {
    io::stderr().write_fmt(text)
}
