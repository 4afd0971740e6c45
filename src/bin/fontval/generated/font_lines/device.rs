// @generated from crates/font_lines/src/device.rt by tools/erase

//! The source and the sink of a run.

use crate::host::*;

mod from_read;
mod from_write;

pub use from_read::FromRead;
pub use from_write::FromWrite;

/// A read or a write failed. The device remembers it.
pub struct Failed;

// Returns the number that a call gave, or `Failed` if it gave none, which `failed` then remembers.
fn kept(given: Option<usize>, failed: &mut bool) -> Result<usize, Failed> {
    if given.is_none() {
        *failed = true;
    }
    given.ok_or(Failed)
}

/// A source of bytes.
pub trait Source {
    /// Reads into the front of `buf`, and returns the number of bytes read: 0 for a nonempty `buf`
    /// only at the end.
    fn read(&mut self, buf: &mut [u8]) -> Result<usize, Failed>;

    /// Returns whether a read has failed.
    fn has_failed(&self) -> bool;
}

/// A sink of bytes.
pub trait Sink {
    /// Writes bytes from the front of `buf`, and returns the number of bytes written: 0 only for an
    /// empty `buf`. Writes nothing if it fails.
    fn write(&mut self, buf: &[u8]) -> Result<usize, Failed>;

    /// Returns whether a write has failed.
    fn has_failed(&self) -> bool;
}
