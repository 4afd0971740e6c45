// @generated from crates/font_lines/src/device/from_write.rt by tools/erase

//! A writer as a sink.

use crate::host::*;

use super::{Failed, Sink, kept};
use crate::host::io::Write;

/// A sink over a writer. Each error of the writer is a failure, an interrupted call too, and so
/// is a write that takes no byte of a nonempty slice.
pub struct FromWrite<W> {
    writer: W,
    failed: bool,
}

impl<W: Write> FromWrite<W> {
    /// Creates a sink that has not failed.
    pub fn new(writer: W) -> Self {
        FromWrite { writer, failed: false }
    }
}

impl<W: Write> Sink for FromWrite<W> {
    fn write(&mut self, buf: &[u8]) -> Result<usize, Failed> {
        let given = self.writer.write(buf).ok();
        kept(given.filter(|n| *n > 0 || buf.is_empty()), &mut self.failed)
    }

    fn has_failed(&self) -> bool {
        self.failed
    }
}
