// @generated from crates/font_lines/src/device/from_read.rt by tools/erase

//! A reader as a source.

use crate::host::*;

use super::{Failed, Source, kept};
use crate::host::io::Read;

/// A source over a reader. Each error of the reader is a failure, an interrupted call too.
pub struct FromRead<R> {
    reader: R,
    failed: bool,
}

impl<R: Read> FromRead<R> {
    /// Creates a source that has not failed.
    pub fn new(reader: R) -> Self {
        FromRead { reader, failed: false }
    }
}

impl<R: Read> Source for FromRead<R> {
    fn read(&mut self, buf: &mut [u8]) -> Result<usize, Failed> {
        kept(self.reader.read(buf).ok(), &mut self.failed)
    }

    fn has_failed(&self) -> bool {
        self.failed
    }
}
