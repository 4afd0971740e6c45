// @generated from crates/font_lines/src/serve.rt by tools/erase

//! A run: answers each line once it is read, and writes the answers when the input ends.

use crate::host::*;

use crate::font_lines::answers::append_answers;
use crate::font_lines::device::{Sink, Source};
use crate::host::alloc::{AllocError, Allocator};

/// Why a run failed.
#[derive(Debug)]
pub enum ServeFault {
    /// Out of memory for a line or for the answers.
    Memory = 1,
    /// A read failed.
    Read = 2,
    /// A write failed.
    Write = 3,
}

impl core::error::Error for ServeFault {}

impl core::fmt::Display for ServeFault {
    fn fmt(&self, f: &mut core::fmt::Formatter<'_>) -> core::fmt::Result {
        match self {
            Self::Memory => write!(f, "memory"),
            Self::Read => write!(f, "read"),
            Self::Write => write!(f, "write"),
        }
    }
}

impl From<AllocError> for ServeFault {
    fn from(_error: AllocError) -> ServeFault {
        ServeFault::Memory
    }
}

// The size of a read.
const READ_SIZE: usize = 16384;

/// Reads a source to its end, and writes the answers to its lines to a sink.
///
/// Nothing is written before all answers are made, and nothing that failed is tried again. If the
/// bytes of the source are not known, the clauses only say that the answers are those to some
/// input.
pub fn serve<A: Allocator + Copy, S: Source, K: Sink>(
    alloc: A,
    source: &mut S,
    sink: &mut K,
) -> Result<(), ServeFault> {
    let output = answer_all(alloc, source)?;
    write_all(sink, &output)
}

// Reads a source to its end, and returns the answers to its lines. Of what it has read, it keeps
// one block and the line that has begun.
fn answer_all<A: Allocator + Copy, S: Source>(
    alloc: A,
    source: &mut S,
) -> Result<Vec<u8, A>, ServeFault> {
    let mut output = Vec::new(alloc);
    let mut begun = Vec::new(alloc);
    let mut block = [0; READ_SIZE];
    loop {
        let Ok(count) = source.read(&mut block) else {
            return Err(ServeFault::Read);
        };
        if count == 0 {
            append_answers(alloc, &begun, &mut output)?;
            return Ok(output);
        }
        append_ended(alloc, &block[..count], &mut begun, &mut output)?;
    }
}

// Appends the answers to the lines that end in a block, and keeps the line that has begun and not
// ended.
fn append_ended<A: Allocator + Copy>(
    alloc: A,
    block: &[u8],
    begun: &mut Vec<u8, A>,
    output: &mut Vec<u8, A>,
) -> Result<(), AllocError> {
    let Some(last) = last_line_feed_at(block) else {
        return begun.extend_from_slice(block);
    };
    let (ended, rest) = block.split_at(last + 1);
    begun.extend_from_slice(ended)?;
    append_answers(alloc, begun, output)?;
    begun.clear();
    begun.extend_from_slice(rest)
}

// Returns the index of the last line feed.
fn last_line_feed_at(bytes: &[u8]) -> Option<usize> {
    // In a block of a long line, std searches many bytes at a time.
    let line_feed = b'\n';
    if !bytes.contains(&line_feed) {
        return None;
    }
    bytes.iter().rposition(|byte| *byte == b'\n')
}

// Writes all bytes.
fn write_all<K: Sink>(sink: &mut K, bytes: &[u8]) -> Result<(), ServeFault> {
    let mut rest = bytes;
    while !rest.is_empty() {
        let Ok(count) = sink.write(rest) else {
            return Err(ServeFault::Write);
        };
        rest = &rest[count..];
    }
    Ok(())
}
