// @generated from crates/font_lines/src/answers.rt by tools/erase

//! The answers to the lines of an input.

use crate::host::*;

use crate::font_lines::command::Command;
use crate::font_lines::error::{CommandError, LineError};
use crate::font_lines::text::{Lines, Words};
use crate::host::alloc::{AllocError, Allocator};

/// Appends the answers to the lines of an input, each followed by a line feed.
pub fn append_answers<A: Allocator + Copy>(
    alloc: A,
    input: &[u8],
    output: &mut Vec<u8, A>,
) -> Result<(), AllocError> {
    for line in Lines::new(input) {
        append_answer(alloc, line, output)?;
        output.push(b'\n')?;
    }
    Ok(())
}

// Appends the answer to a line.
#[inline(always)]
fn append_answer<A: Allocator>(
    alloc: A,
    line: &[u8],
    output: &mut Vec<u8, A>,
) -> Result<(), AllocError> {
    match append_text(alloc, line, output) {
        Ok(()) => Ok(()),
        Err(CommandError::Memory(error)) => Err(error),
        Err(CommandError::Line(error)) => output.extend_from_slice(error.answer()),
    }
}

// Appends the answer to a line, unless it is an error.
#[inline(always)]
fn append_text<A: Allocator>(
    alloc: A,
    line: &[u8],
    output: &mut Vec<u8, A>,
) -> Result<(), CommandError> {
    let mut words = Words::new(line);
    let name = words.next().ok_or(LineError::UnknownCommand)?;
    Command::named(name)?.answer(alloc, words, output)
}
