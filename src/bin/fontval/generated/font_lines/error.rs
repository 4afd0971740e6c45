// @generated from crates/font_lines/src/error.rt by tools/erase

//! The errors of lines and of commands.

use crate::host::*;

use crate::host::alloc::AllocError;
use font_types_proved::DecimalFault;

/// Why a line has no result. Its answer has the number.
#[derive(Clone, Copy, Debug)]
pub enum LineError {
    /// No word, or a first word that names no command.
    UnknownCommand = 1,
    /// Too few words or too many.
    WordCount = 2,
    /// A word that is not hexadecimal, or has another number of bytes.
    NotHexadecimal = 3,
    /// A word that is not a decimal.
    NotDecimal = 4,
    /// A number outside the range of its type.
    OutOfRange = 5,
    /// A word that is not an integer: an optional `-`, and one or more digits.
    NotInteger = 6,
}

impl core::error::Error for LineError {}

impl core::fmt::Display for LineError {
    fn fmt(&self, f: &mut core::fmt::Formatter<'_>) -> core::fmt::Result {
        match self {
            Self::UnknownCommand => write!(f, "unknown command"),
            Self::WordCount => write!(f, "wrong number of words"),
            Self::NotHexadecimal => write!(f, "not hexadecimal bytes of the type"),
            Self::NotDecimal => write!(f, "not a decimal number"),
            Self::OutOfRange => write!(f, "number out of range"),
            Self::NotInteger => write!(f, "not an integer"),
        }
    }
}

impl LineError {
    /// Returns the answer to a line that has the error.
    pub fn answer(self) -> &'static [u8] {
        match self {
            LineError::UnknownCommand => b"error 1",
            LineError::WordCount => b"error 2",
            LineError::NotHexadecimal => b"error 3",
            LineError::NotDecimal => b"error 4",
            LineError::OutOfRange => b"error 5",
            LineError::NotInteger => b"error 6",
        }
    }
}

impl From<DecimalFault> for LineError {
    fn from(fault: DecimalFault) -> LineError {
        match fault {
            DecimalFault::Syntax => LineError::NotDecimal,
            DecimalFault::OutOfRange => LineError::OutOfRange,
        }
    }
}

/// Why a command appends no answer.
#[derive(Clone, Copy, Debug)]
pub enum CommandError {
    /// Out of memory for the answer.
    Memory(AllocError),
    /// The line has an error.
    Line(LineError),
}

impl core::error::Error for CommandError {}

impl core::fmt::Display for CommandError {
    fn fmt(&self, f: &mut core::fmt::Formatter<'_>) -> core::fmt::Result {
        match self {
            Self::Memory(..) => write!(f, "memory"),
            Self::Line(field_0, ..) => write!(f, "{field_0}"),
        }
    }
}

impl From<AllocError> for CommandError {
    fn from(error: AllocError) -> CommandError {
        CommandError::Memory(error)
    }
}

impl From<LineError> for CommandError {
    fn from(error: LineError) -> CommandError {
        CommandError::Line(error)
    }
}
