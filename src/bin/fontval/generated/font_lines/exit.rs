// @generated from crates/font_lines/src/exit.rt by tools/erase

//! The exit status and the message.

use crate::host::*;

use crate::font_lines::serve::ServeFault;
use std::process::ExitCode;

/// Returns the exit status, and the text for standard error.
pub fn exit(served: Result<(), ServeFault>) -> (ExitCode, &'static str) {
    match served {
        Ok(()) => (ExitCode::SUCCESS, ""),
        Err(ServeFault::Memory) => (ExitCode::FAILURE, "fontval: memory\n"),
        Err(ServeFault::Read) => (ExitCode::FAILURE, "fontval: read\n"),
        Err(ServeFault::Write) => (ExitCode::FAILURE, "fontval: write\n"),
    }
}
