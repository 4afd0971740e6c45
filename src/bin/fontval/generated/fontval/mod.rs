// @generated from crates/fontval/src/main.rt by tools/erase

//! `fontval` reads lines of commands from standard input to its end, and writes an answer to each
//! on standard output. It takes no arguments: one is refused, with status 2. `font_lines` has the
//! commands.
use crate::host::*;

pub use crate::font_lines::device::{Failed, FromRead, FromWrite, Sink, Source};
use crate::font_lines::exit::exit;
pub use crate::font_lines::serve::{ServeFault, serve};
use crate::host::env::{Env, FillError};
use crate::host::io;
use std::process::ExitCode;

const ARGUMENT: &str = "fontval: takes no arguments. It reads lines from standard input, such as \
    `int24 fe1dc0`, and prints an answer to each: see docs/FONTVAL.md in its repository\n";

// No clause can say what the standard streams read and wrote. If standard error fails, its text is
// lost, and the status stays.
pub fn main(rt: HostRuntime) -> ExitCode {
    if !matches!(rt.arg(1, &mut []), Err(FillError::NotPresent)) {
        let _ = eprint!(rt; "{ARGUMENT}");
        return ExitCode::from(2);
    }
    let mut source = FromRead::new(rt.stdin());
    let mut sink = FromWrite::new(io::writer(&rt));
    let (status, message) = exit(serve(rt.alloc(), &mut source, &mut sink));
    let _ = eprint!(rt; "{message}");
    status
}
