//! The program `fontval`: the proved source of `crates/fontval` and of `crates/font_lines`, over the
//! module `host`, which replaces the parts of Rattle's std that differ from Rust's.
//!
//! As cargo builds it, Rust's runtime opens `/dev/null` for a stream that was closed before: answers
//! are then lost with status 0. It also aborts if an allocation at startup fails.

mod host;

/// Writes to standard error, and returns an error if that fails.
macro_rules! eprint {
    ($rt:expr; $($text:tt)*) => {
        $crate::host::io::eprint(&$rt, format_args!($($text)*))
    };
}

// `has_failed` is for contracts, and not every file needs the names that Rattle has in scope.
#[allow(dead_code, unused_imports, clippy::explicit_counter_loop)]
#[path = "generated/font_lines/mod.rs"]
mod font_lines;
#[allow(unused_imports)]
#[path = "generated/fontval/mod.rs"]
mod fontval;

fn main() -> std::process::ExitCode {
    fontval::main(host::HostRuntime)
}
