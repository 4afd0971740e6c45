//! Programs, run as Cargo runs them.
#![allow(dead_code)]

use std::fs;
use std::path::{Path, PathBuf};
use std::process::Command;

/// Returns the command of a program that Cargo has built.
pub fn command(program: &Path) -> Command {
    match runner() {
        Some(runner) => {
            let mut command = Command::new(runner);
            command.arg(program);
            command
        }
        None => Command::new(program),
    }
}

/// Returns the runner that Cargo uses for another target, if it has one. Programs for Windows, which
/// Wine runs, start each other without it.
pub fn runner() -> Option<String> {
    let machine = format!("CARGO_TARGET_{}_", std::env::consts::ARCH.to_uppercase());
    let is_runner = |name: &str| {
        name.starts_with(&machine) && name.ends_with("_RUNNER") && !name.contains("_WINDOWS_")
    };
    std::env::vars().find_map(|(name, runner)| is_runner(&name).then_some(runner))
}

/// Writes the file of this test, and returns its path.
pub fn file(bytes: &[u8]) -> PathBuf {
    let test = std::thread::current();
    let path = Path::new(env!("CARGO_TARGET_TMPDIR")).join(test.name().unwrap());
    fs::write(&path, bytes).unwrap();
    path
}

/// Runs a program of `examples`, and returns its output and what it says of an error. `cargo test`
/// builds the program, unless it is told which tests to build.
pub fn run(program: &str, arguments: &[&str]) -> (String, String) {
    let tests = std::env::current_exe().unwrap();
    let folder = tests.ancestors().nth(2).unwrap().join("examples");
    let path = folder.join(format!("{program}{}", std::env::consts::EXE_SUFFIX));
    assert!(
        path.exists(),
        "{}: run `cargo build --examples` first, with `--release` for tests with it",
        path.display()
    );
    let run = command(&path).args(arguments).output().unwrap();
    assert_eq!(run.status.code(), Some(i32::from(!run.stderr.is_empty())));
    let [output, error] = [run.stdout, run.stderr].map(|text| String::from_utf8(text).unwrap());
    (output, error)
}

/// Runs a program of `examples` without arguments, with a file that is no font, and without a file.
pub fn of_other_files(program: &str) {
    let path = file(b"no font at all");
    let usage = run(program, &[]).1;
    assert!(usage.starts_with(&format!("Error: \"usage: cargo run --example {program} -- FONT")));
    let found = run(program, &[path.to_str().unwrap(), ""]).1;
    assert_eq!(found, "Error: \"no font of one face\"\n");
    let found = run(program, &[concat!(env!("CARGO_TARGET_TMPDIR"), "/absent"), ""]).1;
    assert!(found.starts_with("Error: Os {"), "{found}");
}
