//! The program as Cargo builds it: the stored lines, I/O errors, and out of memory.

use fontval_lines::{ANSWERS, assert_answers};
use std::ffi::OsString;
use std::fs::{self, File};
use std::path::Path;
use std::process::{Output, Stdio};

mod fontval_lines;
mod runner;

const LINES: &str = concat!(env!("CARGO_MANIFEST_DIR"), "/crates/fontval/stdin");

/// Runs the program over these streams.
fn fontval(input: impl Into<Stdio>, output: impl Into<Stdio>) -> Output {
    let mut command = runner::command(Path::new(env!("CARGO_BIN_EXE_fontval")));
    let running = command.stdin(input).stdout(output).stderr(Stdio::piped());
    running.spawn().unwrap().wait_with_output().unwrap()
}

#[track_caller]
fn assert_fails(run: &Output, message: &str) {
    assert_eq!(String::from_utf8_lossy(&run.stderr), message);
    assert_eq!(run.status.code(), Some(1));
}

#[test]
fn stored_lines() {
    let run = fontval(File::open(LINES).unwrap(), Stdio::piped());
    assert!(run.status.success() && run.stderr.is_empty(), "{run:?}");
    assert_answers(&run.stdout, ANSWERS);
}

/// Runs the program over a file of these bytes, and returns what it writes.
fn answers(name: &str, input: &[u8]) -> Vec<u8> {
    let file = Path::new(env!("CARGO_TARGET_TMPDIR")).join(name);
    fs::write(&file, input).unwrap();
    let run = fontval(File::open(&file).unwrap(), Stdio::piped());
    fs::remove_file(file).unwrap();
    assert!(run.status.success() && run.stderr.is_empty(), "{name}");
    run.stdout
}

// Each row begins with a line, and its second cell with the answer.
#[test]
fn answers_of_the_reference() {
    let rows = include_str!("../docs/FONTVAL.md").lines().filter_map(|row| {
        let (line, answer) = row.strip_prefix("| `")?.split_once(" | `")?;
        Some((line.split('`').next()?, answer.split('`').next()?))
    });
    let (lines, right): (Vec<&str>, Vec<&str>) = rows.unzip();
    let found = String::from_utf8(answers("reference", lines.join("\n").as_bytes())).unwrap();
    assert_eq!(found.lines().collect::<Vec<_>>(), right, "{lines:?}");
    assert_eq!(right.len(), 7);
}

// Of each error, a line, and what its row says.
#[test]
fn errors_of_the_reference() {
    let page = include_str!("../docs/FONTVAL.md");
    for (number, line, row) in [
        (1, "int25 fe1dc0", "the command or the type is unknown, or the line has no word"),
        (2, "int24", "the number of words is wrong"),
        (3, "int24 fe1d", "a word is not a hexadecimal number of the right length"),
        (4, "read fixed 1e3", "a word is not a decimal"),
        (5, "read fixed 32768", "a number is out of range"),
        (6, "sum 1 1.5", "a word is not an integer"),
    ] {
        assert_eq!(answers("error", line.as_bytes()), format!("error {number}\n").as_bytes());
        assert!(page.contains(&format!("\n| {number} | {row} |\n")), "{row}");
    }
}

// Of each ending of the answer to a tag, a tag, and what its row says. Tests below show each status.
#[test]
fn tags_and_statuses_of_the_reference() {
    let page = include_str!("../docs/FONTVAL.md");
    let byte = "the byte at index P is outside of 0x20 to 0x7E, or it is a space at the start";
    for (tag, words, row, says) in [
        ("67687379", "valid", "valid", "the tag is valid"),
        ("20202020", "length", "length", "the tag is four spaces"),
        ("20414243", "byte 0", "byte P", byte),
        ("41427F44", "byte 2", "byte P", byte),
        ("41204344", "space 2", "space P", "the byte at index P is from 0x21 to 0x7E, and follows"),
    ] {
        let answer = String::from_utf8(answers("tag", format!("tag {tag}").as_bytes())).unwrap();
        assert!(answer.ends_with(&format!(" {words}\n")), "{answer}");
        assert!(page.contains(&format!("\n| `{row}` | {says}")), "{row}");
    }
    for row in ["2 | the program got an argument", "1 | reading, writing or", "0 | otherwise"] {
        assert!(page.contains(&format!("\n| {row}")), "{row}");
    }
}

// The answers to an input that is cut after a line feed are those to its parts.
#[test]
fn stored_lines_in_parts() {
    let lines = fs::read(LINES).unwrap();
    for (end, _) in lines.iter().enumerate().filter(|(_, byte)| **byte == b'\n') {
        let parts = [&lines[..=end], &lines[end + 1..]].map(|part| answers("part", part));
        assert!(parts.concat() == ANSWERS, "cut at byte {end}");
    }
}

// Lines of 80 KB and of 4 MB, with a line end and without one, and the byte 0x04 at the end.
#[test]
fn long_lines() {
    let line = format!("sum{}\nint8 04\nuint8 64\n\x04", " 1 1".repeat(20_000));
    assert_eq!(answers("long-line", line.as_bytes()), b"20000\n4\n100\nerror 1\n");
    for end in ["", "\n"] {
        let line = format!("\nsum{}{end}", " 1 1".repeat(1_000_000));
        assert_eq!(answers("longer-line", line.as_bytes()), b"error 1\n1000000\n", "{end:?}");
    }
}

// An argument is refused before a line is read, also one of no bytes, or one that is no text.
#[test]
fn arguments() {
    let mut arguments = ["--help", "x", ""].map(OsString::from).to_vec();
    #[cfg(unix)]
    arguments.push(std::os::unix::ffi::OsStringExt::from_vec(vec![0xFF]));
    for argument in arguments {
        let mut command = runner::command(Path::new(env!("CARGO_BIN_EXE_fontval")));
        let run = command.arg(&argument).stdin(Stdio::null()).output().unwrap();
        assert_eq!((run.status.code(), run.stdout.len()), (Some(2), 0), "{argument:?}");
        let told = String::from_utf8(run.stderr).unwrap();
        assert_eq!(
            (told.lines().count(), told.starts_with("fontval: takes no arguments.")),
            (1, true)
        );
    }
}

#[test]
fn empty_input() {
    let run = fontval(Stdio::null(), Stdio::piped());
    assert!(run.status.success() && run.stdout.is_empty() && run.stderr.is_empty());
}

// More than fit in a buffer of 16 MiB.
#[test]
#[cfg_attr(debug_assertions, ignore = "half a minute without optimization")]
fn many_empty_lines() {
    let file = Path::new(env!("CARGO_TARGET_TMPDIR")).join("empty-lines");
    fs::write(&file, vec![b'\n'; 17 << 20]).unwrap();
    let run = fontval(File::open(&file).unwrap(), Stdio::piped());
    fs::remove_file(file).unwrap();
    assert!(run.status.success() && run.stderr.is_empty());
    let mut answers = run.stdout.chunks(8);
    assert_eq!(answers.len(), 17 << 20);
    assert!(answers.all(|answer| answer == b"error 1\n"));
}

#[track_caller]
fn assert_read_fails(input: impl Into<Stdio>) {
    let run = fontval(input, Stdio::piped());
    assert_fails(&run, "fontval: read\n");
    assert!(run.stdout.is_empty());
}

#[track_caller]
fn assert_write_fails(output: impl Into<Stdio>) {
    assert_fails(&fontval(File::open(LINES).unwrap(), output), "fontval: write\n");
}

#[test]
fn streams_of_the_other_direction() {
    let file = Path::new(env!("CARGO_TARGET_TMPDIR")).join("only-written");
    assert_read_fails(File::create(file).unwrap());
    assert_write_fails(File::open(LINES).unwrap());
}

#[test]
#[cfg(unix)]
fn read_errors() {
    assert_read_fails(File::open(env!("CARGO_MANIFEST_DIR")).unwrap());
    // A reader that would block has not ended.
    let (_open, blocks) = std::os::unix::net::UnixStream::pair().unwrap();
    blocks.set_nonblocking(true).unwrap();
    assert_read_fails(std::os::fd::OwnedFd::from(blocks));
}

#[test]
#[cfg(unix)]
fn write_errors() {
    // The reader has closed its end.
    let (here, there) = std::os::unix::net::UnixStream::pair().unwrap();
    drop(there);
    assert_write_fails(std::os::fd::OwnedFd::from(here));
    if Path::new("/dev/full").exists() {
        assert_write_fails(File::create("/dev/full").unwrap());
    }
}

/// Runs the program in a shell that has set a limit, or returns the runner that Cargo has, which
/// the limit would break.
#[cfg(unix)]
fn limited(script: &str) -> Result<Output, String> {
    let mut shell = std::process::Command::new("sh");
    shell.args(["-c", script, env!("CARGO_BIN_EXE_fontval"), LINES]);
    match runner::runner() {
        Some(runner) => Err(runner),
        None => Ok(shell.output().unwrap()),
    }
}

// A file takes all of the answers except the last bytes, fewer than 512.
#[test]
#[cfg(target_os = "linux")]
fn file_size_limit() {
    let blocks = (ANSWERS.len() - 1) / 512;
    let file = Path::new(env!("CARGO_TARGET_TMPDIR")).join("limited");
    let file_name = file.display();
    let script = format!("trap '' XFSZ; ulimit -f {blocks}; \"$0\" <\"$1\" >'{file_name}'");
    if let Ok(run) = limited(&script) {
        assert_fails(&run, "fontval: write\n");
        assert_answers(&fs::read(&file).unwrap(), &ANSWERS[..512 * blocks]);
        fs::remove_file(file).unwrap();
    }
}

// No descriptor is left for a file over standard output.
#[test]
#[cfg(target_os = "linux")]
fn no_descriptor_left() {
    if let Ok(run) = limited("exec <\"$1\" 3<&-; ulimit -n 4; exec \"$0\"") {
        assert_fails(&run, "fontval: write\n");
        assert!(run.stdout.is_empty());
    }
}

// The input does not fit in memory, or the answers do not, which are eight times as long.
#[test]
#[cfg(target_os = "linux")]
fn out_of_memory() {
    for input in ["head -c 20000000 /dev/zero", "yes '' | head -c 1200000"] {
        let script = format!("ulimit -v 16000; {input} | \"$0\"");
        if let Ok(run) = limited(&script) {
            assert_fails(&run, "fontval: memory\n");
            assert!(run.stdout.is_empty());
        }
    }
}

// The status stays if the message cannot be written.
#[test]
#[cfg(target_os = "linux")]
fn no_standard_error() {
    if let Ok(run) = limited("\"$0\" </ 2>/dev/full") {
        assert_eq!(run.status.code(), Some(1));
    }
}
