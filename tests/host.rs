//! The program's replacement of Rattle's std: results that its source relies on, and errors, also
//! those of the program if an allocation fails.
#![allow(dead_code)]

mod fontval_lines;
#[path = "../src/bin/fontval/host/mod.rs"]
mod host;

#[allow(unused_imports, clippy::explicit_counter_loop)]
#[path = "../src/bin/fontval/generated/font_lines/mod.rs"]
mod font_lines;

use font_lines::device::{FromRead, FromWrite};
use font_lines::serve::{ServeFault, serve};
use fontval_lines::{ANSWERS, LINES, assert_answers};
use host::alloc::{Global, Vec};
use host::{hex, io};
use std::alloc::{GlobalAlloc, Layout, System};
use std::cell::Cell;

// ---- hexadecimal digits

#[test]
fn hex_encoding() {
    for byte in 0..=u8::MAX {
        let mut digits = [0; 2];
        hex::encode_to_slice(&[byte], &mut digits).unwrap();
        assert_eq!(digits, *format!("{byte:02x}").as_bytes());
    }
    let mut digits = [0; 16];
    hex::encode_to_slice(b"\0\x12\xFFabcd\x80", &mut digits).unwrap();
    assert_eq!(&digits, b"0012ff6162636480");
    for len in (0..20).filter(|len| *len != 16) {
        let mut digits = [b'~'; 20];
        assert!(hex::encode_to_slice(&[0; 8], &mut digits[..len]).is_err());
        assert_eq!(digits, [b'~'; 20]);
    }
}

// All pairs of bytes: only hexadecimal digits are accepted, in either case.
#[test]
fn hex_decoding() {
    let value = |digit: u8| char::from(digit).to_digit(16).map(|value| value as u8);
    for high in 0..=u8::MAX {
        for low in 0..=u8::MAX {
            let mut byte = [0];
            let read = hex::decode_to_slice(&[high, low], &mut byte);
            match (value(high), value(low)) {
                (Some(high), Some(low)) => assert_eq!(byte, [16 * high + low]),
                _ => assert!(read.is_err(), "{high} {low}"),
            }
        }
    }
    let mut bytes = [0; 4];
    hex::decode_to_slice(b"0012fFA9", &mut bytes).unwrap();
    assert_eq!(bytes, [0, 0x12, 0xFF, 0xA9]);
    for len in (0..12).filter(|len| *len != 8) {
        assert!(hex::decode_to_slice(&[b'0'; 12][..len], &mut bytes).is_err());
    }
}

// ---- memory

thread_local! {
    /// The number of allocations of this thread before one that fails.
    static PASSES: Cell<usize> = const { Cell::new(usize::MAX) };
}

/// An allocator that fails if more than a megabyte is requested, except for the backtrace of a
/// panic, and once after `PASSES` calls.
struct Limited;

#[global_allocator]
static ALLOCATOR: Limited = Limited;

// SAFETY: it calls the system's allocator, or returns null.
unsafe impl GlobalAlloc for Limited {
    unsafe fn alloc(&self, layout: Layout) -> *mut u8 {
        let passes = PASSES.replace(PASSES.get().wrapping_sub(1));
        if passes == 0 || (layout.size() > 1 << 20 && !std::thread::panicking()) {
            return std::ptr::null_mut();
        }
        unsafe { System.alloc(layout) }
    }

    unsafe fn dealloc(&self, bytes: *mut u8, layout: Layout) {
        unsafe { System.dealloc(bytes, layout) }
    }
}

/// Returns how many calls succeed before one fails.
fn count_until_error<E>(mut done: impl FnMut() -> Result<(), E>) -> usize {
    let mut count = 0;
    while done().is_ok() {
        count += 1;
        assert!(count <= 1 << 20);
    }
    count
}

// An error leaves the contents unchanged.
#[test]
fn vector_allocation_errors() {
    assert!(Vec::<u64, _>::with_capacity(Global, usize::MAX).is_err());
    assert!(Vec::<u64, _>::with_capacity(Global, 1 << 17).is_ok());
    assert!(Vec::<u64, _>::with_capacity(Global, (1 << 17) + 1).is_err());
    let mut vec = Vec::new(Global);
    let pushed = count_until_error(|| vec.push(7u64));
    assert_eq!(*vec, std::vec![7; pushed]);
    assert_eq!(pushed, 1 << 17);
    let mut vec = Vec::new(Global);
    let pushed = count_until_error(|| vec.extend_from_slice(&[1u8, 2, 3]));
    assert_eq!(*vec, [1, 2, 3].repeat(pushed));
    assert!(pushed > 1 << 17);
}

/// A reader that reads one byte a call.
struct Drip<'a>(&'a [u8]);

impl io::Read for Drip<'_> {
    fn read(&mut self, bytes: &mut [u8]) -> io::Result<usize> {
        self.0.read(&mut bytes[..1])
    }
}

/// A reader that reads two parts, each in a call of its own.
struct Parts<'a>(&'a [u8], &'a [u8]);

impl io::Read for Parts<'_> {
    fn read(&mut self, bytes: &mut [u8]) -> io::Result<usize> {
        if self.0.is_empty() {
            self.0 = std::mem::take(&mut self.1);
        }
        self.0.read(bytes)
    }
}

// A line begins in one read and ends in another, at each place of each stored line.
#[test]
fn reads_that_cut_lines() {
    for end in 0..=LINES.len() {
        let mut source = FromRead::new(Parts(&LINES[..end], &LINES[end..]));
        let mut taken = [0; ANSWERS.len()];
        let mut sink = FromWrite::new(taken.as_mut_slice());
        assert!(serve(Global, &mut source, &mut sink).is_ok());
        assert!(taken == *ANSWERS, "cut at byte {end}");
    }
}

// Also at the ends of a block of 16,384 bytes and at places between, with lines of 0, 1 and 16,384
// bytes.
#[test]
fn reads_that_cut_blocks() {
    let block = format!("uint8{:>16379}", "7f");
    for (end, answers) in
        [("", "error 1\nerror 1\n127\n"), ("\n\n", "error 1\nerror 1\n127\nerror 1\n")]
    {
        let lines = ["\na\n", &block, end].concat();
        for cut in (0..64).chain((64..16320).step_by(127)).chain(16320..=16384) {
            let (front, back) = lines.as_bytes().split_at(cut);
            let mut taken = [0; 40];
            let mut sink = FromWrite::new(&mut taken[..]);
            assert!(serve(Global, &mut FromRead::new(Parts(front, back)), &mut sink).is_ok());
            assert!(taken.starts_with(answers.as_bytes()), "cut at byte {cut}, {end:?} at the end");
            assert_eq!(taken[answers.len()], 0, "cut at byte {cut}, {end:?} at the end");
        }
    }
}

// Each allocation of a run over the stored lines fails in turn, until none is left that could.
#[test]
fn serve_allocation_errors() {
    for passes in 0.. {
        let mut source = FromRead::new(Drip(LINES));
        let mut taken = [0; ANSWERS.len()];
        let mut sink = FromWrite::new(taken.as_mut_slice());
        PASSES.set(passes);
        let result = serve(Global, &mut source, &mut sink);
        if PASSES.replace(usize::MAX) <= passes {
            assert_answers(&taken, ANSWERS);
            assert!(result.is_ok() && passes > 40, "{passes}");
            break;
        }
        let is_memory = matches!(result, Err(ServeFault::Memory));
        assert!(is_memory && taken == [0; ANSWERS.len()], "{passes}");
    }
}

// Each line alone, so that each command makes the allocation that fails.
#[test]
fn allocation_errors_of_each_line() {
    for line in LINES.split_inclusive(|byte| *byte == b'\n') {
        for passes in 0.. {
            let mut taken = [0; 4096];
            let (mut source, mut sink) = (FromRead::new(line), FromWrite::new(&mut taken[..]));
            PASSES.set(passes);
            let result = serve(Global, &mut source, &mut sink);
            if PASSES.replace(usize::MAX) <= passes {
                assert!(result.is_ok(), "{}", line.escape_ascii());
                break;
            }
            let is_memory = matches!(result, Err(ServeFault::Memory));
            assert!(is_memory, "{passes}: {}", line.escape_ascii());
        }
    }
}

// With ample memory no line is too long.
#[test]
fn line_of_many_terms() {
    for (words, answer) in [("sum", "3000\n"), ("vary 0", "196608000\n")] {
        let (line, mut taken) = (words.to_owned() + &" 1 1".repeat(3000), [0; 16]);
        let mut sink = FromWrite::new(&mut taken[..]);
        assert!(serve(Global, &mut FromRead::new(line.as_bytes()), &mut sink).is_ok());
        assert!(taken.starts_with(answer.as_bytes()), "{words}");
    }
}

// ---- streams

// Without a descriptor, each call fails.
#[test]
#[cfg(unix)]
fn missing_streams() {
    use io::{Read, Write};
    use std::os::fd::BorrowedFd;
    // SAFETY: it is only duplicated, which fails.
    let missing = unsafe { BorrowedFd::borrow_raw(1 << 20) };
    let mut stream = io::Stream::over(missing);
    assert!(stream.read(&mut [0; 9]).is_err());
    assert!(stream.write(b"a").is_err());
    assert!(stream.flush().is_err());
}
