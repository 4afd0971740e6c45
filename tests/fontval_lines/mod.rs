//! The stored lines of the program, and their answers.

pub const LINES: &[u8] = include_bytes!("../../crates/fontval/stdin");
pub const ANSWERS: &[u8] = include_bytes!("../../crates/fontval/stdout");

/// Asserts that these are the answers, or names the first line whose answer differs.
#[track_caller]
pub fn assert_answers(found: &[u8], answers: &[u8]) {
    let [lines, found_lines, answer_lines] =
        [LINES, found, answers].map(|bytes| bytes.split(|byte| *byte == b'\n'));
    let rows = lines.zip(found_lines.zip(answer_lines));
    for (n, (line, (found, answer))) in rows.enumerate() {
        let [line, found, answer] = [line, found, answer].map(String::from_utf8_lossy);
        assert_eq!(found, answer, "line {}: {line}", n + 1);
    }
    assert_eq!(found.len(), answers.len());
}
