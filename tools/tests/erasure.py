"""The eraser: the committed files are what it writes, and it refuses what these rows say.
`tools/mir` compares what the compilers make of its output and of the source. `⏎` is the end of a
line."""

import pathlib
import shutil
import subprocess
import sys
import tempfile
import unittest

ROOT = pathlib.Path(__file__).resolve().parents[2]
sys.path.append(str(ROOT / "tools/erase"))
from eraser import Crate, Eraser, Refused

# Sources that are errors, each after its line and what the error says.
REFUSED = r"""
2 `{{`: #[derive(Error)]⏎#[error("{{0, 1}}")]⏎struct Fault;
2 escape: #[derive(Error)]⏎#[error("\x7bN}")]⏎struct Fault;
1 `unsafe`: fn f(n: u32) -> i32 { unsafe { U { n }.m } }
2 `/* */`: fn f() {⏎/* a comment */ }
1 unterminated: fn f() -> char { '⏎' }
1 raw name: const r#crate: u32 = 1;
1 quote: const TEXT: &[u8] = br"a\";
1 no end: fn f() { for n in 250u8.. {} }
1 no end: fn f() { for (n, m) in rows.iter().zip(0u8..) {} }
1 no end: fn f(n: N) -> Option<u8> { n.get(g(250u8..))? }
1 of std: fn f(r: RangeFrom<u8>) { for n in r {} }
1 comment: fn f() ensures { -- }⏎} {}
1 clause: fn f() -> u32 { if requires { return 1; } { 2 } }
1 ghost: fn f(n: u32) { while n < ghost - 1 { return; } {} }
// In the logic `r` is a name, and `\\\"` no end of a text.
1 raw text: fn f(r: u8) -> u8 ensures { two r"\" } { 2 } fn g() {} //" } { 1 }
1 comment: ghost use M.{a, -- }; impl S { fn f(self) {} } use crate::m::{⏎b};
1 Hasher: impl Hasher for H { fn finish(&self) -> u64 { 0 } }
1 reference: impl<T: Mark> Told for &T { fn told(self) -> u8 { 1 } }
1 `zip`: fn f(s: &[u8]) -> usize { s.iter().map(|n| g(n)).zip(t).count() }
1 `zip`: fn f(s: &[u8]) -> usize { Iterator::zip(s.iter().map(|n| g(n)), t).count() }
1 `clone`: fn f() -> u8 { repeat_n(N(5), 1).next() }
2 `{f`: #[derive(Error)]⏎#[error("{f:?}")]⏎struct Fault { f: N }
2 `$`: #[derive(Error)]⏎#[error("{n:>w$}")]⏎struct Fault { n: u8, w: usize }
1 ATTRIBUTES: #[macro_use]⏎mod facts;
1 ATTRIBUTES: #[path = "other.rs"]⏎mod facts;
1 tests: #[cfg(test)]⏎mod others;
1 `unsafe`: #[unsafe(no_mangle)]⏎pub fn memcmp() {}
1 all: use super::*;
1 `extern`: extern crate self as me;
1 STD: use std::mem::swap;
// They depend on the compiler: Rust lays out this struct in 8 bytes, and C in 12.
2 of std: struct Row { tag: u8, at: u32, len: u8 }⏎fn f() -> usize { size_of::<Row>() }
1 `extern`: pub extern "C" fn memcmp() {}
1 all: pub use super::*;
1 ATTRIBUTES: #[macro_export]⏎fn f() {}
1 eraser writes: #[inline]⏎fn f() {}
2 eraser writes: impl N {⏎    #[must_use]⏎    pub fn f(self) -> u8 { 1 } }
1 `clone`: fn f(n: N) -> N { n.to_owned() }
1 `clone`: fn f(n: N) { n.clone_from(m) }
1 of std: fn f() -> bool { needs_drop::<N>() }
1 no end: fn f() { let r = 5..; }
1 `unsafe`: fn f(b: B) { unsafe { std::str::from_utf8_unchecked_mut(b) } }
1 `clone`: fn f(n: N) -> bool { is(n.clone()) }
1 `clone`: fn clone(&self) -> Result<N, AllocError> { Ok(N); Ok(M) }
1 `clone`: fn clone(&self) -> Result<N, AllocError> { f(); Ok(N) }
1 `clone`: fn clone(&self) -> Result<Option<N>, AllocError> { Ok(Some(g()?)) }
1 unknown kind: impl A for B { ghost other = { 2 }; }
"""


def rows(table: str) -> list[str]:
    """Returns the sources of a table, without comments on its rows."""
    lines = table.strip().splitlines()
    return [line.replace("⏎", "\n") for line in lines if not line.startswith("// ")]


def erased(source: str) -> str:
    return Eraser(source, Crate("font_base", "library", ["facts", "json"]), True).written()


class Erasure(unittest.TestCase):
    def setUp(self) -> None:
        self.folder = pathlib.Path(self.enterContext(tempfile.TemporaryDirectory()))
        for name in "c/src crates src tests tools/erase variations".split():
            left_out = shutil.ignore_patterns("out", "__pycache__")
            shutil.copytree(ROOT / name, self.folder / name, ignore=left_out)
        shutil.copy(ROOT / "rustfmt.toml", self.folder)

    def erase(self) -> subprocess.CompletedProcess[str]:
        eraser = [sys.executable, str(self.folder / "tools/erase")]
        return subprocess.run(eraser, capture_output=True, text=True)

    def test_committed_files(self) -> None:
        """It writes what has another text or is gone, removes what is extra, and nothing else."""
        width, changed = (
            "crates/font_fixed/src/fixed_i16/common.rt",
            "c/src/generated/font_c/laws.rs",
        )
        gone, extra = "src/generated/font_tags/tag.rs", "tests/generated/extra.rs"
        for path in width, changed, extra:
            with open(self.folder / path, "a") as file:
                file.write("// changed")
        (self.folder / gone).unlink()
        told = [f"written: {path}" for path in (width, changed, gone)] + [f"removed: {extra}"]
        self.assertEqual(self.erase().stdout.splitlines(), told)
        for path in width, changed, gone:
            self.assertEqual((self.folder / path).read_text(), (ROOT / path).read_text(), path)

    def test_refused(self) -> None:
        for row in rows(REFUSED):
            where, source = row.split(": ", 1)
            line, what = where.split(" ", 1)
            with self.assertRaises(Refused, msg=row) as error:
                erased(source)
            found, told = error.exception.args
            self.assertTrue(str(found) == line and what in told, f"{row}: {found} {told}")
