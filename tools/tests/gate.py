"""The gate, `.ci/run` with `make check`, over stand-ins of what it calls, fails if a call fails, and
names what it leaves out."""

import pathlib
import re
import shutil
import subprocess
import tempfile
import unittest

ROOT = pathlib.Path(__file__).resolve().parents[2]
MEMORY = "crates/rows/src/tests/json/memory.rt"
STORED = "crates/fontval/memory/stdin crates/fontval/memory/stdout"
BUILT = (
    "c/check tools/verdicts tools/goals tests/workspaces compare/compared "
    "crates/rows/out/rows_tests crates/fontval/out/fontval"
)
TOOLS = re.findall(r"\nfor tool in (.*?);", (ROOT / ".ci/run").read_text())[0].split()
TOOLS += "c++ pkg-config nm readelf ldd c++filt objdump".split()
# What the gate and its stand-ins call of the system.
SYSTEM = (
    "bash sh env basename cat cmp dirname find git grep make mkdir mktemp nice nproc paste rm sed sort"
    " tail tee uniq wc"
)

# Faults, beside a call that fails, with which the gate fails, and what others leave out.
FAULTS = (
    "test 1,test 2,early answer,message,answers,bad edit,status of ci,argument,tests,skipped,last call"
).split(",")
FETCH = "cargo fetch --quiet --manifest-path compare/Cargo.toml"
LEFT_OUT = {"crate": "nothing", "--anew": "nothing", "freetype": "FreeType"}
LEFT_OUT["python3 -c import z3"] = "; ".join(
    f"{it}, which needs python3-z3" for it in ("a part of tools", "smt", "smt-checked")
)
LEFT_OUT[FETCH] = "; ".join(
    f"{step}, which needs font-types, which cargo cannot fetch" for step in ("compare", "compared")
)

# It logs its call, and fails if `$FAIL` is its call. What `rt ci` builds asks for one allocation.
STAND_IN = r"""#!/bin/sh
call=$(echo "$(basename "$0") $*" | sed "s|$CARGO_TARGET_DIR|TARGET|g")
echo "$call" >>"$LOG"
[ "$call" != "$FAIL" ] || exit 1
# A step runs as if make did not run it.
[ -z "$MAKEFLAGS$MFLAGS$MAKELEVEL" ] || [ "$call" = "python3 -c import z3" ] || exit 1
case $call in
"check ")
    [ "$FAIL" != freetype ] || echo "left out: FreeType"
    [ "$FAIL" = "last call" ] || echo "the library for C: all calls are right" ;;
"rows_tests --list")
    sed -n '/^#\[test\]/{n; s/^fn \(.*\)(.*/tests::json::memory::\1: test/p}' MEMORY ;;
"rows_tests "*)
    [ "$REFUSE" != 1 ] || echo refused >&2
    [ "$FAIL" != "test $REFUSE" ] ;;
"fontval ")
    [ "$FAIL" = answers ] || [ "$REFUSE" = 1 ] || exec cat crates/fontval/memory/stdout
    [ "$FAIL" != "early answer" ] || echo 0
    printf 'refused\nfontval: %s\n' "$([ "$FAIL" = message ] || echo memory)" >&2
    [ "$REFUSE" != 1 ] ;;
"python3 -B"*)
    [ "$FAIL" = tests ] || echo "Ran 1 tests in 0s"
    [ "$FAIL" = skipped ] && echo "OK (skipped=1)" || echo OK ;;
"fontval --help")
    echo "fontval: takes no arguments."
    [ "$FAIL" = argument ] || exit 2 ;;
"rt help") [ "$FAIL" != --anew ] || echo "rt ci NAME.." >&2 ;;
"rt ci"*)
    [ "$FAIL" != "bad edit" ] || echo "rt: note: bad must-fail edits: some"
    echo "3 passed, $([ "$FAIL" = crate ] && echo 1 || echo 0) failed"
    [ "$FAIL" != "status of ci" ] ;;
"goals ") grep -q passed ;;
"cargo doc"*) mkdir -p "$CARGO_TARGET_DIR/doc" && [ "$RUSTDOCFLAGS" = -Dwarnings ] ;;
esac
""".replace(
    "MEMORY", MEMORY
)


class Gate(unittest.TestCase):
    def setUp(self) -> None:
        self.folder = pathlib.Path(self.enterContext(tempfile.TemporaryDirectory()))
        for path in f".ci/run Makefile {STORED} {MEMORY}".split():
            text = (ROOT / path).read_text()
            self.put(path, text.replace("/usr/bin/python3", "bin/python3"))
        for path in [*BUILT.split(), *(f"bin/{name}" for name in TOOLS)]:
            self.put(path, STAND_IN)
        for name in SYSTEM.split():
            (self.folder / "bin" / name).symlink_to(shutil.which(name) or name)
        subprocess.run(["git", "init", "--quiet", self.folder], check=True)
        self.put("src/lib.rs", "")
        self.put("tools/tests/one.py", "    def test_one(self):\n")
        self.put("crates/font_types/out/rlib/old", "")

    def put(self, name: str, text: str) -> None:
        path = self.folder / name
        path.parent.mkdir(parents=True, exist_ok=True)
        path.write_text(text)
        path.chmod(0o755)

    def run_gate(self, fail: str = "") -> str | None:
        """Runs the gate while a call fails. Returns what it leaves out, unless it fails."""
        (self.folder / "log").write_text("")
        command = [self.folder / ".ci/run"] + ["--anew"] * (fail in ("--anew", "old"))
        environment = {"PATH": f"{self.folder}/bin", "LOG": f"{self.folder}/log", "FAIL": fail}
        gate = subprocess.run(command, env=environment, capture_output=True, text=True)
        told, last = ["", *gate.stdout.splitlines()][-2:]
        passed = f"3 passed, {int(fail == 'crate')} failed"
        self.assertEqual(last, passed if gate.returncode == 0 else "0 passed, 1 failed", fail)
        if gate.returncode != 0:
            return None
        self.assertRegex(told, "^left out: ", fail)
        return told.removeprefix("left out: ")

    def test_calls(self) -> None:
        self.assertEqual(self.run_gate(), "nothing")
        calls = (self.folder / "log").read_text().splitlines()
        self.assertFalse((self.folder / "crates/font_types/out/rlib/old").exists())
        steps = {call for call in calls if not call.startswith(("font", "rows"))}
        # A step that is lost or added changes this number.
        self.assertEqual(len(steps), 27)
        # A step that checks nothing would not fail.
        needed = {"cargo clippy": " -D warnings", "cargo fmt": " --check "}
        needed["python3 -B"] = " -p *.py"
        for call in steps:
            self.assertNotIn("--no-run", call)
            for start, words in needed.items():
                self.assertIn(words, call if call.startswith(start) else words)
        for fail in [*steps, *FAULTS, *LEFT_OUT]:
            self.assertEqual(self.run_gate(fail), LEFT_OUT.get(fail), fail)
        # A kit that keeps no results does not know the argument.
        for kit, call in ("--anew", "rt ci --anew"), ("old", "rt ci"):
            self.assertEqual(self.run_gate(kit), "nothing")
            self.assertIn(call, (self.folder / "log").read_text().splitlines())
