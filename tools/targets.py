"""Shows for other targets what is shown for x86-64, and prints a row for each:
`tools/release targets [PATTERN]`, for those whose names have the pattern.

Debian's packages have rustc with the source of its std, compilers of C, and qemu. They are unpacked
in a folder that goes at the end, and nothing is installed. If something cannot be had, the row says
why, and the command does not fail for that. It fails if something differs, or if a test or a proof
fails. What failed is printed as an error."""

import itertools
import os
import re
import resource
import shutil
import subprocess
import sys
import tempfile
import time
from collections.abc import Callable
from pathlib import Path
from typing import NamedTuple

ROOT = Path(__file__).resolve().parents[1]
sys.path.append(str(ROOT / "tools/mir"))
from packages import PACKAGES, emitted

# The program is not compared: it has a part for each system.
COMPARED = [(package, kind) for package, kind, *_ in PACKAGES if kind == "--lib"]
RUST = "rustc-web libstd-rust-web-dev cargo-web rust-web-src".split()
MANIFEST = """
[package]
name = "std-of-targets"
edition = "2024"
[lib]
path = "lib.rs"
[dependencies]
std = {{ path = "{library}/std", features = ["panic-unwind"] }}
test = {{ path = "{library}/test" }}
[profile.release.package.compiler_builtins]
codegen-units = 10000
[patch.crates-io]
rustc-std-workspace-core = {{ path = "{library}/rustc-std-workspace-core" }}
rustc-std-workspace-alloc = {{ path = "{library}/rustc-std-workspace-alloc" }}
rustc-std-workspace-std = {{ path = "{library}/rustc-std-workspace-std" }}
[workspace]
"""
VENDOR = """
[source.crates-io]
replace-with = "vendor"
[source.vendor]
directory = "{library}/vendor"
"""


class Target(NamedTuple):
    """A target; which packages its tests need, if they run; the compiler of C, and what runs its
    programs; and whether `tools/smt` reads its code."""

    name: str
    packages: str = ""
    compiler: str = ""
    runner: str = ""
    is_proved: bool = False


TARGETS = (
    Target("aarch64-unknown-linux-gnu"),
    Target("armv7-unknown-linux-gnueabihf"),
    Target("x86_64-pc-windows-msvc"),
    Target("aarch64-apple-darwin"),
    Target(
        "s390x-unknown-linux-gnu",
        "gcc-s390x-linux-gnu libc6-dev-s390x-cross qemu-user",
        "s390x-linux-gnu-gcc",
        "qemu-s390x",
    ),
    Target(
        "i686-unknown-linux-gnu",
        "gcc-i686-linux-gnu libc6-dev-i386-cross",
        "i686-linux-gnu-gcc",
        is_proved=True,
    ),
    Target("wasm32-unknown-unknown", is_proved=True),
)


class Absent(Exception):
    """Something cannot be had."""


class Fault(Exception):
    """Something differs, fails or is not proved."""


def run(*command: str | Path, where: Path = ROOT, **variables: str) -> str:
    """Runs a command, with some variables, and returns what it prints."""
    done = subprocess.run(
        command, cwd=where, env=os.environ | variables, text=True, errors="replace",
        stdout=subprocess.PIPE, stderr=subprocess.STDOUT,
    )  # fmt: skip
    if done.returncode:
        print(*command, f"\n{done.stdout}", file=sys.stderr, flush=True)
        last = done.stdout.strip().split("\n")[-1]
        raise Fault(f"{Path(command[0]).name} ends with {done.returncode}: {last}")
    return done.stdout


class Machine:
    """Debian's packages, unpacked in a room, and the MIR for x86-64."""

    def __init__(self, room: Path) -> None:
        self.room, self.tree = room, room / "tree"
        (room / "lists/partial").mkdir(parents=True)
        self.apt("update")
        self.unpack(RUST)
        self.library = self.tree / "usr/lib/rustlib/src/rust/library"
        if not (self.tree / "usr/bin/rustc").exists():
            raise Absent("rustc-web is installed, so that no folder of its own can have it")
        os.environ["PATH"] = f"{self.tree}/usr/bin:{os.environ['PATH']}"
        os.environ["LD_LIBRARY_PATH"] = f"{self.tree}/usr/lib/x86_64-linux-gnu"
        for it in ("CARGO_BUILD_TARGET", "CARGO_TARGET_DIR"):
            os.environ.pop(it, None)
        self.mir = mir()

    def apt(self, *arguments: str, where: Path = ROOT) -> str:
        """Asks apt, with lists of its own, and returns what it prints."""
        folders = (f"-oDir::State::Lists={self.room}/lists", f"-oDir::Cache={self.room}")
        command = ["apt-get", *folders, *arguments]
        done = subprocess.run(command, cwd=where, text=True, capture_output=True)
        if done.returncode:
            raise Absent(" ".join([f"apt-get {arguments[0]}:", *done.stderr.split()]))
        return done.stdout

    def unpack(self, packages: list[str]) -> None:
        """Unpacks packages, and those that they need and this machine lacks."""
        told = self.apt("install", "--simulate", "--no-install-recommends", *packages)
        folder = Path(tempfile.mkdtemp(dir=self.room))
        self.apt("download", *re.findall(r"^Inst (\S+)", told, re.M), where=folder)
        for file in folder.iterdir():
            run("dpkg", "-x", file, self.tree)

    def build_std(self, target: Target) -> None:
        """Builds std, or `core` if no code of the target is run or proved. Where the C library is
        static, no shared one is linked."""
        folder = self.room / "std"
        folder.mkdir(exist_ok=True)
        (folder / "lib.rs").touch()
        (folder / "Cargo.toml").write_text(MANIFEST.format(library=self.library))
        (folder / "vendor.toml").write_text(VENDOR.format(library=self.library))
        is_whole = target.compiler or target.is_proved
        crates = ("std", "test") if is_whole else ("core", "compiler_builtins")
        build = "cargo build --release --offline --config vendor.toml --target-dir target".split()
        build += [f"--package={it}" for it in crates]
        flags = "-Zforce-unstable-if-unmarked -Cembed-bitcode=yes -Ctarget-feature=+crt-static"
        run(
            *build, where=folder, RUSTC_BOOTSTRAP="1", RUSTFLAGS=flags,
            CARGO_PROFILE_RELEASE_OPT_LEVEL="3" if is_whole else "0",
        )  # fmt: skip
        own = self.tree / "usr/lib/rustlib" / target.name / "lib"
        own.mkdir(parents=True)
        for file in (folder / "target" / target.name / "release/deps").glob("*.rlib"):
            shutil.copy(file, own)


def mir() -> dict[str, str]:
    """Returns the MIR of both packages and of the library for C."""
    try:
        return {it: emitted(ROOT, it, kind) for it, kind in COMPARED}
    except subprocess.CalledProcessError as error:
        print(error.stderr, file=sys.stderr, flush=True)
        raise Fault("there is no MIR") from None


def compared(target: Target, machine: Machine) -> str:
    """Compares MIR, byte for byte, with that for x86-64."""
    machine.build_std(target)
    total = 0
    for package, text in mir().items():
        lines = itertools.zip_longest(machine.mir[package].split("\n"), text.split("\n"))
        for number, pair in enumerate(lines, 1):
            if len({*pair}) > 1:
                print(*pair, sep="\n", file=sys.stderr, flush=True)
                raise Fault(f"line {number} of the MIR of `{package}` differs")
        total += text.count("\n")
    return f"the same, {total:,} lines"


def tested(target: Target, machine: Machine) -> str:
    """Runs the tests of both packages, with the examples in their documentation, and those in C."""
    machine.unpack(target.packages.split())
    tests = machine.room / "tests"
    told = [
        run("cargo", "test", "--target-dir", tests, where=ROOT / it) for it in (".", "variations")
    ]
    passed = sum(map(int, re.findall(r"^test result: ok\. (\d+) passed", "".join(told), re.M)))
    run("cargo", "build", "--release", "--target-dir", tests, where=ROOT / "c")
    library, program = tests / target.name / "release/libfont_types.a", tests / "program"
    shown = [f"{passed} passed"]
    for name in ("table", "header"):
        options = f"-static -std=c99 -O1 -Ic/include c/tests/{name}.c".split()
        run(target.compiler, *options, library, "-o", program)
        shown.append(run(*target.runner.split(), program).strip())
    return "; ".join(shown)


def proved(target: Target, machine: Machine) -> str:
    """Runs the second proof of the package and of the header."""
    python = "/usr/bin/python3"
    if subprocess.run([python, "-c", "import z3"], capture_output=True).returncode:
        raise Absent(f"{python} has no z3")
    told = run(python, "tools/smt", "--target", target.name)
    told += run(python, "tools/smt/header.py", "--builds", target.name)
    return "; ".join(re.findall(r"^(?:header: )?\d+ of \d+ \w+ proved", told, re.M))


def show(target: Target, machine: Machine) -> bool:
    """Prints the row of a target, and returns whether something is wrong."""
    name = f"CARGO_TARGET_{target.name.upper().replace('-', '_')}"
    os.environ["CARGO_BUILD_TARGET"] = target.name
    if target.compiler:
        os.environ[f"{name}_LINKER"] = target.compiler
        os.environ[f"{name}_RUSTFLAGS"] = "-Ctarget-feature=+crt-static"
        os.environ[f"{name}_RUSTDOCFLAGS"] = "-Ctarget-feature=+crt-static"
    if target.runner:
        os.environ[f"{name}_RUNNER"] = target.runner
    steps: list[Callable[[Target, Machine], str]] = [compared]
    steps += [tested] if target.compiler else []
    steps += [proved] if target.is_proved else []
    cells, is_wrong = [target.name], False
    for step in steps:
        try:
            cells.append(f"{step.__name__}: {step(target, machine)}")
        except (Absent, Fault) as error:
            cells.append(f"not {step.__name__}: {error}")
            is_wrong |= isinstance(error, Fault)
    print(f"| {' | '.join(cells)} |", flush=True)
    return is_wrong


def main() -> int:
    began, pattern = time.monotonic(), " ".join(sys.argv[1:])
    chosen = [it for it in TARGETS if re.search(pattern, it.name)]
    try:
        with tempfile.TemporaryDirectory() as room:
            machine = Machine(Path(room))
            print(run("rustc", "--version").strip(), flush=True)
            wrong = sum(show(it, machine) for it in chosen)
    except (Absent, Fault) as error:
        print(error, file=sys.stderr)
        return 1
    minutes, spent = (time.monotonic() - began) / 60, resource.getrusage(resource.RUSAGE_CHILDREN)
    told = f"{minutes:.0f} minutes, {(spent.ru_utime + spent.ru_stime) / 60:.0f} of processor"
    print(f"{wrong} of {len(chosen)} targets differ or fail, {told}")
    return int(wrong > 0 or not chosen)


if __name__ == "__main__":
    sys.exit(main())
