"""Compiles the package and the exports for C, with a wrapper for each function, to LLVM's IR and to
a library."""

import re
import shutil
import subprocess
from pathlib import Path
from typing import NamedTuple

from rows.row import Case

# How a slice of unknown length is passed: the type of its elements.
SLICES = {"bytes": "u8", "room": "u8", "terms": "(Fixed, i32)", "coordinates": "F2Dot14"}
# The other package, which calls this one by its name.
VARIATIONS = """
extern crate self as font_types_proved;
#[path = "../variations/generated/mod.rs"] pub mod variations;
"""
HEAD = """
#[allow(warnings)]
#[allow(clippy::all)]
pub mod wrappers {
extern crate std;
use super::*;
// A check of them has one place in all wrappers, so that LLVM makes one function of those with the
// same code.
#[inline(always)] unsafe fn slice_of<'a, T>(first: *const T, length: usize) -> &'a [T]
{ unsafe { core::slice::from_raw_parts(first, length) } }
#[inline(always)] unsafe fn slice_of_mut<'a, T>(first: *mut T, length: usize) -> &'a mut [T]
{ unsafe { core::slice::from_raw_parts_mut(first, length) } }
"""
# The name is the one that users compile, because a function may ask for it.
CRATE = "font_types_proved"
COMMON = f"""--edition 2024 --crate-name {CRATE} --cap-lints allow -C codegen-units=1
    -C panic=unwind""".split()
OPTIONS = """--crate-type cdylib -C opt-level=2 -C no-vectorize-loops -C no-vectorize-slp
    -C llvm-args=-unroll-runtime=false --emit llvm-ir,link""".split()


# The sources of both packages and of the exports for C, and where they are copied to.
PARTS = {"src": "src", "c/src": "c", "variations/src": "variations"}


class Built(NamedTuple):
    ir: str
    library: Path | None


class Refusal(Exception):
    """What rustc says of Rust that it does not compile."""


def version(tree: Path) -> str:
    """Returns which rustc this is, which is not older than the package requires."""
    done = subprocess.run(["rustc", "--version"], capture_output=True, text=True, check=True)
    manifest = (tree / "Cargo.toml").read_text()
    least = re.findall(r'^rust-version = "(.*)"$', manifest, re.M)[0]
    one, other = ([int(it) for it in re.findall(r"\d+", of)[:2]] for of in (done.stdout, least))
    if one < other:
        raise Refusal(f"{done.stdout.strip()} is older than {least}, which the package requires")
    return done.stdout.strip()


def returned(type_: str, value: str) -> tuple[str, str]:
    """Returns the integer type that a wrapper returns, and the integer."""
    if type_[0] == "?":
        width = int(type_[2:])
        some = f"1u{2 * width} << {width} | it as u{width} as u{2 * width}"
        return f"u{2 * width}", f"match {value} {{ Some(it) => {some}, None => 0 }}"
    if type_ == "[3]":
        return "u32", f"{{ let it = {value}; u32::from_le_bytes([it[0], it[1], it[2], 0]) }}"
    if type_[0] == "[":
        width = 8 * int(type_[1:-1])
        return f"u{width}", f"u{width}::from_le_bytes({value})"
    return type_, value


def wrapper(case: Case) -> str:
    """Returns two functions of C: one of the arguments, which is proved, and one of a row of
    numbers, by which Python calls it."""
    result, value = returned(case.returns, case.body)
    parameters, given = [], []
    for name, type_ in case.parameters:
        type_ = {"size": "usize"}.get(type_, type_)
        if type_ in SLICES:
            way, mut = ("mut", "_mut") if type_ == "room" else ("const", "")
            pointer, of = f"*{way} {SLICES[type_]}", f"slice_of{mut}"
            parameters += [f"{name}: {pointer}", f"{name}_length: usize"]
            value = f"let {name} = unsafe {{ {of}({name}, {name}_length) }};\n{value}"
            given += [pointer, "usize"]
        else:
            parameters.append(f"{name}: {type_}")
            given.append(type_)
    numbers = ", ".join(f"numbers[{i}] as {type_}" for i, type_ in enumerate(given))
    head = '#[unsafe(no_mangle)] pub extern "C-unwind" fn'
    return (
        f"{head} {case.symbol}({', '.join(parameters)}) -> {result} {{ {value} }}\n"
        f"{head} call_{case.symbol}(numbers: &[u128; 16], result: &mut u128)\n"
        f"{{ *result = {case.symbol}({numbers}) as u128; }}\n"
    )


def exports(room: Path) -> tuple[str, str]:
    """Returns the exports as a module of the package, and as foreign functions of the wrappers, which
    call them by their names."""
    own = re.findall(r"^unsafe fn .*?^}$", (room / "lib.rs").read_text(), re.M | re.S)
    module = "\n".join([
        "use core::slice::{from_raw_parts, from_raw_parts_mut};", *own,
        '#[path = "../c/generated/font_c/mod.rs"] pub mod font_c;',
    ])  # fmt: skip
    texts = (it.read_text() for it in sorted((room / "generated").rglob("*.rs")))
    heads = (re.findall(r'^pub (?:unsafe )?extern "C" (fn [^{;]*?) {$', it, re.M) for it in texts)
    foreign = "".join(f"{head};\n" for of in heads for head in of)
    return (
        module,
        f'use font_c::{{FontFraction, FontMatrix, FontPad, FontPoint}};\nunsafe extern "C" {{ {foreign} }}\n',
    )


def compiled(tree: Path, room: Path, wrappers: str, options: list[str]) -> str:
    """Returns the IR of a copy of the package in a room, with wrappers."""
    for part, name in PARTS.items():
        shutil.copytree(tree / part, room / name)
    module, foreign = exports(room / "c")
    with (room / "src/lib.rs").open("a") as lib:
        lib.write(f"{module}{VARIATIONS}{HEAD}{foreign}{wrappers}}}\n")
    options = [*options, "--emit", "dep-info", "--out-dir", str(room)]
    command = ["rustc", *COMMON, *options, str(room / "src/lib.rs")]
    done = subprocess.run(command, capture_output=True, text=True)
    if done.returncode:
        raise Refusal(done.stderr)
    # A build of cargo has variables that this one lacks.
    if asked := re.findall("^# env-dep:(.*)", (room / f"{CRATE}.d").read_text(), re.M):
        raise Refusal(f"the Rust asks for {', '.join(asked)}")
    return (room / f"{CRATE}.ll").read_text()


def build(tree: Path, room: Path, wrappers: str, checked: bool, target: str = "") -> Built:
    """Compiles as `cargo build --release` does or, checked, with checks of overflow and debug
    assertions. Of another target than this machine's, no library is linked."""
    checks = [
        f"-C{it}={'on' if checked else 'off'}" for it in ("overflow-checks", "debug-assertions")
    ]
    if target:
        others = [{"cdylib": "lib", "llvm-ir,link": "llvm-ir"}.get(it, it) for it in OPTIONS]
        return Built(compiled(tree, room, wrappers, [*others, *checks, "--target", target]), None)
    return Built(compiled(tree, room, wrappers, [*OPTIONS, *checks]), room / f"lib{CRATE}.so")
