"""Proves the functions that c/include/font_types.h has in C, by Clang, the reader and the rules of
the second proof: for every argument, the result is right and nothing is undefined. `c_numbers.py`
and `c_views.py` of `rows` have the rows.

`/usr/bin/python3 tools/smt/header.py [--only PATTERN] [--builds NAME,..] [--solver COMMAND] [FOLDER]`

`clang-22` has the LLVM of rustc 1.95. `FOLDER` has the header. Each build is proved, or those that
are named, of which `--list` prints the names; another name is a target of Clang. `--solver` asks
another solver, as in `tools/smt`. `--program FILE` writes a program in C instead, which prints for
each row a number of what the row returns and writes for random arguments: whichever compiler makes
it, it prints the same, and for sizes of 32 bits whichever processor runs it.
`--constants FILE` writes one in C++14, which compares rows with themselves in constant expressions."""

import argparse
import ctypes
import os
import re
import shlex
import subprocess
import sys
import tempfile
import time
from pathlib import Path

import z3

from c_program import CODE, ROWS, constants, program
from ir import Module
from proof import Proof, Unknown, fault_of
from state import ANSWERS, SECOND, undecided, use_second

CLANG = "clang-22"
FLAGS = """-std=gnu11 -O2 -fno-vectorize -fno-slp-vectorize -fno-unroll-loops -fno-strict-aliasing
    -fno-discard-value-names -fno-asynchronous-unwind-tables -Wall -Wextra -Werror
    -Wno-unused -Wno-unused-parameter""".split()
# As a release has it; with a trap for each check of undefined behavior, none of which is reached;
# and for processors of which the highest byte is the first, or an address has 32 bits.
BUILDS = {
    "default": "-fPIC",
    "checked": "-fPIC -fsanitize=undefined -fsanitize-trap=undefined",
    "big-endian": "--target=s390x-linux-gnu -ffreestanding",
    "32-bit": "--target=wasm32-unknown-unknown -ffreestanding",
}
# What conditions of the header ask for. Of a macro that a program defines, nothing would be proved.
ASKED = set(
    "FONT_TYPES_H SIZE_MAX __BYTE_ORDER__ __GNUC__ __INT_MAX__ __ORDER_LITTLE_ENDIAN__ _MSVC_LANG "
    "__STDC_VERSION__ __builtin_bswap64 __builtin_is_constant_evaluated __clang__ __cplusplus "
    "__has_builtin defined".split()
)
CONDITION = re.compile(r"^[ \t]*(?:#|%:)[ \t]*(?:el)?if(?:n?def)?\b((?:.*\\\n)*.*)", re.M)
HEADER = Path(__file__).resolve().parents[2] / "c/include"
# The most goals of a row, so that a wrong loop ends. No row has half as many.
GOALS = 100


def asked(text: str) -> set[str]:
    """Returns the names that conditions of a header ask for, except those that are known."""
    code = re.sub(r"/\*.*?\*/", " ", text, flags=re.S)
    return set(re.findall(r"\b[A-Za-z_]\w*", " ".join(CONDITION.findall(code)))) - ASKED


class Row(Proof):
    """A proof that ends with a verdict, whichever loop is in the header."""

    def refute(self, why: str, conditions: list[z3.BoolRef]) -> None:
        if self.goals == GOALS:
            self.search()
            raise Unknown(f"more than {GOALS} goals")
        super().refute(why, conditions)


def prove(folder: Path, build: str, only: str) -> int:
    """Proves each row of a build, and returns how many are not proved."""
    began, library = time.process_time(), None
    with tempfile.TemporaryDirectory() as room:
        Path(room, "rows.c").write_text(CODE)
        options = BUILDS.get(build, f"--target={build} -ffreestanding").split()
        clang = [CLANG, *FLAGS, *options, f"-I{folder}", f"{room}/rows.c", "-o"]
        subprocess.run([*clang, f"{room}/rows.ll", "-S", "-emit-llvm"], check=True)
        module = Module(Path(room, "rows.ll").read_text())
        if "-fPIC" in clang:
            subprocess.run([*clang, f"{room}/rows.so", "-shared"], check=True)
            library = ctypes.CDLL(f"{room}/rows.so")
    faults, chosen = 0, [it for it in ROWS if re.search(only, it.name)]
    for case in chosen:
        start, proof, before = time.process_time(), Row(module, case, library), ANSWERS.copy()
        fault = fault_of(proof)
        faults += fault != ""
        shown = f"{proof.goals:3} goals {time.process_time() - start:7.2f} s  {fault or 'proved'}"
        shown += undecided(ANSWERS - before)
        print(f"{case.name:40} {shown}", flush=True)
    seconds = f"{time.process_time() - began:.0f} s of processor"
    count = f"{len(chosen) - faults} of {len(chosen)} rows proved in the {build} build"
    print(f"header: {count}, {seconds}", flush=True)
    return faults


def main() -> int:
    parser = argparse.ArgumentParser(description=__doc__)
    parser.add_argument("folder", type=Path, nargs="?", default=HEADER)
    parser.add_argument("--only", default="")
    parser.add_argument("--builds", default=",".join(BUILDS))
    parser.add_argument("--solver", type=shlex.split, default=[])
    parser.add_argument("--list", action="store_true")
    parser.add_argument("--program", type=Path)
    parser.add_argument("--constants", type=Path)
    options = parser.parse_args()
    sys.setrecursionlimit(20000)
    use_second(options.solver)
    if options.list:
        print("\n".join(BUILDS))
        return 0
    text = (options.folder / "font_types.h").read_text()
    if others := asked(text):
        print(f"conditions of the header ask for {' '.join(sorted(others))}")
        return 1
    functions = re.findall(r"^FTY_API_(INLINE|RUN|STATIC) .*\b(fty_(?!api_)\w+)\(", text, re.M)
    called = set(re.findall(r"fty_\w+", " ".join(it.body for it in ROWS)))
    if options.constants:
        run_only = {name for kind, name in functions if kind == "RUN"}
        code, called = constants(run_only)
        options.constants.write_text(code)
        called |= run_only
    if left := {name for _, name in functions} - called:
        print(f"in no row: {' '.join(sorted(left))}")
        return 1
    if options.program:
        options.program.write_text(program())
    if options.program or options.constants:
        return 0
    builds = options.builds.split(",")
    if not any(re.search(options.only, it.name) for it in ROWS):
        print(f"no row has the pattern {options.only}")
        return 1
    faults = sum(prove(options.folder, it, options.only) for it in builds)
    if SECOND:
        print(f"the other solver refutes {ANSWERS['unsat']} of {ANSWERS.total()} goals too")
    return int(faults > 0)


if __name__ == "__main__":
    status_ = main()
    sys.stdout.flush()
    # The solver's objects are not freed one by one.
    os._exit(status_)
