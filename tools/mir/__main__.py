"""Compares the MIR that was proved with the MIR that rustc compiles from the erased Rust.

`python3 tools/mir`: with the MIR that `rt` left in `crates/*/out/rlib`, or, if it left none, with a
copy, for which cargo, rustc, a C compiler, git and python3 suffice.
Each function with code on either side has the same calls in the same order, operands, stores and
result, under the same conditions, on every path; and Rust computes nothing that may panic and that
Rattle does not compute and prove. `std.py` lists what has another form on either side, `names.py`
what is on one side alone.

`--proved` fails unless `rt` left all, and `--write` copies it. `--release` fails unless the copy is
of this tree. `--mutants` also compares wrong Rust, and fails unless exactly the functions differ
that the mutants change.
"""

import collections
import subprocess
import sys
from pathlib import Path

import declared
import facts
import kept
import mutants
from compare import ADVICE, FAULTS, compare, read, taken
from names import Names
from packages import Sources

ROOT = Path(__file__).resolve().parents[2]
PLACE = f"tools/mir/{kept.FILE.name}"
OPTIONS = {"--proved", "--mutants", "--release", "--write"}


def report(names: Names, faults: list[str]) -> int:
    """Compares all functions, and returns how many faults there are, with those that are given."""
    compared = [*compare(names)]
    reasons, alone = names.alone()
    compared += [(name, "on one side alone") for name in alone]
    errors = [*faults, *(f"{name}, {fault}" for name, fault in compared if fault)]
    for reason, count in sorted(reasons.items()):
        print(f"on one side alone: {count} times {reason}")
    for error in errors:
        print(f"Rust that differs: {error}", file=sys.stderr)
    total = collections.Counter(name.split("::")[0] for name, _ in compared)
    same = collections.Counter(name.split("::")[0] for name, fault in compared if not fault)
    crates = ", ".join(f"{it} {same[it]} of {count}" for it, count in sorted(total.items()))
    of_all = f"{same.total()} of {total.total()}"
    print(f"functions with the same MIR on every path: {of_all} ({crates})")
    return len(errors)


def run(options: set[str]) -> int:
    """Runs what the options ask for, and returns how many faults there are."""
    sources = Sources(ROOT)
    names = [*sources.crates.values()]
    if options == {"--write"}:
        kept.write(ROOT, names)
        return 0
    is_left = "--proved" in options or any(kept.left_of(ROOT, it).exists() for it in names)
    copy = {} if is_left else kept.kept()
    crates = kept.left(ROOT, names) if is_left else copy["crates"]
    both = read(ROOT, sources, crates)
    declarations = declared.faults(ROOT, sources.files, sources.lines)
    faults = report(both, [*declarations, *taken(ROOT, both)])
    if "--mutants" in options and not faults:
        faults += mutants.report(ROOT, both, crates)
    if "--proved" in options:
        print(f"the copy in {PLACE} is of {kept.compared(ROOT, crates)}")
    of = "what `rt` left here" if is_left else f"the copy in {PLACE}, of {copy['of']}"
    tree = kept.tree(ROOT)
    is_other = not is_left and not (tree and copy["of"].endswith(tree))
    other = ", not of this tree" if tree else "; git does not say if that is this tree"
    print(f"the MIR that was proved is {of}{other if is_other else ''}")
    rustc = subprocess.run(["rustc", "--version"], capture_output=True, text=True, check=True)
    print(f"the MIR of Rust is by {rustc.stdout}", end="")
    return faults + ("--release" in options and is_other)


def main() -> int | str:
    options = {*sys.argv[1:]}
    if others := options - OPTIONS:
        return f"not known: {' '.join(sorted(others))}"
    sys.setrecursionlimit(20000)
    facts.test()
    try:
        return min(run(options), 1)
    except FileNotFoundError as error:
        fault = f"{error.filename} is missing: run `rt lib` in font_lines, variations and font_c"
    except subprocess.CalledProcessError as error:
        fault = f"{error.stderr or ''}{error}"
    except FAULTS as error:
        fault = f"{type(error).__name__}: {error}\n{ADVICE}"
    print(fault, file=sys.stderr)
    return 1


if __name__ == "__main__":
    sys.exit(main())
