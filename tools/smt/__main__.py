"""Proves functions of the Rust in `src` for every argument, by rustc and the solver Z3.

`python3 tools/smt [--checked] [--target TARGET] [--only PATTERN] [--jobs N] [--tree FOLDER]
[--solver COMMAND]`

`--checked` compiles with checks of overflow and debug assertions, and so shows that none of them
fails. Without it, the build has neither, like a release build. `--target` compiles for another
target, whose `std` rustc must have, and whose code is not run. In place of the rows of the gate,
`--long` proves the long ones, and `--exhaustive` those of each number of fraction bits. `--mutants`
tries wrong Rust. `--solver` asks another solver, which reads SMT-LIB, of each goal and lemma that Z3
refutes, and of each term whether it is what Z3 simplified it to. It fails if that solver finds
values, and names the rows and lemmas of which it decides something not."""

import argparse
import ctypes
import multiprocessing
import os
import re
import shlex
import sys
import tempfile
import time
from collections import Counter
from concurrent.futures import ProcessPoolExecutor
from pathlib import Path
from typing import Any, NamedTuple

ROOT = Path(__file__).resolve().parents[2]

try:
    import z3
except ModuleNotFoundError:
    print(f"{sys.executable} has no z3: Debian's package python3-z3 has it, for /usr/bin/python3")
    sys.exit(1)

import arithmetic
import decimals
import faults
from rows import geometry
import printing
from rows import rules
import table
from build import Refusal, build, version
from ir import Module
from memory import globals_of
from proof import fault_of
from state import ANSWERS, LIMIT, SECOND, ask, undecided, use_second

FORK = multiprocessing.get_context("fork")
# What the processes share: the options, the IR, the library, and the rows in groups.
SHARED: tuple[argparse.Namespace, Module, ctypes.CDLL | None, list[list[table.Row]]]


class Proved(NamedTuple):
    """A row as it is shown, why it is not proved, or nothing, and what was spent on it."""

    shown: str
    reason: str
    agreed: int
    seconds: float
    answers: Counter[str]


def prove(index: int) -> list[Proved]:
    """Proves the rows of a group, which have one proof."""
    options, module, library, groups = SHARED
    found: list[Proved] = []
    for row in groups[index]:
        ANSWERS.clear()
        began, proof = time.process_time(), table.proof_of(module, row, library)
        reason = found[0].reason if found else fault_of(proof, options.turns)
        seconds = time.process_time() - began
        shown = f"{row.name:40} {proof.goals:3} goals {seconds:7.2f} s  {reason or 'proved'}"
        shown += undecided()
        found.append(Proved(shown, reason, proof.agreed, seconds, ANSWERS.copy()))
    return found


def prove_apart(index: int) -> list[Proved]:
    """Proves the rows of a group in a process of its own. How long Z3 takes depends on the terms
    that it had before, so these are the same in each run."""
    receive, send = FORK.Pipe(duplex=False)
    process = FORK.Process(target=lambda: send.send(prove(index)))
    process.start()
    send.close()
    try:
        found: list[Proved] = receive.recv()
    except EOFError:
        raise Refusal(f"{SHARED[-1][index][0].name} ends the process that proves it") from None
    process.join()
    return found


def run(options: argparse.Namespace, room: Path) -> list[Proved]:
    """Proves the functions whose names have a pattern, in several processes."""
    global SHARED
    rows = [it for it in options.rows if re.search(options.only, it.name)]
    built = build(options.tree, room, table.wrappers(rows), options.checked, options.target)
    library = ctypes.CDLL(str(built.library)) if built.library else None
    module, groups = Module(built.ir), dict[Any, list[table.Row]]()
    for index, row in enumerate(rows):
        # LLVM makes one function of those with the same code.
        groups.setdefault(table.key(module, row) or index, []).append(row)
    SHARED = options, module, library, list(groups.values())
    # Read before the processes start, the constants are there in each.
    globals_of(module)
    found: list[Proved] = []
    try:
        processes = ProcessPoolExecutor(options.jobs, FORK)
    except OSError as error:
        raise Refusal(f"Python starts no process without a /dev/shm to write to: {error}") from None
    with processes as pool:
        for group in pool.map(prove_apart, range(len(groups))):
            for it in group:
                print(it.shown, flush=True)
            found += group
    with_ = "processor" if library else "rules"
    print(f"the reader agrees with the {with_} on {sum(it.agreed for it in found)} arguments")
    return found


def main() -> int:
    parser = argparse.ArgumentParser(description=__doc__)
    parser.add_argument("--tree", type=Path, default=ROOT)
    parser.add_argument("--only", default="")
    parser.add_argument("--checked", action="store_true")
    parser.add_argument("--target", default="")
    for name, rows in (("--long", table.LONG), ("--exhaustive", table.OF_EACH)):
        parser.add_argument(name, dest="rows", action="store_const", const=rows, default=table.ROWS)
    parser.add_argument("--jobs", type=int, default=os.cpu_count())
    parser.add_argument("--mutants", action="store_true")
    parser.add_argument("--solver", type=shlex.split, default=[])
    parser.add_argument("--turns", type=int, default=3)
    options = parser.parse_args()
    sys.setrecursionlimit(20000)
    use_second(options.solver)
    if options.mutants:
        return int(faults.report(options.tree, options.only) > 0)
    for name, lemma in (
        *arithmetic.lemmas(),
        *rules.lemmas(),
        *geometry.bounds(),
        *decimals.lemmas(),
        *printing.lemmas(),
    ):
        solver = z3.Solver()
        solver.set("rlimit", LIMIT)
        solver.add(z3.Not(lemma))
        if solver.check() != z3.unsat:
            print(f"the lemma {name} is not proved")
            return 1
        before = undecided()
        ask([z3.Not(lemma)])
        if undecided() != before:
            print(f"the other solver does not decide the lemma {name}")
    answers = ANSWERS.copy()
    try:
        rustc = version(options.tree)
        with tempfile.TemporaryDirectory() as room:
            found = run(options, Path(room))
    except Refusal as error:
        print(error, file=sys.stderr)
        return 1
    kind = "checked" if options.checked else "release"
    proved, seconds = sum(not it.reason for it in found), sum(it.seconds for it in found)
    kind += options.target and f" build of {options.target}" or " build"
    count = f"{proved} of {len(found)} functions proved in the {kind}, by {rustc}"
    print(f"{count}, {time.process_time() + seconds:.0f} s of processor")
    if SECOND:
        answers = sum((it.answers for it in found), answers)
        print(f"the other solver refutes {answers['unsat']} of {answers.total()} goals too")
    return int(not found or proved < len(found))


if __name__ == "__main__":
    status = main()
    sys.stdout.flush()
    # The solver's objects are not freed one by one.
    os._exit(status)
