"""The mutants of `crates/*/must-fail` as wrong Rust: each is refused, or changes no function."""

import ctypes
import re
import shutil
import sys
import tempfile
from collections import Counter
from importlib import import_module
from pathlib import Path
from typing import Any

from build import PARTS, Refusal, build
from ir import Module
from proof import fault_of
from table import ROWS, Row, proof_of, wrappers

# Of parsing, one function of each format. Those that take long are last.
TRIED = [it for it in ROWS[::-1] if not re.search(r"::from_decimal\(|FromStr|::lit", it.name)]
NUMBERED = re.compile(r"!\d+|#\d+|@(?:alloc_|anon\.)\w+(?:\.\d+)*|17h[0-9a-f]{16}E")


def edits(tree: Path) -> list[Any]:
    """Returns the mutants as edits of the Rust, as the comparison of MIR finds their places."""
    tools = Path(__file__).parents[1]
    sys.path += [str(tools / "mir"), str(tools)]
    mir, packages, texts = map(import_module, ("mutants", "packages", "edits"))
    sources = packages.Sources(tree)
    return [mir.Edit(it, sources, tree) for it in texts.edits(tree)]


def bodies(ir: str) -> dict[str, str]:
    """Returns the IR of each function, with that of the functions that it calls, by its name."""
    found = {}
    for name, body in re.findall(r"^define [^@]*@(\S+?)\((.*?)^}", ir, re.M | re.S):
        found["@" + name.strip('"')] = NUMBERED.sub("", body)
    for name, other in re.findall(r"^(@\S+) = .*\balias .*, ptr (@\S+)$", ir, re.M):
        found[name] = found[other]
    called = {it: set(re.findall(r"@\w+", body)) & found.keys() for it, body in found.items()}
    others = {it: "".join(found[name] for name in sorted(called[it])) for it in found}
    return {it: body + others[it] for it, body in found.items()}


def refused(tree: Path, cases: list[Row], right: dict[str, str]) -> tuple[str, str]:
    """Returns a verdict on wrong Rust, and what shows it."""
    with tempfile.TemporaryDirectory() as room:
        try:
            built = build(tree, Path(room), wrappers(cases), False)
        except Refusal as error:
            return "refused by rustc", str(error).splitlines()[0]
        now, library = bodies(built.ir), ctypes.CDLL(str(built.library))
        changed = [it for it in cases if now[f"@{it.symbol}"] != right[f"@{it.symbol}"]]
        module, reasons = Module(built.ir), []
        for case in changed:
            reason = fault_of(proof_of(module, case, library))
            if reason.startswith("REFUSED"):
                return "refused", f"{case.name}{reason.removeprefix('REFUSED')}"
            reasons += [f"{case.name}: {reason}"] * bool(reason)
        if reasons:
            return "not proved", reasons[0]
        return ("proved", changed[0].name) if changed else ("in no function of the list", "")


def report(tree: Path, only: str) -> int:
    """Tries each mutant, and returns how many are neither refused nor outside of the list."""
    counts: Counter[str] = Counter()
    with tempfile.TemporaryDirectory() as room:
        right = bodies(build(tree, Path(room), wrappers(TRIED), False).ir)
    for edit in edits(tree):
        if not re.search(only, edit.name):
            continue
        verdict, shown = edit.reason or "", ""
        if not verdict and not edit.file.startswith(tuple(f"{it}/" for it in PARTS)):
            verdict = "of another package"
        if not verdict:
            with tempfile.TemporaryDirectory() as room:
                copy = Path(room)
                for part in PARTS:
                    shutil.copytree(tree / part, copy / part)
                text = (copy / edit.file).read_text()
                for start, end, new in sorted(edit.changes, reverse=True):
                    text = text[:start] + new + text[end:]
                (copy / edit.file).write_text(text)
                verdict, shown = refused(copy, TRIED, right)
        counts[verdict] += 1
        print(f"{edit.name}: {verdict} {shown}".rstrip(), flush=True)
    verdicts = "; ".join(f"{count} {verdict}" for verdict, count in sorted(counts.items()))
    print(f"mutants: {verdicts}")
    return counts["proved"] + counts["not proved"]
