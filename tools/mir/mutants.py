"""The mutants of `crates/*/must-fail` as wrong Rust, which the comparison has to refuse."""

import collections
import re
import shutil
import subprocess
import sys
import tempfile
from pathlib import Path

sys.path.append(str(Path(__file__).resolve().parents[1]))
import edits
from compare import compare, read
from names import Names
from packages import Sources
from rattle import Json
from rust import PLACE

# What cargo needs of the repository.
NEEDED = ("Cargo.toml", "Cargo.lock", "src", "examples", "c", "variations")

# How many edits have no place in the Rust, such as those of ghost items, and how many are no Rust.
NOWHERE, NO_RUST = "change what is in no function of the Rust", "do not compile as Rust"
HOW_MANY = {NOWHERE: 5, NO_RUST: 1}

START = re.compile(r"^( *)(?:[\w\"()]+ )*?fn (\w+)", re.M)
OUTER = re.compile(r"^(?:pub(?:\(.*?\))? )?(?:impl|trait (\w+))", re.M)
CONSTANT = re.compile(r"^const (\w+): ", re.M)


class Edit:
    """An edit of a file of Rattle: where it changes the Rust, and the keys of which functions; or
    why it has no place there."""

    def __init__(self, edit: edits.Edit, sources: Sources, root: Path) -> None:
        crate = edit.path.parts[-3]
        self.name, self.reason = edit.name, ""
        self.changes: list[tuple[int, int, str]] = []
        self.keys: set[str | None] = set()
        self.file = sources.files.get(str(edit.file.relative_to(root / "crates")), "")
        if not self.file:
            self.reason = f"change a file of {crate} whose MIR is not compared"
            return
        self.source, self.module = "\n".join(sources.lines[self.file]), sources.module(self.file)
        (function,) = re.findall(r"^(?:\w+::)*(\w+)", edit.function)
        for change in edit.changes:
            own = f"crate::{self.module.split('::')[0]}::"
            self.find(function, *(re.sub(r"\bcrate::", own, it) for it in change))

    def find(self, function: str, old: str, new: str) -> None:
        """Finds the one place of a text, laid out in any way; of several, that in the function, and
        of several there, that laid out as the text is."""
        words = r"\s*".join(map(re.escape, re.findall(r"\w+|[^\w\s]", old.removesuffix(","))))
        after = r"(?:,|(?=\s*[})]))" if old.endswith(",") else ""
        found = [*re.finditer(words + after, self.source)]
        if len(found) > 1:
            keys = ((it, self.key_at(it.start()) or "") for it in found)
            found = [it for it, key in keys if key.endswith(f"::{function}")]
            found = [it for it in found if self.source[it.end()] not in ".("]
        if len(found) > 1:
            found = [it for it in found if self.source.endswith(old, 0, it.end())]
        if len(found) == 1:
            self.changes.append((found[0].start(), found[0].end(), new))
            self.keys |= {self.key_at(it) for it in self.uses(found[0])}
        if len(found) != 1 or None in self.keys or not self.keys:
            self.reason = NOWHERE

    def is_at(self, told: str) -> bool:
        """Returns whether rustc tells of an error at an edited line."""
        lines = [self.source.count("\n", 0, start) + 1 for start, _, _ in self.changes]
        return any(f" {self.file}:{line}:" in told for line in lines)

    def uses(self, found: re.Match[str]) -> list[int]:
        """Returns where a text is or, of a constant, where the file uses that."""
        constant = CONSTANT.match(self.source, found.start())
        uses = constant and re.finditer(rf"\b{constant[1]}\b(?!: )", self.source)
        return [it.start() for it in uses or [found]]

    def key_at(self, place: int) -> str | None:
        """Returns the key of the function that a place is in, or None."""
        *_, start = [None, *START.finditer(self.source, 0, place)]
        if not start or re.search(rf"^{start[1]}\}}", self.source[start.end() : place], re.M):
            return None
        outer = [*OUTER.finditer(self.source, 0, place)][-1] if start[1] else None
        if outer and not outer[1]:
            line = self.source.count("\n", 0, outer.start()) + 1
            return f"{self.file}:{line}::{start[2]}"
        return "::".join([self.module, *([outer[1]] if outer else []), start[2]])


def key_of(name: str) -> str:
    """Returns the path of a function of Rust, with the line of its `impl`; of a closure, the path
    of the function that it is in."""
    name = re.sub(r"(::\{closure.*)?\(\)$", "", name)
    place = PLACE.search(name)
    return f"{place[1]}:{place[2]}::{name.split('::')[-1]}" if place else name


def batches(placed: list[Edit]) -> list[list[Edit]]:
    """Returns lists of the edits, of which no two change one function."""
    found: list[list[Edit]] = []
    for edit in placed:
        free = [it for it in found if not any(edit.keys & other.keys for other in it)]
        if free:
            free[0].append(edit)
        else:
            found.append([edit])
    return found


def differing(root: Path, batch: list[Edit], crates: dict[str, Json]) -> set[str]:
    """Returns the functions that differ from the Rust with those of the edits that compile."""
    changes: dict[str, list[tuple[int, int, str]]] = collections.defaultdict(list)
    for edit in batch:
        changes[edit.file] += edit.changes
    with tempfile.TemporaryDirectory() as folder:
        room = Path(folder)
        for name in NEEDED:
            if (root / name).is_dir():
                shutil.copytree(root / name, room / name)
            else:
                shutil.copy(root / name, room / name)
        for file, found in changes.items():
            text = (room / file).read_text()
            for start, end, new in sorted(found, reverse=True):
                text = text[:start] + new + text[end:]
            (room / file).write_text(text)
        try:
            return {one for one, fault in compare(read(room, Sources(room), crates)) if fault}
        except subprocess.CalledProcessError as error:
            if not (wrong := [it for it in batch if it.is_at(error.stderr)]):
                raise
            for it in wrong:
                it.reason = NO_RUST
    return differing(root, [it for it in batch if not it.reason], crates)


def report(root: Path, both: Names, crates: dict[str, Json]) -> int:
    """Compares the Rust with as many mutants at a time as change different functions, and returns
    how many faults there are: functions with a mutant that are equal, or without that are not."""
    mutants = [Edit(it, both.sources, root) for it in edits.edits(root)]
    keys = {one: key_of(other) for one, other in both.both.items()}
    errors, passed = [], set()
    for batch in batches([it for it in mutants if not it.reason]):
        found = {keys[it] for it in differing(root, batch, crates)}
        passed |= {it.name for it in batch if not (it.reason or it.keys <= found)}
        alone = found - set().union(*(it.keys for it in batch))
        errors += [f"{it} differs without a mutant" for it in sorted(alone)]
    reasons = collections.Counter(it.reason for it in mutants if it.reason)
    for reason, count in HOW_MANY.items():
        if reasons[reason] != count:
            errors.append(f"{reasons[reason]} mutants, not {count}, {reason}")
    for error in errors + [f"{it} passes as a mutant of MIR" for it in sorted(passed)]:
        print(error, file=sys.stderr)
    others = "; ".join(f"{count} {reason}" for reason, count in sorted(reasons.items()))
    placed = len(mutants) - reasons.total()
    print(f"mutants of MIR: {placed - len(passed)} of {placed} refused ({others})")
    return len(errors) + len(passed)
