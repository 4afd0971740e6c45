"""Compares each function that both sides have, and finds names that files by hand take."""

import re
from collections.abc import Iterator
from pathlib import Path

import rattle
import rust
from names import Differs, Names
from packages import PACKAGES, Sources, printed
from paths import explore

# What a reader says of a form that is none of its own.
FAULTS = (ArithmeticError, AttributeError, LookupError, TypeError, ValueError)
ADVICE = "a form that is refused or not read: rust.py and rattle.py read forms, std.py those of std"


def read(root: Path, sources: Sources, crates: dict[str, rattle.Json]) -> Names:
    """Returns the functions of both sides, by name: of Rust as cargo compiles it, and of crates."""
    text = rust.Text(sources.lines.values())
    for package, target, folder, module in PACKAGES:
        modules = {module} if module else {it.stem for it in (root / folder).iterdir()}
        text.read(printed(root, package, target), modules)
    return Names(text, rattle.Library(crates.values()), sources)


def compare(names: Names) -> Iterator[tuple[str, str | None]]:
    """Yields each function of both sides, and how it differs, or None."""
    for one, other in sorted(names.both.items()):
        fault = None
        try:
            explore(rattle.Body(names.library, one), names.text.functions[other], names)
        except Differs as error:
            fault = f"{error}"
        except FAULTS as error:
            fault = f"{type(error).__name__}: {error}\n    {ADVICE}"
        yield one, fault and f"in Rust {other}\n    {fault}"


def taken(root: Path, names: Names) -> Iterator[str]:
    """Yields what an `impl` by hand has in place of a compared function or constant: one of its name
    or, for a trait, of a default there. The program's `host` is for no user."""
    compared = {it.name for it in names.theirs.values()}
    compared |= {f"{it.module[-1]}::{it.name}" for it in names.theirs.values() if it.module}
    for path in sorted(names.text.by_hand):
        *_, place = [None, *rust.PLACE.finditer(path)]
        if place and not re.search("/(generated|host)/", place[1]):
            line = (root / place[1]).read_text().split("\n")[int(place[2]) - 1]
            head = re.match(r" *impl\b(?:.*?(\w+)(?:<[^>]*>)? for )?", line)
            name = rust.last(path)
            name = f"{head[1]}::{name}" if head and head[1] else name
            if head and name in compared:
                yield f"{place[1]}:{place[2]}: by hand, {name} in place of what is compared"
