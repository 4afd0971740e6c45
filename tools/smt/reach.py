"""Which functions the wrapper of each row and its closures call themselves, by the IR that rustc
makes of it before any optimization: the place of a function in the source, and its numbers of
fraction bits."""

import re
import tempfile
from pathlib import Path

import build
import table

OPTIONS = """--crate-type lib -C opt-level=0 -C no-prepopulate-passes -C debuginfo=2
    -C symbol-mangling-version=v0 --emit llvm-ir""".split()

# A file, its line, and numbers of fraction bits of the types in the name.
Called = tuple[str, int, list[int]]
CALL = r"^  (?:\S+ = )?(?:call|invoke) [^@]*@(\w+)"
FILE = re.compile(
    r'^(!\d+) = !DIFile\(filename: "[^"]*/(?:src|c|variations)/generated/([^"]*)"', re.M
)
# A closure of a wrapper, and the length of the wrapper's name, with what begins with the name.
CLOSURE = re.compile(r"_R(?:NC)+\w*?8wrappers(\d+)(\w+)")
FUNCTION = re.compile(r'[nN]ame: "(\w+)", scope: !\d+, file: (!\d+), line: (\d+)')


def called(tree: Path) -> list[tuple[str, list[Called]]]:
    """Returns each row by its name, with the functions that it calls."""
    rows = [*table.ROWS, *table.LONG, *table.OF_EACH]
    with tempfile.TemporaryDirectory() as room:
        ir = build.compiled(tree, Path(room), table.wrappers(rows), OPTIONS)
    files, places = dict(FILE.findall(ir)), {}
    for name, file, line in FUNCTION.findall(ir):
        if file in files:
            bits = [int(it, 16) for it in re.findall(r"FixedI\d\dKm(\w+?)_", name)]
            places[name] = files[file], int(line), bits
    bodies = dict(re.findall(r"^define [^@]*@(\w+)(\(.*?^})", ir, re.M | re.S))
    for name in list(bodies):
        if found := CLOSURE.match(name):
            bodies[found[2][: int(found[1])]] += bodies[name]
    calls = ((it.name, re.findall(CALL, bodies[it.symbol], re.M)) for it in rows)
    return [(row, [places[it] for it in names if it in places]) for row, names in calls]
