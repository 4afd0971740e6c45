"""The second proof leaves out no function by its name: a row of `tools/smt` calls it, as the compiled
IR of the row shows, or it is outside by one of six rules. Nothing is proved here."""

import ast
import collections
import functools
import pathlib
import re
import subprocess
import sys
import unittest
from collections.abc import Iterator

ROOT = pathlib.Path(__file__).resolve().parents[2]
SOURCE = ROOT / "src/generated"
EXPORTS = ROOT / "c/src/generated"
VARIATIONS = ROOT / "variations/src/generated"

# Of a type with formats, the fraction bits of each.
FORMATS = collections.defaultdict[str, set[int]](set)
for path in SOURCE.rglob("*.rs"):
    for name, bits in re.findall(r"^pub type \w+ = (\w+)<(\d+)>;$", path.read_text(), re.M):
        FORMATS[name].add(int(bits))

# Why a function is in no row: the first rule whose pattern its file, head and signature have.
SLICES = r"&('a )?(mut )?(\[[^;\]]*\]|str)|Shortest|FromStr|Pad\b|Predefined|ScalarArray|TableData"
GENERIC = r"\bFn|<('a, )?(const )?[A-EG-Z]\b|: pub trait"
RULES = {
    "format, hash or copy": r"\b(fmt::|Display|Debug|Hash|Clone)\b",
    "are of texts or arrays of any length, `Pad` or `Predefined`": SLICES,
    "are laws": r"^\w+/laws",
    "are not exported": r"NOT EXPORTED",
    "are generic, or take a closure": GENERIC,
    "take no argument": r"fn \w+\(\)",
}
IN_A_ROW = "have a row"


class Function:
    """A public function: its file and line, the head of its `impl` or trait, and its signature."""

    def __init__(self, file: pathlib.Path, line: int, outer: str, signature: str) -> None:
        self.text, self.at = f"{file}: {outer}: {signature}", (str(file), line)
        head = re.sub(r"^(pub )?(impl|trait)(<[^{]*?>(?= ))? ", "", outer).split(" where")[0]
        _, _, type_ = head.split(": ")[0].rpartition(" for ")
        self.type = re.sub(r"<.*", "", type_.removeprefix("&").strip())
        self.name = "::".join(
            [self.type] * bool(self.type) + re.findall(r"fn (\w+)", signature)[:1]
        )

    def place(self, calls: dict[tuple[str, int], set[int]]) -> str | None:
        """Returns whether rows call the function, of a type of several formats with each, or the
        rule by which none does."""
        if self.at in calls and FORMATS.get(self.type, set()) <= calls[self.at]:
            return IN_A_ROW
        return next((rule for rule, it in RULES.items() if re.search(it, self.text)), None)


def functions(source: pathlib.Path = SOURCE, of: str = "font_types/mod.rs") -> Iterator[Function]:
    """Yields the public functions of a package that have a body."""
    exports = set(re.findall(r"\w+", (source / of).read_text()))
    for path in sorted(source.rglob("*.rs")):
        lines, outer = path.read_text().splitlines(), ""
        for number, line in enumerate(lines) if path.name != "definitions.rs" else ():
            if re.match(r"(pub )?(impl|trait)\b", line):
                outer = " ".join(map(str.strip, lines[number : number + 6])).split("{")[0].strip()
            if line == "}" or line.startswith(("impl", "pub trait")) and line.endswith("}"):
                outer = ""
            text = " ".join(map(str.strip, lines[number : number + 9]))
            found = re.match(r"(pub )?(const )?fn (\w+)[^{;]*(?:\[[^\]]*\][^{;]*)*{", text)
            if found and (found[1] or " for " in outer or outer.startswith("pub trait")):
                hidden = "" if outer or found[3] in exports else "NOT EXPORTED "
                yield Function(path.relative_to(source), number + 1, outer, hidden + found[0])


def exports() -> Iterator[tuple[str, str, tuple[str, int]]]:
    """Yields the exports for C: the name, the parameters, and the file and line."""
    for path in sorted(EXPORTS.rglob("*.rs")):
        text = path.read_text()
        for it in re.finditer(r'^pub (?:unsafe )?extern "C" fn (\w+)(\([^)]*\))', text, re.M):
            line = text.count("\n", 0, it.start()) + 1
            yield it[1], it[2], (str(path.relative_to(EXPORTS)), line)


@functools.cache
def calls() -> dict[tuple[str, int], set[int]]:
    """Returns the functions that rows call, by file and line, with the fraction bits of their
    types."""
    show = "import reach, pathlib; print(reach.called(pathlib.Path('../..')))"
    for python in (sys.executable, "/usr/bin/python3"):
        if subprocess.run([python, "-c", "import z3"], capture_output=True).returncode == 0:
            command = [python, "-B", "-c", show]
            shown = subprocess.run(command, cwd=ROOT / "tools/smt", capture_output=True, text=True)
            if shown.returncode != 0:
                raise AssertionError(f"the rows of tools/smt do not compile:\n{shown.stderr}")
            found = collections.defaultdict[tuple[str, int], set[int]](set)
            for _, called in ast.literal_eval(shown.stdout):
                for file, line, bits in called:
                    found[file, line] |= set(bits)
            return found
    raise unittest.SkipTest("no Python has z3")


class SecondProof(unittest.TestCase):
    def test_no_function_is_left_out(self) -> None:
        known = calls()
        places = [(it.place(known), it.text) for it in functions()]
        missing = [text for place, text in places if place is None]
        self.assertEqual(missing, [], "write a row in tools/smt, or a rule")
        page = (ROOT / "docs/EVIDENCE.md").read_text()
        self.assertEqual([rule for rule in RULES if rule not in page], [])

    def test_each_function_of_variations_has_a_row(self) -> None:
        """Those without a row are listed by EVIDENCE, or outside by another rule than of arrays."""
        known, others = calls(), [it for it in RULES.values() if it != SLICES]
        every = [it for it in functions(VARIATIONS, "mod.rs") if it.at not in known]
        without = {it.name for it in every if not any(re.search(of, it.text) for of in others)}
        page = (ROOT / "docs/EVIDENCE.md").read_text()
        listed = page.split("of variations, what these do:")[1].split(";")[0]
        self.assertEqual(sorted(without), sorted(re.findall(r"`(\w+::\w+)`", listed)))

    def test_each_export_of_numbers_has_a_row(self) -> None:
        """Those without a row take an array, or nothing. EVIDENCE lists them."""
        known, every = calls(), list(exports())
        sources = (it.read_text() for it in EXPORTS.rglob("*.rs"))
        self.assertEqual(len(every), sum(it.count("#[unsafe(no_mangle)]") for it in sources))
        without = {name: parameters for name, parameters, at in every if at not in known}
        page = (ROOT / "docs/EVIDENCE.md").read_text()
        listed = page.split("does not show:")[1].split(";")[0]
        self.assertEqual(sorted(without), sorted(re.findall(r"`(fty_\w+)`", listed)))
        for name, parameters in without.items():
            self.assertRegex(parameters, r": \*(const|mut) |^\(\)$", name)


if __name__ == "__main__":
    for place, count in collections.Counter(it.place(calls()) for it in functions()).most_common():
        print(count, place)
    rows = [it.at in calls() for it in functions(VARIATIONS, "mod.rs")]
    print(f"of variations, {sum(rows)} of {len(rows)} have a row")
