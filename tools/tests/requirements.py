"""Each row of requirements.md names tests that are there and run, and rows that they have, or
mutants and the clauses that refuse them."""

import fnmatch
import pathlib
import re
import unittest

ROOT = pathlib.Path(__file__).resolve().parents[2]
PAGE = (ROOT / "tools/tests/requirements.md").read_text()
PATHS = dict(re.findall(r"^\[(.*)\]: ../../(.*)$", PAGE, re.MULTILINE))

# Tests of a file, or mutants of a crate; each has rows, or a clause, in brackets.
NAMES = r"(?:\[([^\]]*)\]|(\w+):) ((?:`[^`]*`(?: \([^)]*\))? ?)+)"
NAME = r"`(.*?)`(?: \((.*?)\))?"

# The attributes that a test may have: of the second and the third kind, one runs in a part of the
# builds alone.
ATTRIBUTES = r"#\[(test|cfg\((unix|target_os = \"linux\")\)|cfg_attr\(debug_assertions, ignore.*)\]"


def is_compiled(path: str) -> bool:
    """Returns whether each folder of modules above a file in Rattle names the next."""
    file = pathlib.Path(path)
    while file.suffix == ".rt" and file.stem not in ("lib", "main"):
        above = file.parent.with_suffix(".rt")
        if file.parent.name == "src":
            (above,) = [
                it for it in map(file.with_name, ("lib.rt", "main.rt")) if (ROOT / it).exists()
            ]
        if not re.search(rf"^mod {file.stem};$", (ROOT / above).read_text(), re.MULTILINE):
            return False
        file = above
    return True


def runs(path: str, name: str) -> bool:
    """Returns whether a file has this test and is compiled; of another file, whether it has the
    name."""
    text = (ROOT / path).read_text()
    if path.endswith(".py"):
        return f"    def {name}(self)" in text
    if not path.endswith((".rs", ".rt")):
        return re.search(rf"(?<!\w){name}(?!\w)", text) is not None
    found = re.search(rf"((?:^ *#\[.*\]\n)*)^ *fn {name}\(", text, re.MULTILINE)
    attributes = found[1].split("\n")[:-1] if found else []
    is_known = all(re.fullmatch(ATTRIBUTES, it.strip()) for it in attributes)
    return "#[test]" in "".join(attributes) and is_known and is_compiled(path)


def rows_of(path: str, name: str) -> list[str]:
    """Returns the texts in each row of a test's table, or the lines that the program is tested
    with."""
    if name == "stored_lines":
        return (ROOT / "crates/fontval/stdin").read_text(errors="replace").splitlines()
    table = (ROOT / path).read_text().partition(f"\nfn {name}(")[2].partition("\n    ] {")[0]
    return [" ".join(re.findall('"(.*?)"', it)) for it in re.split(r"\n +\(", table)]


def has_row(path: str, name: str, row: str) -> bool:
    """Returns whether a test has this line, or each of these texts after the format."""
    head, *texts = [row] if name == "stored_lines" else row.split()
    wanted = [f"{head} {it}" for it in texts] or [head]
    return all(fnmatch.filter(rows_of(path, name), it) for it in wanted)


class Requirements(unittest.TestCase):
    def test_rows_are_shown(self) -> None:
        mutants = set()
        rows = re.findall(r"^.* \| (?!Shown by$|Rejected by$)(.*)$", PAGE, re.MULTILINE)
        lost = [it for it in rows if not re.fullmatch(f"(?:{NAMES})+", it)]
        for label, crate, shown in re.findall(NAMES, "\n".join(rows)):
            for name, told in re.findall(NAME, shown):
                if crate:
                    mutants.add(f"{crate}: {name} ({told})")
                elif not runs(PATHS[label], name):
                    lost.append(f"{PATHS[label]}: {name}")
                for row in told.split(", ") if label and told else ():
                    if not has_row(PATHS[label], name, row):
                        lost.append(f"{PATHS[label]}: {name}: {row}")
        self.assertEqual(lost, [], "requirements.md names what is no test that runs, or no row")
        # Those are required that say so, at the clause of their first line.
        says = "\n# required by tools/tests/requirements.md\n"
        edits = {it: it.read_text() for it in ROOT.glob("crates/*/must-fail/*.edit")}
        required = {
            f"{it.parts[-3]}: {it.stem} ({text.splitlines()[0].removeprefix('# clause: ')})"
            for it, text in edits.items()
            if says in text
        }
        told = "a mutant that requirements.md names says so, with this clause, and no other"
        self.assertEqual(mutants, required, told)
