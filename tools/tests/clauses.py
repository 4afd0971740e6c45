"""Each public function, trait method, law and export has a contract for what it gives: its clauses
name `result`, if it returns something, and `x.new` of each `x: &mut T`; and each `impl` of a trait
has a ghost item. PROMISES lists the functions with a precondition, and the page of each has a
section `# Panics`."""

import pathlib
import re
import sys
import unittest
from collections.abc import Iterator

ROOT = pathlib.Path(__file__).resolve().parents[2]
sys.path += [str(ROOT / "tools"), str(ROOT / "tools/erase")]
import forms
from edits import edits
from eraser import LIBRARY, Crate, Eraser

# Clauses of no name, of std and of a call, and what an edit adds.
OF_OTHERS = {"ensures", "steps", "exact", "place", "decode", "styled"}
OF_EDITS = {"call of decode", "five bytes", "Level"}

# Files of `font_fixed` whose public functions take raw values, and are not in the package's API.
RAW_VALUES = ("products", "reading", "rounding")

# The clauses of these traits are of their functions alone.
WITHOUT_GHOST = ("ExactSizeIterator", "ByteChunks")


def angle_end(words: list[str], at: int) -> int:
    """The end of the generics that open here."""
    depth = 0
    for n in range(at, len(words)):
        depth += (words[n] == "<") - (words[n] == ">" and words[n - 1] != "-")
        if depth == 0:
            return n + 1
    raise IndexError("generics that do not close")


def gives(eraser: Eraser, at: int) -> list[str]:
    """Returns what the clauses of a function have to name, by its header."""
    words = eraser.words
    opens = angle_end(words, at + 2) if words[at + 2] == "<" else at + 2
    end = eraser.group_end(opens)
    parameters = " ".join(words[opens:end])
    # What the result borrows has no value at the return.
    borrowed = words[end : eraser.header_end(at)]
    mutable = re.findall(r"(\w+) : & (?:('\w+) )?mut ", parameters)
    found = [f"{name} . new" for name, lifetime in mutable if lifetime not in borrowed]
    found += ["self . new"] * bool(re.match(r"\( & (?:'\w+ )?mut self ", parameters))
    if words[end : end + 2] != ["-", ">"]:
        return found
    if words[end + 2] != "(":
        return found + ["result"]
    # Each part of a tuple.
    part, parts = end + 3, 1
    while words[part] != ")":
        parts += words[part] == ","
        part = angle_end(words, part) if words[part] == "<" else eraser.group_end(part)
    return found + [f"result . {n}" for n in range(parts)]


def says(eraser: Eraser, clause: range) -> str:
    """Returns the words of an `ensures`, or nothing if it says what is always so."""
    if eraser.words[clause.start] != "ensures":
        return ""
    text = " ".join(eraser.words[eraser.words.index("{", clause.start) + 1 : clause.stop - 1])
    one, _, other = text.partition(" ≡ ")
    return "" if one == other or text == "IsTrue true" else f" {text} "


def before(words: list[str], at: int) -> list[str]:
    """The words before `fn`: its visibility and what it is."""
    first = at
    while first > 0 and words[first - 1] not in ("{", "}", ";", "]"):
        first -= 1
    return words[first:at]


def page(eraser: Eraser, at: int) -> str:
    """Returns what stands before a function, from the last empty line on."""
    before = eraser.tokens[: eraser.places[at]]
    return "".join(token.text for token in before).rpartition("\n\n")[2]


def missing(eraser: Eraser, required: set[str] | None) -> Iterator[tuple[int, str]]:
    """Yields each place of a file where a contract lacks something, and what. Adds the names of
    functions with a precondition, which a user can call."""
    words = eraser.words
    traits: list[range] = []
    for at in eraser.visited:
        if words[at] in ("impl", "trait") and forms.is_item(words, at):
            opens = eraser.header_end(at)
            header, inside = words[at:opens], words[opens : eraser.group_end(opens)]
            if header[0] == "trait":
                traits.append(range(opens, opens + len(inside)))
            ghosts = [name for it, name in zip(inside, inside[1:]) if it == "ghost"]
            is_known = any(name in header for name in WITHOUT_GHOST) or set(ghosts) - {"use"}
            if "for" in header and "fn" in inside and not is_known:
                yield at, "an `impl` without a ghost item"
        elif words[at] == "fn" and words[at + 1] != "(":
            kinds = before(words, at)
            if "crate" in kinds or "pub" not in kinds and not any(at in it for it in traits):
                continue
            clauses = eraser.header_and_clauses(at).clauses
            has_condition = any(words[clause.start] == "requires" for clause in clauses)
            if has_condition and required is not None:
                required.add(words[at + 1])
                if "/// # Panics" not in page(eraser, at):
                    yield at, f"`{words[at + 1]}`: its page has no section `# Panics`"
            text = "".join(says(eraser, clause) for clause in clauses)
            is_whole = re.search(r" result (?!\. \d)", text)
            for name in gives(eraser, at):
                if f" {name} " not in text and not (name[:6] == "result" and is_whole):
                    yield at, f"`{words[at + 1]}`: no clause says `{name.replace(' ', '')}`"


class Contracts(unittest.TestCase):
    def test_all_that_is_given(self) -> None:
        faults, functions = [], 0
        required: set[str] = set()
        for crate in [*LIBRARY, "variations", "font_c"]:
            for path in sorted((ROOT / f"crates/{crate}/src").rglob("*.rt")):
                if "tests" in path.parts or path.stem == "tests":
                    continue
                eraser = Eraser(path.read_text(), Crate(crate, "tests"), False)
                functions += eraser.words.count("fn")
                is_exported = path.stem not in RAW_VALUES
                for at, what in missing(eraser, required if is_exported else None):
                    line = eraser.tokens[eraser.places[at]].line
                    faults.append(f"{path.relative_to(ROOT)}:{line}: {what}")
        self.assertFalse(faults, "\n".join(faults))
        self.assertGreater(functions, 600)
        page = (ROOT / "docs/PROMISES.md").read_text().split("| Function | Precondition |")[1]
        rows = re.findall(r"(?m)^\| (`.*?) \|", page.split("\n\n")[0])
        self.assertEqual(set(re.findall(r"(\w+)`", " ".join(rows))), required)

    def test_first_lines_of_mutants(self) -> None:
        """Each names a function, and a clause, a ghost item or a part of a definition."""
        specs = [path.read_text() for path in ROOT.glob("crates/*/specs/**/*.antt")]
        for crate in ROOT.glob("crates/*"):
            source = "".join(path.read_text() for path in crate.glob("src/**/*.rt"))
            named = re.findall(r"\b(?:ensures|ghost|pub) (\w+)", "".join([source, *specs]))
            for edit in edits(ROOT, crate.name):
                words = set(re.split(r" for |::", edit.function))
                functions = words - set(re.findall(r"\w+", source)) - OF_EDITS
                self.assertFalse(set(edit.clauses) - {*named, *OF_OTHERS} | functions, edit)
