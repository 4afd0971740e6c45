"""Contracts in the documentation of both packages: below the words of an item, folded, its clauses
as the source has them, and links to the definitions that they name, which rustdoc finds by imports.
"""

from __future__ import annotations

import re
from typing import TYPE_CHECKING

import definitions
import forms

if TYPE_CHECKING:
    from eraser import Eraser

IMPORT = re.compile(r"\bghost use Rattle\.([\w.]+)\.\{([^}]*)\};")

# The ghost items of an `impl` that say what its functions do or what its values are, and those that
# are proofs. That of a constant is what Rust says.
SHOWN = re.compile(
    r"\w+_gives|can_\w+|cmp|debug_output|decodes|eq|hash_input|is_compatible|is_default|is_scalar|"
    r"bytes|is_value|number_of|of_raw|(styled_)?output|partial_cmp|raw_of|remaining"
)
HIDDEN = set(
    "identity is_clone is_infallible laws least length_is matches_eq matches_partial_cmp most "
    "null_is_zero respects_eq same_bytes total whole".split()
)

# A public type's or trait's documentation names its source.
TYPES = ("struct", "enum", "trait", "type")

# The line above a clause that says what other clauses say, in a form that proofs use.
AID = "// For proofs."


class Contracts:
    """The contracts of a file, with the definitions that it imports, by their names in it."""

    def __init__(self, eraser: Eraser, known: dict[str, str]) -> None:
        self.eraser = eraser
        self.imported: dict[str, str] = {}
        self.shown: dict[str, str] = {}
        source = "".join(token.text for token in eraser.tokens)
        self.functions = set(re.findall(r"\bfn (\w+)", source))
        for path, names in IMPORT.findall(source):
            self.imported |= definitions.imported(path, names, known)

    def note(self, at: int) -> None:
        """Shows the clauses of the function, or the ghost items of the trait, type or `impl` whose
        first word is at this place."""
        words = self.eraser.words
        end = self.doc_end(at)
        if words[at] in TYPES and words[at - 1] == "pub" and end is not None:
            text = f"The source and its contracts: `{self.eraser.file}`."
            self.eraser.put_before[end] += f"\n///\n/// {text}"
        if words[at] == "fn" and words[at + 1] != "(":
            clauses = self.eraser.header_and_clauses(at).clauses if end is not None else []
        elif words[at] in ("trait", "struct", "enum", "impl") and forms.is_item(words, at):
            clauses = self.members(at)
        else:
            return
        self.show(at, end, [it for it in clauses if AID not in self.source(it)])

    def members(self, at: int) -> list[range]:
        """Returns the ghost items of a trait, a type or an `impl` that are shown."""
        eraser = self.eraser
        members: list[range] = []
        opens = eraser.header_end(at)
        end, next = eraser.group_end(opens), opens + 1
        while next + 1 < end:
            name = eraser.words[next + 1]
            if eraser.words[next] != "ghost" or name == "use":
                next = eraser.group_end(next)
                continue
            after = eraser.ghost_end(next)
            if name.isupper():
                pass
            elif eraser.words[at] != "impl" or SHOWN.fullmatch(name):
                members.append(range(next, after))
            elif name not in HIDDEN:
                eraser.refuse(next, f"`{name}`, a ghost item of an unknown kind: see contracts.py")
            next = after
        return members

    def show(self, at: int, end: int | None, clauses: list[range]) -> None:
        """Writes clauses below the documentation of an item, or as its documentation."""
        if not clauses:
            return
        text = "\n".join(map(self.source, clauses))
        names = definitions.named(text, self.imported)
        self.shown |= names
        fold = "<details><summary>Contract</summary>\n\n```text"
        links = definitions.links(names, self.functions).replace("\n", ": ")
        links = f"[Notation](crate::definitions){links}"
        shown = definitions.docs(f"{fold}\n{text}\n```\n{links}\n</details>")
        if end is None:
            self.eraser.put(self.first(at), shown)
        else:
            self.eraser.put_before[end] += f"\n///\n{shown}".rstrip()

    def source(self, of: range) -> str:
        """Returns the text of words with the comments above them, as if it began a line."""
        eraser = self.eraser
        first = eraser.first_comment(of.start)
        tokens = eraser.tokens[first : eraser.places[of.stop - 1] + 1]
        indent = eraser.tokens[first - 1].text.rpartition("\n")[2] if first else ""
        text = "".join(token.text for token in tokens)
        return "\n".join(line.removeprefix(indent) for line in text.splitlines())

    def first(self, at: int) -> int:
        """Returns the place of the first word of an item: its attributes and its visibility."""
        words = self.eraser.words
        while at > 0 and words[at - 1] not in ("{", "}", ";"):
            at -= 1
        return at

    def doc_end(self, at: int) -> int | None:
        """Returns the token after the documentation of an item, or None if it has none."""
        tokens = self.eraser.tokens
        for n in range(self.eraser.places[at] - 1, -1, -1):
            if tokens[n].kind == "doc":
                return n + 1
            if tokens[n].kind == "code" and tokens[n].text in ("{", "}", ";"):
                return None
        return None

    def imports(self) -> str:
        """Returns the imports of the definitions that are shown."""
        lines = definitions.imports(set(self.shown.items()))
        return "".join(f"#[cfg(doc)]\n{line}\n" for line in lines.splitlines())
