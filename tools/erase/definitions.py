"""The definitions that contracts name, as pages of rustdoc: a module for each crate, for each file
of its `specs`, and for each definition. Only rustdoc compiles them.

That of the file `Fixed.antt` is `Fixed_antt`, and the alias `Fixed` in it has no page: rustdoc's
search lists a module before a type of the same name."""

import itertools
import re
import textwrap
from collections.abc import Iterable
from dataclasses import dataclass, field
from pathlib import Path

from widths import MADE

# A definition begins so; a lemma does not.
START = re.compile(r"\s*(?:abbrev |unfoldable |record |pub )+(\w+)", re.UNICODE)

# So begins a `module _`, whose definitions are indented, and have its arguments before their own.
MODULE = re.compile(r"module _ .*?\bwhere\n", re.DOTALL)
IMPORT = re.compile(r"^use Rattle\.([\w.]+)\.\{(.*)\}", re.MULTILINE)

# A type that Rust has by the same name.
ALIAS = re.compile(r"abbrev pub (\w+) : Type 0\n\1 = FixedI\d+ \d+$")

# A file of another crate's `specs`, which a crate also has, by its own name or by another.
EXPORT = re.compile(r"^pub use Rattle\.(\w+)\.specs\.(\w+)(?: as (\w+))?$", re.MULTILINE)


@dataclass
class Definition:
    """A definition: the comment above it, or above the one before, which then is of both; its
    text, below the head of its `module _`; and the paths of other definitions, by their names in
    it. The text goes on with a definition whose path differs by case alone, as `near` of `Near`:
    not every file system has room for a page of each."""

    comment: str
    text: str
    names: dict[str, str] = field(default_factory=dict)


Definitions = dict[str, Definition]  # by their paths, as `font_decimal::Near::Up`


def read(root: Path, crates: list[str]) -> tuple[Definitions, dict[str, str], dict[str, str]]:
    """Returns the definitions of these crates, the comments of their files, and the path of a
    definition by each path that imports have."""
    definitions: Definitions = {}
    pages: dict[str, str] = {}
    heads, imports = {}, {}
    for crate in crates:
        for file in sorted((root / f"crates/{crate}/specs").glob("*.antt")):
            module, text = f"{crate}::{file.stem}", file.read_text()
            heads[module], imports[module] = comment_of(text), IMPORT.findall(text)
            comment = head = ""
            for block in text.split("\n\n"):
                if start := MODULE.match(block):
                    head, block = start[0], block[start.end() :]
                elif not block.startswith(" "):
                    head = ""
                whole = dedented(block.rstrip())
                comment = comment_of(whole) or comment
                block = re.sub(r"(?m)\A(--.*\n)*", "", whole)
                if not (name := START.match(block)) or block.startswith("pub mod"):
                    continue
                if ALIAS.match(block):
                    continue
                path = f"{module}::{name[1]}"
                pages[path] = next((it for it in pages if it.lower() == path.lower()), path)
                if pages[path] == path:
                    body = textwrap.indent(block, "  ") if head else block
                    definitions[path] = Definition(comment, head + body)
                else:
                    definitions[pages[path]].text += f"\n\n{whole}"
    paths = pages | exported(root, crates, pages)
    for path, definition in definitions.items():
        module = path.rpartition("::")[0]
        own = {it: page for it, page in pages.items() if it.startswith(f"{module}::")}
        known = {it.rpartition("::")[2]: page for it, page in own.items()}
        for of, names in imports[module]:
            known |= imported(of, names, paths)
        shown = named(definition.text, known)
        definition.names = {name: page for name, page in shown.items() if page != path}
    return definitions, heads, paths


def exported(root: Path, crates: list[str], pages: dict[str, str]) -> dict[str, str]:
    """Returns the paths of definitions by those that crates give them which re-export their files."""
    paths = {}
    for crate in crates:
        lib = (root / f"crates/{crate}/specs/Lib.antt").read_text()
        for of, file, own in EXPORT.findall(lib):
            start = f"{of}::{file}::"
            for path, page in pages.items():
                if path.startswith(start):
                    paths[f"{crate}::{own or file}::{path.removeprefix(start)}"] = page
    return paths


def comment_of(text: str) -> str:
    """Returns the lines of the comment with which a text begins."""
    by_hand = (line for line in text.splitlines() if not line.startswith("--" + MADE))
    lines = itertools.takewhile(lambda line: line.startswith("--"), by_hand)
    return "\n".join(line[3:].removeprefix("---- ") for line in lines)


def dedented(text: str) -> str:
    """Returns a text without the indentation of its first line."""
    indent = len(text) - len(text.lstrip(" "))
    return "\n".join(line[indent:] for line in text.splitlines())


def imported(path: str, names: str, paths: dict[str, str]) -> dict[str, str]:
    """Returns the paths of the names of an import that are definitions, by the names that it gives
    them."""
    known = {}
    for name in names.split(","):
        name, _, own = name.strip().partition(" as ")
        item = f"{path}.{name}".replace(".specs.", "::").replace(".", "::")
        if item in paths:
            known[own or name.rpartition(".")[2]] = paths[item]
    return known


def named(text: str, known: dict[str, str]) -> dict[str, str]:
    """Returns those of the known names that a text has, in its order."""
    return {word: known[word] for word in re.findall(r"\w+", text) if word in known}


def docs(text: str) -> str:
    """Returns a text as lines of documentation."""
    return "".join(f"/// {line}".rstrip() + "\n" for line in text.strip("\n").splitlines())


def links(names: Iterable[str], functions: Iterable[str] = ()) -> str:
    """Returns links to definitions, below a text that names them. These functions may have the name
    of one."""
    shown = ("mod@" * (name in functions) + name for name in names)
    return "\n" + ", ".join(f"[`{name}`]" for name in shown) if names else ""


def pages(definitions: Definitions, heads: dict[str, str], wanted: Iterable[str]) -> str:
    """Returns the pages of these definitions, and of those that they name."""
    kept: set[str] = set()
    left = list(wanted)
    while left:
        path = left.pop()
        if path not in kept:
            kept.add(path)
            left += definitions[path].names.values()
    rust = "#![allow(non_snake_case)]\n\n"
    crate = ""
    for module, head in heads.items():
        of, file = module.split("::")
        own = [path for path in definitions if path in kept and path.startswith(f"{module}::")]
        if not own:
            continue
        if of != crate:
            rust += "}\n\n" * bool(crate)
            rust += f"/// Definitions of the crate `{of}`.\npub mod {of} {{\n"
            crate = of
        names = [path.rpartition("::")[2] for path in own]
        order = ", ".join(f"[`{name}`](mod@{file}_antt::{name})" for name in names)
        rust += docs(f"{head}\n\nIn the order of `crates/{of}/specs/{file}.antt`: {order}.")
        others = {
            (name, other)
            for path in own
            for name, other in definitions[path].names.items()
            if other != f"{module}::{name}"
        }
        rust += f"pub mod {file}_antt {{\n{imports(others)}"
        rust += "".join(page(path, definitions[path]) for path in own) + "}\n\n"
    return rust + "}\n"


def imports(names: Iterable[tuple[str, str]]) -> str:
    """Returns the imports of definitions, which are names and their paths: one of each crate."""
    crates: dict[str, dict[str, list[str]]] = {}
    for name, path in sorted(names, key=lambda it: (it[1], it[0])):
        crate, file, item = path.split("::")
        own = item if item == name else f"{item} as {name}"
        crates.setdefault(crate, {}).setdefault(file, []).append(own)
    uses = ""
    for crate, files in crates.items():
        items = ", ".join(f"{file}_antt::{{{', '.join(own)}}}" for file, own in files.items())
        uses += f"use crate::definitions::{crate}::{{{items}}};\n"
    return uses


def page(path: str, definition: Definition) -> str:
    """Returns the page of a definition."""
    code = re.sub(r"\bpub ", "", definition.text)
    text = f"{definition.comment}\n\n```text\n{code}\n```{links(definition.names)}"
    return f"{docs(text)}pub mod {path.rpartition('::')[2]} {{}}\n\n"
