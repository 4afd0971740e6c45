"""Types of Rust and of Rattle as trees: a name, and the trees in it."""

import itertools
import re
from collections.abc import Iterable, Iterator

from rattle import Json, kind_of, last, plain
from rust import split
from terms import WIDTHS, Term

Tree = Term
Trees = list[Tree]
Bound = dict[int, Tree]  # of what types the parameters are
Aliases = dict[str, Tree]

# What Rattle calls otherwise, beside what it holds.
RENAMED = {"NoValue": "Infallible", "AllocFailed": "AllocError"}


def parse(text: str, aliases: Aliases) -> Tree:
    """Returns a type of Rust: the last name of a path, and the types in it, without lifetimes."""
    text = re.sub(r"^(&?)'\w+ ", r"\1", text.strip())
    if reference := re.match(r"&(mut )?", text):
        return ("&mut" if reference[1] else "&", parse(text[reference.end() :], aliases))
    if text[0] in "[(":
        parts = split(text[1:-1], ";" if text[0] == "[" else ",")
        kind = "[;" if text[0] == "[" and len(parts) > 1 else text[0]
        return (kind, *(parse(it, aliases) for it in parts))
    if text[0] in "<{*" or text.startswith("fn("):
        return (text,)
    if text[0].isdigit():
        return (text.split("_")[0],)
    *_, name = (it.split("<")[0] for it in split(text, "::") if it[0] != "<")
    inner = split(text[text.index("<") + 1 : -1]) if text[-1] == ">" else ()
    given = tuple(parse(it, aliases) for it in inner if it[0] != "'")
    return (name, *given) if given else aliases.get(name, (name,))


def form(of: Json) -> Tree:
    """Returns a type of Rattle, whose integers have no signs, and whose parameters are numbers."""
    kind, it = kind_of(of)
    if kind in ("Ref", "Struct"):
        _, mutable, inner = it if kind == "Ref" else it[1][0]["Ref"]
        inner = form(inner) if kind == "Ref" else ("[", form(inner))
        return ("&mut" if mutable == "Mut" else "&", inner)
    if kind == "Array":
        return ("[;", *map(form, it))
    if kind == "Named":
        name = it[0]["name"] if isinstance(it[0], dict) else str(it[0])
        closure = ("closure", plain(name)) if "::fn::" in name else None
        return closure or ("(" if name[0] == "(" else last(name), *map(form, it[1]))
    return {"Unit": ("(",), "Bool": ("bool",)}.get(kind) or (kind, it)


def is_type(pattern: Tree, tree: Tree, bound: Bound, closures: dict[str, str] = {}) -> bool:
    """Returns whether a type of Rust is one of Rattle, with types for the parameters of that."""
    kind: str = pattern[0]
    name: str = tree[0]
    if kind == "Param":
        of = bound.setdefault(pattern[1], tree)
        if of[:1] == ("<",) and re.match(rf"<{of[1]} as (\w+::)*{of[2]}(<.*>)?>::", name):
            bound[pattern[1]] = tree  # an associated type of that, by the trait
        return bound[pattern[1]] == tree
    if kind in ("Const", "Lit"):
        return tree == (str(pattern[1]),)
    if kind == "Int":
        return name != "bool" and WIDTHS.get(name) == pattern[1]
    if kind == "closure":
        return closures.get(pattern[1]) == name
    if (kind, name) == ("[", "str"):
        return pattern == ("[", ("Int", 8))
    # Rattle counts associated types too, after the parameters of a type.
    if name != RENAMED.get(kind, kind) or len(tree) > len(pattern):
        return False
    is_whole = len(tree) == len(pattern) or name[0].isalpha()
    return is_whole and all(is_type(a, b, bound, closures) for a, b in zip(pattern[1:], tree[1:]))


def unreferenced(tree: Tree) -> Tree:
    return unreferenced(tree[1]) if tree[0] == "&" else tree


def joined(trees: Iterable[Tree], aliases: Aliases) -> Iterator[tuple[str, Trees]]:
    """Yields what Rattle may call some types in one word, and what is no part of that."""
    for some in itertools.product(*(owners(it, aliases) for it in trees)):
        yield "".join(it for it, _ in some), [it for _, rest in some for it in rest]


def owners(tree: Tree, aliases: Aliases) -> list[tuple[str, Trees]]:
    """Returns what Rattle may call a type in the name of an `impl`, and what of it is no part of
    that name, the most special first."""
    kind, *inner = tree
    if kind in ("&", "&mut"):
        return [("Ref" + it, rest) for it, rest in owners(inner[0], aliases)] + [("Ref", inner)]
    if kind in ("[", "[;"):
        name = "Array" if kind == "[;" else "Slice"
        of = owners(inner[0], aliases)
        found = [(f"Array{it}{inner[1][0]}", rest) for it, rest in of if kind == "[;"]
        found += [(name + it, rest + inner[1:]) for it, rest in of]
        return found + [(it, inner) for it in (name, name.lower(), "Ref" + name)]
    if kind == "(":
        return [(f"Tuple{len(inner)}{it}", rest) for it, rest in joined(inner, aliases)]
    found = [(name, []) for name, it in aliases.items() if it == tree]
    if kind in WIDTHS or kind == "str":
        found = [(it, []) for it in (kind.title(), kind, *["bytes"] * (kind == "u8"))]
    elif inner:
        found += [(kind + it, rest) for it, rest in joined(inner, aliases)]
    return [*found, (kind, inner), ("Any", [tree])]
