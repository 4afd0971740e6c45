"""Which functions of both sides are a pair, which calls are of the same, and what is on one side
alone, and why. A name of Rattle has the type, the trait and its arguments in one word."""

import collections
import itertools
import json
import pathlib
import re
import sys
from collections.abc import Iterable, Iterator

import rust
from machine import Machine
from packages import Sources
from rattle import Body, Json, Library, kind_of, last, plain
from rust import PLACE, bracketed, names, split
from terms import UNIT, Term
from trees import Aliases, Bound, Tree, Trees, form, is_type, joined, owners, parse, unreferenced

sys.path.append(str(pathlib.Path(__file__).resolve().parents[1] / "erase"))
from eraser import DERIVED

# An integer in the name of an impl of Rattle, which has the sign that its types lack; but no
# `FixedI16`, which is a type.
INTEGER = r"(?:::|[a-z])(?<!Fixed)([UI](?:8|16|32|64|128|size))(?![a-z0-9])"

# What Rattle alone may call, for its contract: by a shared reference, so that it changes nothing.
IDLE = [f"font_base::raw::{it}BeByteArray::as_slice" for it in ("", "ArrayU8")]

# Methods that Rattle has beside the impls of a trait: those of integers, and in what is derived.
BESIDE = ("min", "max", "clamp", "and_eq", "or_cmp", "or_partial_cmp")

# What both compilers call by names of their own: these in Rattle, none if it is of a bound, and in
# Rust.
OWN = {
    "deref": (r"std_alloc::vec::derefs::VecDerefSlice::deref", r"<core::alloc::Vec<.*>::deref"),
    "drop": (r"(?:std\w*::.*::|.*Destruct::)drop|", "drop"),
    "derived_fields": (r"core::fmt::formatter::.*", r"core::fmt::Formatter::.*"),
}

# What Rattle calls the type with which `?` returns; and traits that it has not of references.
RESIDUAL = {"FromResidual": ("NoValue", "ErrResidual")}
COMPARED = ("PartialEq", "PartialOrd", "Ord")
FUNCTIONS = ("Fn", "FnMut", "FnOnce")


class Differs(Exception):
    """How two functions are not the same."""


class Path:
    """A function or constant of Rust: its name, the type and the trait of its impl, if it has one,
    and what it is called with."""

    def __init__(self, text: str, aliases: Aliases, impl: Term | None = None) -> None:
        parts, (*self.module, self.name) = split(text, "::"), names(text)
        whose = split(parts[0][1:-1], " as ")[-1] if parts[0][0] == "<" else text
        self.is_of_std = whose.startswith("core::")
        given = split(parts[-1][1:-1]) if text[-1] == ">" else ()
        self.given = [parse(it, aliases) for it in given if it[0] != "'"]
        self.kind, self.trait, self.derived, self.generics = impl or (None, None, False, [])
        inherent = next((it for it in parts if it.startswith("<impl ")), None)
        if parts[0][0] == "<":
            kind = [parse(it, aliases) for it in split(parts[0][1:-1], " as ")]
            self.kind, self.trait = [*kind, None][:2]
        elif inherent and not impl:
            self.kind = parse(inherent[6:-1], aliases)
        elif not impl and self.module and self.module[-1][0].isupper():
            # The last type before the name, with what it is given.
            end = max(n for n, it in enumerate(parts) if it.split("<")[0] == self.module[-1])
            path = parts[: end + 1 + (parts[end + 1][0] == "<")]
            self.kind = parse("::".join(path).replace("::<", "<"), aliases)

    def keys(self, aliases: Aliases) -> Iterator[tuple[str, Trees]]:
        """Yields the names that Rattle may have, each with the types that are no part of it."""
        if not self.kind:
            yield "::".join([*self.module, self.name]), []
            return
        given: Trees
        trait, *given = self.trait or ("",)
        found = owners(self.kind, aliases)
        if self.kind[0] == "&" and trait in COMPARED:  # of references, as of what they refer to
            found += owners(unreferenced(self.kind), aliases)
            given = [unreferenced(it) for it in given]
        others = [*joined(given, aliases), *((it, given) for it in RESIDUAL.get(trait, ("",)))]
        for (name, rest), (other, more) in itertools.product(found, others):
            more = [it for it in more if it not in rest]
            yield f"{name}{trait}{other}::{self.name}", rest + more


class Names:
    """The functions of both sides, by name."""

    def __init__(self, text: rust.Text, library: Library, sources: Sources) -> None:
        self.text, self.library, self.sources = text, library, sources
        self.paths: dict[str, Path] = {}
        lines = "\n".join(it for lines in sources.lines.values() for it in lines)
        aliases = re.findall(r"^(?:pub(?:\(.*?\))? )?type (\w+) = (.+);", lines, re.M)
        self.aliases = {name: parse(of, {}) for name, of in aliases}
        self.exports = dict(sources.exports())
        # Those that rustc names end with a bracket: `{constant#0}`, `promoted[0]`, `{closure#0}`.
        named = [it for it in text.functions if it.removesuffix("()")[-1] not in "}]"]
        self.theirs = {it: self.path(it.removesuffix("()"), self.impl_at(it)) for it in named}
        self.ours: dict[str, str] = {}  # of Rattle, by key
        self.constants: dict[str, str] = {}  # of Rust, by key
        self.both: dict[str, str] = {}  # of Rust, by that of Rattle
        for name in library.bodies:
            if "::fn::" not in name and not is_declared(name):
                self.insert(self.ours, key_of(name), name)
        for other, path in self.theirs.items():
            one, _ = self.found(path)
            if one:
                self.insert(self.both, one, other)
            if other[-2:] != "()":
                self.insert(self.constants, next(iter(path.keys(self.aliases)))[0], other)
        self.both.update(self.closures())
        places = {function: "{closure@" + it + "}" for it, function in text.closures.items()}
        closures = {plain(one): places.get(other) for one, other in self.both.items()}
        library.closures = {one: it for one, it in closures.items() if it}
        text.resolve, library.order = self.constant, self.order()

    def insert(self, found: dict[str, str], key: str, name: str) -> None:
        if found.setdefault(key, name) != name:
            raise ValueError(f"{name} and {found[key]} are both {key}")

    def path(self, text: str, impl: Term | None = None) -> Path:
        if text not in self.paths:
            path = self.paths[text] = Path(text, self.aliases, impl)
            path.module[:1] = [self.sources.crates.get(it, it) for it in path.module[:1]]
        return self.paths[text]

    def impl_at(self, name: str) -> Term | None:
        """Returns the type, the trait and the parameters of the `impl`, or the `derive`, at the
        place that a name has, and whether it is derived."""
        if not (place := PLACE.search(name)):
            return None
        first, column, end, end_column = map(int, place.groups()[1:])
        lines = self.sources.lines[place[1]]
        text = " ".join(re.sub("//.*", "", it) for it in lines[first - 1 : end])[column - 1 :]
        if not text.startswith("impl"):
            pattern = r"\s*(?:pub(?:\(.*?\))? )?(?:struct|enum) (\w+)"
            found = next(filter(None, (re.match(pattern, it) for it in lines[first - 1 :])))
            return (found[1],), (text[: end_column - column],), True, []
        text = re.sub(r" where .*| \{.*", "", re.sub(r"\s+", " ", text))[4:]
        generics = bracketed(text) if text[0] == "<" else ""
        trait, _, of = (it.strip() for it in text[len(generics) :].rpartition(" for "))
        kind, of_trait = parse(of, self.aliases), parse(trait, self.aliases) if trait else None
        own = [re.findall(r"^(?:const )?('?\w+)", it)[0] for it in split(generics[1:-1])]
        return kind, of_trait, False, [it for it in own if it[0] != "'"]

    def found(self, path: Path) -> tuple[str | None, Trees]:
        """Returns the function of Rattle that a path of Rust names, and with what types."""
        keys = [*path.keys(self.aliases)] if path.kind else [(self.exported(path), [])]
        found = ((self.ours[it], rest) for it, rest in keys if it in self.ours)
        of, rest = next(found, (None, Trees()))
        own = re.search(r"[^+]\+(\w+)::\w+$", of or "")  # of an `impl` for these arguments alone
        is_own = own and own[1] in (it for it, _ in joined(rest, self.aliases))
        return of, [] if is_own else rest

    def exported(self, path: Path) -> str:
        """Returns the path of a function of no type, by the modules that re-export it. Those of the
        library's root are of `font_types`, but for what `src/lib.rs` names itself."""
        name = "::".join([*path.module, path.name])
        if not {name.split("::")[0]} & {*self.sources.crates.values(), *self.sources.by_hand}:
            name = f"font_types::{name}"
        while name in self.exports:
            name = self.exports[name]
        return name

    def constant(self, text: str) -> str | None:
        """Returns the constant of ours that a path names, or None. One of an impl with parameters
        is that of these parameters alone, as its value has their names."""
        path = self.path(text)
        keys = (it for it, _ in path.keys(self.aliases))
        found = next((self.constants[it] for it in keys if it in self.constants), None)
        if found and self.theirs[found].generics and self.theirs[found].kind != path.kind:
            raise ValueError(f"the constant {text}, not of {self.theirs[found].kind}")
        return found

    def closures(self) -> dict[str, str]:
        """Pairs closures by the function that they are in, and their order there."""
        of_both = {plain(one): other for one, other in self.both.items()}
        some: dict[str, list[str]] = collections.defaultdict(list)
        found: dict[str, str] = {}
        for name in self.library.bodies:
            if "::fn::" in name and "+" not in name.split("::")[-1] and not is_declared(name):
                some[plain(re.sub(r"::fn::(.*)::\w+$", r"::\1", name))].append(name)
        for of, ours in some.items():
            other = of_both.get(of, "").removesuffix("()") + "::{closure#"
            theirs = [it for it in self.text.functions if it.startswith(other)]
            found.update(zip(ours, theirs) if len(theirs) == len(ours) else ())
        return found

    def are_one(self, one: str, text: str, body: Body) -> bool:
        """Returns whether a function that Rattle passes by its name, with types and impls, is that
        of a path: as if it were called there, or as the constructor of a variant."""
        (name, types, dicts), path = json.loads(one), self.path(text)
        impl, *given = dicts[0].get("Impl", [""]) if dicts else [""]
        if impl and self.library.impls[impl]["of"]["of"] == name.rpartition("::")[0]:
            name, (types, dicts) = f"{impl}::{last(name)}", given
        if not types and not path.given and name == "::".join([*path.module, path.name]):
            return True
        what = {"Fn": [name, {"types": types, "dicts": dicts}]}
        return self.fault((last(name), name, what), path, body) is None

    def order(self) -> dict[tuple[str, int], str]:
        """Returns the names of the methods of traits, by their numbers in Rattle."""
        found = {("Read", 0): "read", ("Write", 0): "write"}
        for impl in self.library.impls.values():
            for n, method in enumerate(impl["methods"]):
                found.setdefault((last(impl["of"]["of"]), n), last(method))
        for name, of in self.library.methods:
            if "Trait" in of:
                found.setdefault((last(of["Trait"][0]), of["Trait"][1]), last(name))
        return found

    # ---- whether both sides call the same

    def require_types(self, left: Body, right: rust.Body) -> None:
        """Requires that parameters and result are of the same types. A closure has the type
        parameters of its function too."""
        outer = re.sub(r"::\{closure.*", "()", right.name)
        if outer != right.name:
            (one,) = (it for it, other in self.both.items() if other == outer)
            around = Body(self.library, one)
            self.require_types(around, self.text.functions[outer])
            left.types = around.types
        types = [right.types["_0"], *(it for it, _ in right.parameters())]
        ours = left.locals[: len(types)]
        if left.name.endswith("Clone::clone"):  # it may fail in Rattle, for want of memory
            ours[0] = ours[0]["Named"][1][0]
        given = [parse(it, self.aliases) for it in types]
        if left.count + 1 != len(given) or not self.are_types(ours, given, left.types):
            raise Differs(f"the types {ours} are not {types}")
        path = self.theirs.get(right.name)
        generics, shown = (path.generics, leaves((path.kind, path.trait))) if path else ([], [])
        if [*dict.fromkeys(it for it in shown if it in generics)] == generics:
            left.types = {**{n: (name,) for n, name in enumerate(generics)}, **left.types}
        self.bind_associated(left)

    def bind_associated(self, left: Body) -> None:
        """Binds the one type that is associated with a type parameter to how its name begins, and
        the others that no parameter shows to nothing."""
        for bound in left.body["generics"]["bounds"]:
            kinds = map(kind_of, bound["types"])
            of, *others = (n if kind == "Param" else None for kind, n in kinds)
            others = [it for it in others if it is not None and it not in left.types]
            if left.types.get(of) and len(others) == 1:
                left.types[others[0]] = ("<", left.types[of][0], last(bound["of"]))
        for n in range(len(left.body["generics"]["types"])):
            left.types.setdefault(n, ())

    def are_types(self, some: Json, trees: Iterable[Tree], bound: Bound) -> bool:
        closures = self.library.closures
        return all(is_type(form(a), b, bound, closures) for a, b in zip(some, trees))

    # A call by shared references alone changes nothing, and Rattle proves that it returns. So Rust
    # may leave it out, if nothing that both sides have depends on its result.
    def is_idle(self, one: Term, other: Term, body: Body) -> bool:
        """Returns whether only Rattle makes a call: of a method that is made for its contract."""
        way, what = kind_of(one[2])
        given = way == "Method" and body.body["generics"]["bounds"][what[0]["Given"]]["of"]
        is_own = other[0] == "call" and other[1][0] == one[0]
        return not is_own and (f"{given}::{one[0]}" if given else what[0]) in IDLE

    def require(self, one: Term, other: Term, body: Body) -> None:
        own = OWN.get(one[0])
        if own and one[0] == other[0] and all(map(re.fullmatch, own, (one[1], other[1]))):
            return
        if fault := other[1] if one[0] != other[0] else self.fault(one, self.path(other[1]), body):
            raise Differs(f"{one[1] or one[2]} is called, not {other[1]}: {fault}")

    def fault(self, one: Term, path: Path, body: Body) -> str | None:
        """Returns why a callee of Rattle is not the one of a path, or None."""
        way, what = kind_of(one[2])
        if way == "Method":
            return self.bound_fault(what, path, body)
        name, types = what[0], what[1]["types"]
        if "::fn::" in name:
            is_same = path.kind and path.kind[0] == self.library.closures[plain(name)]
            return None if is_same else "another closure"
        ours, (other, rest) = self.ours.get(key_of(name)), self.found(path)
        given = [*rest, *path.given] if other else [path.kind, path.trait] if path.trait else []
        signed = re.findall(INTEGER, json.dumps(what))
        is_try = "::AnyTryFrom::" in name  # by an impl from one to the other
        if not are_signs(signed, given[::-1] if is_try else given):
            return f"the signs of {signed}"
        if not ours and (not other or path.trait and last(name) in BESIDE):
            return self.std_fault(name, types, path, body) if path.is_of_std else "not of std"
        if other != ours or not ours:
            return f"{other}"
        return self.types_fault(self.library.bodies[ours], what[1], rest, path.given, body)

    # Types of bounds have no signs, and Rust leaves out defaults, so that one bound alone may be of
    # the trait and the types that Rust names.
    def bound_fault(self, what: Json, path: Path, body: Body) -> str | None:
        """Returns why a method of a bound is not the one of a path, or None."""
        (way, _, own), bounds = what, body.body["generics"]["bounds"]
        given, (trait, *types) = bounds[way["Given"]], path.trait or ("",)
        types = types[0][1:] if last(given["of"]) in FUNCTIONS else types

        def are(it: Json, bound: Bound) -> bool:
            return self.are_types(it["types"], [path.kind, *types], bound)

        found = [it for it in bounds if last(it["of"]) == trait and are(it, dict(body.types))]
        is_own = self.are_types(own["types"], path.given, body.types)
        is_alike = found == [given] and are(given, body.types) and is_own
        return None if is_alike else f"of {given}"

    # A type of Rattle has no signs, so the impl of a bound says that of its integer. Which of the
    # types are associated is known by places, and not by what would fit.
    def types_fault(
        self, of: Json, what: Json, rest: Trees, given: Trees, body: Body
    ) -> str | None:
        """Returns how types differ, those of an impl and of a function. Rattle counts associated
        types too, after the parameters of the impl or of the function."""
        cuts = {len(rest) + len(given), len(rest) if rest else len(given)}
        types, given = what["types"], [*rest, *given]
        count = len(types) - len(given)
        options = [[*range(cut), *range(cut + count, len(types))] for cut in cuts]
        if count and len(cuts) == 2:  # after either, or after both: as the bounds say
            named = associated(of)
            options = [[it for it in range(len(types)) if it not in named]]
        for places in options:
            bound, is_whole = dict(body.types), count >= 0 and len(places) == len(given)
            is_same = is_whole and self.are_types([types[it] for it in places], given, bound)
            if is_same and self.are_signs(of, what, dict(zip(places, given))):
                body.types = bound
                return None
        return f"{types} for {given}"

    def are_signs(self, callee: Json, what: Json, given: Bound) -> bool:
        """Returns whether the impl of each bound is of the integer that Rust gives for its type."""
        for bound, by in zip(callee["generics"]["bounds"], what["dicts"]):
            kind, n = kind_of(bound["types"][0])
            signed = re.findall(INTEGER, str(by.get("Impl")))
            if kind == "Param" and n in given and not are_signs(signed, given[n]):
                return False
        return True

    def std_fault(self, name: str, types: Json, path: Path, body: Body) -> str | None:
        """Returns how the names of the type and trait of a function of `std` differ, or None."""
        of, method = key_of(name).split("::")
        keys = {it.split("::")[-2] for it, _ in path.keys(self.aliases)}
        if of in keys:
            return None
        trait = path.trait and path.trait[0]
        is_of = lambda it: is_type(form(it), path.kind, dict(body.types))
        generic = (trait, f"Any{trait}", "Ordering") if method in BESIDE else (trait, f"Any{trait}")
        if trait and of in generic and any(map(is_of, types[:2])):
            return None
        beside = {it for it, _ in owners(path.kind, self.aliases)} if method in BESIDE else ()
        return None if of in beside else f"of {of}, not {keys}"

    # ---- what is on one side alone

    def alone(self) -> tuple[collections.Counter[str], list[str]]:
        """Returns how many functions one side alone has, by the reason, and those without one."""
        reasons: collections.Counter[str] = collections.Counter()
        errors, taken = [], set(self.both.values())
        closures = [it for it in self.text.functions if it.endswith("}()") and "{closure" in it]
        ours = ((it, self.reason_in_rattle(it), "Rattle") for it in self.library.bodies)
        theirs = ((it, self.reason_in_rust(it), "Rust") for it in [*self.theirs, *closures])
        for name, reason, side in [*sorted(ours), *theirs]:
            if name not in self.both and name not in taken:
                reasons.update([f"{reason}, in {side}"] if reason else [])
                errors += [] if reason else [name]
        return reasons, errors

    def reason_in_rattle(self, name: str) -> str | None:
        if name in self.both:
            return None
        if is_declared(name):
            return "declared by a trait or dropped"
        if re.search(r"\+Fn(Mut|Once)?::", name):
            return "another trait of a closure"
        if module_of(plain(name)) not in self.sources.modules:
            return "of a module that is left out"
        return "an impl's copy of a trait's default" if self.is_default(name) else None

    def reason_in_rust(self, name: str) -> str | None:
        path, function = self.theirs.get(name), self.text.functions[name]
        if path and path.derived and path.trait in (("Clone",), ("Eq",)):
            return "derived `Clone` or `Eq`"
        if path and path.derived and path.kind[0] in DERIVED:
            return "derived besides"
        if name[-2:] != "()":
            used = "a function" if name in self.text.used else "none"
            return f"a constant that {used} uses"
        order = ", ".join(f"move _{n + 1}" for n in range(function.count))
        made, *after = function.lines.get(0, [""])
        is_made = re.fullmatch(rf"_0 = [\w:]+(?:::<.*>)?\({order}\);", made) and order
        return "the constructor of a tuple" if is_made and after == ["return;"] else None

    def is_default(self, name: str) -> bool:
        """Returns whether a function calls the default of its trait, with its own parameters."""
        body = Body(self.library, name)
        run = Machine(body).run()
        kind, *event = run.send(None)
        if kind != "call" or "Fn" not in event[0][2]:
            return False
        callee, terms = event
        (path, given), (impl, method) = callee[2]["Fn"], name.rsplit("::", 1)
        *_, trait, called = path.split("::")
        dicts, own = [it.get("Impl", [""])[0] for it in given["dicts"]], plain(impl).endswith(trait)
        is_called = called == method and own and dicts[:1] == [impl]
        result = UNIT if body.locals[0] == "Unit" else ("ret", 0)
        is_returned = run.send(("ret", 0)) == ("return", result)
        return is_called and terms == tuple(body.arguments()) and is_returned


def key_of(name: str) -> str:
    """Returns the path of a function of Rattle; in an impl or in std, its last two words."""
    *module, of, name = plain(name).split("::")
    is_short = of[0].isupper() or module[:1] == ["core"]
    return "::".join([of, name] if is_short else [*module, of, name])


def module_of(path: str) -> str:
    return "::".join(it for it in path.split("::")[:-1] if it[:1].islower() and it != "fn")


def is_declared(name: str) -> bool:
    return re.search(r"\+\+|Destruct|\+decl$", name) is not None


def associated(callee: Json) -> set[int]:
    """Returns the numbers of the types that bounds have beside the type that they are of, except
    what a function takes and returns."""
    bounds = [it for it in callee["generics"]["bounds"] if last(it["of"]) not in FUNCTIONS]
    others = [kind_of(of) for it in bounds for of in it["types"][1:]]
    return {n for kind, n in others if kind == "Param"}


def leaves(tree: Tree | Trees | None) -> Iterator[str]:
    """Yields the names in a type, or in some."""
    for it in tree or ():
        yield from leaves(it) if isinstance(it, tuple) else [it]


def are_signs(signed: list[str], trees: Tree | Trees) -> bool:
    """Returns whether the integers in types are, in order, those that impls name, if they do."""
    theirs = [*dict.fromkeys(it for it in leaves(trees) if re.fullmatch(r"[iu](\d+|size)", it))]
    named = dict.fromkeys(it.lower() for it in signed)
    return not signed or [it for it in named if it in theirs] == theirs
