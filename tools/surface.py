"""What users of a package can name, from what rustdoc knows of it: lines that read like Rust."""

import json
import os
import re
import subprocess
from collections import Counter
from collections.abc import Iterable, Iterator
from pathlib import Path
from tempfile import TemporaryDirectory
from typing import Any, NamedTuple


# Each with the path of its item.
Clauses = set[tuple[str, str]]


class Surface(NamedTuple):
    """`kept` has each line, with what it is of and its own name. `closed` has those beside which
    their owner gets no other, because users match, write out or implement all of them. `clauses`
    are those of contracts, by their item, and definitions. If an item of `asked` has one more, this
    asks for more of users, who write it out or implement it."""

    kept: dict[str, tuple[str, str]]
    closed: set[tuple[str, str]]
    clauses: Counter[tuple[str, str]]
    asked: set[str]
    arguments: dict[str, list[str]]


def documented(folder: Path, target: Path) -> Any:
    """Returns what rustdoc says of the package in a folder. The form of it is that of one release
    of Rust, so only what one rustdoc says can be compared."""
    command = "cargo rustdoc --quiet --offline --lib -- -Z unstable-options --output-format json"
    # Without it, rustdoc has this form on a nightly compiler only.
    env = {**os.environ, "RUSTC_BOOTSTRAP": "1", "CARGO_TARGET_DIR": str(target)}
    done = subprocess.run(command.split(), cwd=folder, env=env, capture_output=True, text=True)
    assert done.returncode == 0, done.stderr
    name = re.findall(r'^name = "(.*)"', (folder / "Cargo.toml").read_text(), re.M)[0]
    return json.loads((target / f"doc/{name.replace('-', '_')}.json").read_text())


# What only `cargo doc` has.
PAGES = {"guide", "porting", "definitions"}
ONLY_DOC = re.compile(r'Cfg.*"doc"|cfg.*\bdoc\b')
# What has lines of its own, or says where an item stands.
APART = {"id", "items", "impls", "implementations", "variants", "provided_trait_methods"}
# What a line has without its key.
PLAIN = {"bound_predicate", "borrowed_ref", "generic", "kind", "lifetime", "name", "primitive"}
PLAIN |= {"resolved_path", "struct_field", "trait", "trait_bound", "type"}
# Traits that derives write, and no user can name. Matches need the second.
UNNAMED = "core::clone::TrivialClone"
OF_MATCHES = "StructuralPartialEq"
CLAUSE = re.compile(r"^(?=(?:ensures|requires|ghost|decreases)\b)", re.M)
# What has the definitions; and a definition below the head of its module, of a type, by a name.
DEFINITIONS = "definitions"
DEFINED = re.compile(
    r"(?:module _ .*? where )?(?:abbrev|unfoldable|record) ((\w+).*?) (?:\2|where) "
)


def plain(clause: str) -> str:
    """Returns a clause in one line, without its name and its comments."""
    words = " ".join(re.sub(r"^ *//.*", "", clause, flags=re.M).split())
    return re.sub(r"^(ensures|requires) \w+ \{", r"\1 {", words)


def clauses(docs: str | None) -> Iterator[str]:
    """Yields the clauses of a contract."""
    for block in (docs or "").split("```text\n")[1:]:
        yield from filter(None, map(plain, CLAUSE.split(block.split("```")[0])))


def paragraphs(code: str) -> Iterator[str]:
    """Yields those of a file of definitions, each below the head of its module."""
    head = ""
    for part in re.split(r"\n\s*\n", re.sub("(?m)^ *--.*\n?|pub ", "", code)):
        if found := re.match(r"module _ .*?where\n", part, re.DOTALL):
            head, part = found[0], part[found.end() :]
        elif not part.startswith(" "):
            head = ""
        yield head + part


def definitions(code: str) -> Iterator[str]:
    """Yields those of a file, each in one line. An import can give a definition another name."""
    for name, own in re.findall(r"(\w+) as (\w+)", "".join(re.findall("(?m)^use .*", code))):
        code = re.sub(rf"\b{own}\b", name, code)
    yield from filter(DEFINED.match, map(plain, paragraphs(code)))


def subject(path: str, clause: str) -> str:
    """Returns the name of what has a clause: a function, a type, a trait or a definition."""
    if path == DEFINITIONS and (found := DEFINED.match(clause)):
        return found[2]
    trait, _, implemented = path.partition(" for ")
    return (trait.split("<")[0] if implemented else path).rsplit("::", 1)[-1]


class Walk:
    def __init__(self, shown: Any, known: dict[str, str] | None = None) -> None:
        """`known` has the names of items of other packages, by where these declare them."""
        self.index, self.places, self.known = shown["index"], shown["paths"], known or {}
        self.found = Surface({}, set(), Counter(), set(), {})
        reached = [it for id in self.inner(shown["root"])["items"] for it in self.reach(id, "")]
        self.names = {id: path for path, id in reversed(reached)}
        for path, id in reached:
            self.item(path, self.index[str(id)], path)
        for it in self.inside(map(int, self.index)):
            if "impl" in it["inner"]:
                self.implementation(it)

    def inner(self, id: int) -> Any:
        (inner,) = self.index[str(id)]["inner"].values()
        return inner

    def inside(self, ids: Iterable[int | None]) -> Iterator[Any]:
        """Yields those of the items that users see, also if they do not document."""
        items = (self.index[str(id)] for id in ids if str(id) in self.index)
        return (it for it in items if it["name"] in PAGES or not ONLY_DOC.search(str(it["attrs"])))

    def reach(self, id: int, above: str) -> Iterator[tuple[str, int]]:
        """Yields an item, by the path that users write, and what is in it, if it is a module."""
        for item in self.inside([id]):
            ((kind, inner),) = item["inner"].items()
            path = above + (inner["name"] if kind == "use" else item["name"])
            if kind == "module":
                yield path, id
                for it in inner["items"]:
                    yield from self.reach(it, f"{path}::")
            elif kind != "use":
                yield path, id
            elif inner["is_glob"]:
                for it in self.inner(inner["id"])["items"]:
                    yield from self.reach(it, above)
            else:
                self.add(f"use {path}", path, path)
                yield from ((path, inner["id"]) for _ in self.inside([inner["id"]]))

    def place(self, id: int) -> str:
        return "::".join(self.places[str(id)]["path"]) if str(id) in self.places else ""

    def text(self, it: Any) -> str:
        """Returns a part of a declaration, as Rust has it where that is short. What has no case
        here, or has more than its case, is written with its keys, so that nothing gets lost."""
        match it:
            case list():
                return ", ".join(map(self.text, it))
            case {"path": str(path), "id": id, "args": args, **more} if not more:
                place = self.place(id) or path
                return self.names.get(id, self.known.get(place, place)) + self.text(args)
            case {"angle_bracketed": {"args": args, "constraints": bound, **more}} if not more:
                shown = ", ".join(filter(None, [self.text(args), self.text(bound)]))
                return f"<{shown}>" if shown else ""
            case {"params": names, "where_predicates": bounds, **more} if not more:
                where = f" where {self.text(bounds)}" if bounds else ""
                return f"<{self.text(names)}{where}>" if names or bounds else ""
            case {"inputs": [*given], "output": output, "is_c_variadic": False, **more} if not more:
                # The names of arguments may change, but not what is called as a method.
                method = "self: " * (given[:1] != [] and given[0][0] == "self")
                result = f" -> {self.text(output)}" if output else ""
                return f"({method}{', '.join(self.text(of) for _, of in given)}){result}"
            case {"lifetime": life, "is_mutable": changes, "type": of, **more} if not more:
                return f"&{life + ' ' if life else ''}{'mut ' * changes}{self.text(of)}"
            case {"expr": of, "value": value, "is_literal": _, **more} if not more:
                return str(value or of)
            case {"slice": of, **more} | {"tuple": of, **more} if not more:
                return f"[{self.text(of)}]" if "slice" in it else f"({self.text(of)})"
            case dict():
                parts = {key: self.text(of) for key, of in it.items() if key not in APART}
                told = (f"{key} " * (key not in PLAIN) + of for key, of in parts.items() if of)
                return " ".join(told)
            case None | False:
                return ""
        return str(it)

    def state(self, path: str, item: Any) -> None:
        """Adds the clauses of an item, with definitions by their own names."""
        self.found.clauses[path, ""] += 0
        for clause in clauses(item["docs"]):
            for name, id in item["links"].items():
                own, name = self.place(id).rsplit("::", 1)[-1], re.sub("`|mod@", "", name)
                if re.fullmatch(r"\w+", name) and own.lower() not in ("", name.lower()):
                    clause = re.sub(rf"\b{name}\b", own, clause)
            self.found.clauses[path, clause] += 1

    def add(self, line: str, place: str, name: str, owner: str = "") -> None:
        self.found.kept[line] = place, name.rsplit("::", 1)[-1]
        self.found.closed.update([(owner, line)] if owner else [])

    def item(self, path: str, item: Any, place: str, owner: str = "", told: str = "") -> None:
        """Adds an item. `owner` is what it is a part of, if no such part can be added. `told`
        is the path of what has its clauses, if that is another."""
        ((kind, inner),) = item["inner"].items()
        if kind == "module" or path.split("::")[0] in PAGES:
            return
        self.state(told or path, item)
        more = "".join(
            f" {it}" for it in item["attrs"] if re.search("non_exhaustive|repr", str(it))
        )
        match inner:
            case {"sig": sig, "generics": of, "header": header, "has_body": _}:
                is_of = {it for it in header if header[it] is True}
                kinds = "".join(f"{it[3:]} " for it in header if it in is_of)
                abi = f"extern {header['abi']} " if header["abi"] != "Rust" else ""
                line = f"{kinds}{abi}fn {path}{self.text(of)}{self.text(sig)}"
                self.add(line, place, path, owner)
                types = [self.text(of) for name, of in sig["inputs"] if name != "self"]
                self.found.arguments[line] = types
            case {"kind": of, "generics": generics, "impls": _}:
                self.add(f"struct {path}{self.text(generics)}{more}", place, path)
                self.fields(path, of, place)
            case {"variants": variants, "generics": generics}:
                owner = "" if "non_exhaustive" in more else path
                self.add(f"enum {path}{self.text(generics)}{more}", place, path, owner)
                for number, it in enumerate(self.inside(variants)):
                    of = it["inner"]["variant"]
                    value = of["discriminant"]["value"] if of["discriminant"] else f"no. {number}"
                    name = f"{path}::{it['name']}"
                    self.add(f"{name} = {value}", place, name, owner)
                    self.fields(name, of["kind"], place)
            case {"bounds": bounds, "generics": generics, "items": items, "is_auto": _}:
                kinds = "".join(f"{it} " for it in ("auto", "unsafe") if inner[f"is_{it}"])
                above = f": {self.text(bounds)}" if bounds else ""
                self.add(f"{kinds}trait {path}{self.text(generics)}{above}", place, path, path)
                if inner["is_dyn_compatible"]:
                    self.add(f"dyn {path}", place, path)
                self.found.asked.add(path)
                for it in self.inside(items):
                    (of,) = it["inner"].values()
                    given = of["has_body"] if "has_body" in of else of.get("value", of["type"])
                    name = f"{path}::{it['name']}"
                    self.item(name, it, place, "" if given else path)
                    self.found.asked.add(name)
                    if given:
                        self.add(f"{name} has a default", place, name)
            case str():
                self.add(f"{path}: {inner}", place, path)
            case _:
                line = f"{kind.removeprefix('assoc_')} {path}: {self.text(inner)}"
                self.add(line, place, path, owner)

    def fields(self, path: str, of: Any, place: str) -> None:
        """Adds the fields of a struct or a variant. If all are public, users write out all."""
        if isinstance(of, str):
            self.add(f"{path} is {of}", place, path)
            return
        ((form, inner),) = of.items()
        ids, hides = (inner, None in inner) if form == "tuple" else inner.values()
        if not hides:
            self.add(f"{path} has no other fields, {form}", place, path, path)
            self.found.asked.add(path)
        for it in self.inside(ids):
            line = f"{path}.{it['name']}: {self.text(it['inner']['struct_field'])}"
            self.add(line, place, it["name"], "" if hides else path)

    def implementation(self, item: Any) -> None:
        inner = item["inner"]["impl"]
        if inner["is_negative"] or inner["blanket_impl"]:
            return
        of, generics, trait = (self.text(inner[it]) for it in ("for", "generics", "trait"))
        (place,) = re.findall(r"\A\W*([\w:]*)", of)
        head = f"{generics}{generics and ' '}{of}"
        if trait:
            if trait == UNNAMED:
                return
            head = f"impl{generics} {trait} for {of}"
            # An `impl` for every type, or with every type, meets those of users.
            every = inner["for"].get("borrowed_ref", {"type": inner["for"]})["type"]
            given = ((inner["trait"]["args"] or {}).get("angle_bracketed") or {}).get("args", [])
            free = {it.get("type", {}).get("generic") for it in given} - {None}
            is_open = "generic" in every or any(not re.search(rf"\b{it}\b", of) for it in free)
            place = trait if "generic" in every else place
            self.add(head, place, trait.split("<")[0], "every type" if is_open else "")
        named = f"{trait} for {of}" if trait else of
        self.state(named, item)
        for it in self.inside(inner["items"]):
            if trait and "function" in it["inner"]:
                self.state(f"{named}::{it['name']}", it)
            else:
                self.item(f"{head}::{it['name']}", it, place, told=f"{named}::{it['name']}")


# A record of a user, of which the macro of the library writes the impls.
USER = """
[package]
name = "user"
version = "0.0.0"
edition = "2024"
[lib]
path = "lib.rs"
[dependencies]
font-types-proved = {{ path = "{}" }}
[workspace]
"""
UNKNOWN = """tools/surface.py does not know this form of what rustdoc says, version {}.
It knows that of the Rust in docs/VERDICTS.md. See "Use a new rustc" in CONTRIBUTING.md."""
RECORD = "font_types_proved::record! { pub struct Record { pub a: u16, b: [u8; 4] } }"


def walked(folder: Path, target: Path, known: dict[str, str] | None = None) -> Walk:
    shown = documented(folder, target)
    try:
        return Walk(shown, known)
    except (AttributeError, IndexError, KeyError, TypeError, ValueError) as fault:
        raise AssertionError(UNKNOWN.format(shown.get("format_version"))) from fault


def of_package(folder: Path) -> Surface:
    """Returns what users can name in a package, and what its macro writes."""
    with TemporaryDirectory() as name:
        work = Path(name)
        walk = walked(folder, work / "target")
        if "record" in walk.names.values():
            (work / "Cargo.toml").write_text(USER.format(folder))
            (work / "lib.rs").write_text(RECORD)
            known = {walk.place(id): name for id, name in walk.names.items()}
            for line, it in walked(work, work / "target", known).found.kept.items():
                walk.add(line, *it, "record")
    return walk.found


def gone(old: Surface, new: Surface) -> list[str]:
    """Returns what was there and is gone, and what may not be added. A function may become
    `const`."""
    also = {it.replace("const fn", "fn") for it in new.kept}
    owners = {"every type", *(owner for owner, _ in old.closed)}
    added = (f"added: {line}" for owner, line in new.closed - old.closed if owner in owners)
    return [*(it for it in old.kept if it not in new.kept and it not in also), *sorted(added)]


def added(old: Surface, new: Surface) -> set[str]:
    """Returns the names of what is new. A new type has one name, with all that it has."""
    places = {place for place, _ in old.kept.values()}
    found = (new.kept[it] for it in new.kept if it not in old.kept)
    names = {name if place in places else place.rsplit("::", 1)[-1] for place, name in found}
    return names - {OF_MATCHES}


def heads(of: Surface) -> dict[str, str]:
    """Returns the name and the type of each definition, by its text."""
    found = ((it, DEFINED.match(it)) for path, it in of.clauses if path == DEFINITIONS)
    return {it: name[1] for it, name in found if name}


def changed(old: Surface, new: Surface) -> tuple[Clauses, Clauses]:
    """Returns the clauses and definitions that are gone, and those that are new and ask for more,
    or give a name and its type a second meaning. Who calls a function shows what it requires, and
    who implements a trait or writes out a struct shows all."""
    paths, known, named = {path for path, _ in old.clauses}, heads(old).values(), heads(new)
    lost, more = set(), set()
    for path, clause in old.clauses - new.clauses:
        if path in old.asked or not clause.startswith("requires"):
            lost.add((path, clause))
    for path, clause in new.clauses - old.clauses:
        asks = path in paths and (path in old.asked or clause.startswith("requires"))
        if asks or path == DEFINITIONS and named[clause] in known:
            more.add((path, clause))
    return lost, more
