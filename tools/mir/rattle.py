"""Reads the MIR that was proved, as `out/rlib/NAME.rlib/toolchain/mir.json` has it. What is not
read is an error, as of a toolchain that writes another form."""

import json
import re
from collections.abc import Iterable, Iterator
from typing import Any

from machine import Function
from std import integer_of
from terms import FALSE, TRUE, UNIT, Term, number

Json = Any
Layout = tuple[int, int]

# How many bytes a type has, and of what its places are multiples.
LAYOUTS = {"Unit": (0, 1), "Bool": (1, 1), "Ref": (8, 8), "Struct": (16, 8)}


def last(path: str) -> str:
    return path.split("::")[-1].split("+")[0]


def plain(name: str) -> str:
    """Returns a name of Rattle without what it adds to the name of an `impl`."""
    return re.sub(r"\+\w+", "", name)


class Library:
    """The functions of some crates, with the types and impls that they use."""

    def __init__(self, crates: Iterable[Json]) -> None:
        self.bodies: dict[str, Json] = {}
        self.types: dict[str, Json] = {}
        self.impls: dict[str, Json] = {}
        self.methods: list[tuple[str, Json]] = []
        self.order: dict[tuple[str, int], str] = {}  # methods by trait and number
        self.closures: dict[str, str] = {}  # of Rust
        for functions in crates:
            for name, body in functions:
                if self.bodies.setdefault(name, body) is not body:
                    raise ValueError(f"two functions are named {name}")
                self.types.update((it["name"], it) for it in body["types"])
                self.impls.update((it["name"], it) for it in body["generics"]["impls"])
                if body["generics"]["method_of"]:
                    self.methods.append((name, body["generics"]["method_of"]))
        nothing = ("Seq", "Return", {"Assign": [{"local": 0, "steps": []}, {"Opd": "Unit"}]})
        bodies = ((name, it["body"]) for name, it in self.bodies.items())
        lists = ((name, it) for name, it in bodies if isinstance(it, list))
        self.nothing = {name for name, it in lists if all(token in nothing for token in it)}


def kind_of(of: Json) -> tuple[str, Json]:
    """Returns the kind of a type, with what it is of."""
    return next(iter(of.items())) if isinstance(of, dict) else (of, None)


def is_slice(of: Json) -> bool:
    return kind_of(of)[0] == "Struct" and of["Struct"][0].startswith("&")


class Body(Function):
    def __init__(self, library: Library, name: str) -> None:
        super().__init__(name)
        self.library, self.body = library, library.bodies[name]
        self.types: dict[int, Term] = {}
        self.locals, self.count = [it["ty"] for it in self.body["locals"]], self.body["params"]
        tokens = self.body["body"]
        self.tokens = tokens if isinstance(tokens, list) else [tokens]
        self.now: list[Term] = []
        # Which array a local is a pointer to, if its type does not say it.
        lent = (it["LendStatic"] for it in self.tokens if "LendStatic" in it)
        self.arrays = {it["local"]: of for it, of, _ in lent}
        for it, of in (it["Assign"] for it in self.tokens if "Assign" in it):
            if "AddrOf" in of and not it["steps"]:
                array = self.borrowed(of["AddrOf"])
                if self.arrays.setdefault(it["local"], array) != array:
                    raise ValueError(f"a pointer to {array} and {self.arrays[it['local']]}")

    def returned(self, result: Term) -> Term:
        if self.name.endswith("Clone::clone") and result[:2] == ("agg", 0):
            (result,) = result[2]  # it may fail in Rattle, for want of memory
        return result

    # ---- statements

    def block(self) -> int:
        """Begins a block, and returns its label."""
        self.now = self.blocks[len(self.blocks)] = []
        return len(self.blocks) - 1

    def lower(self) -> None:
        self.block()
        self.statement(iter(self.tokens), [])

    def inner(self, tokens: Iterator[Json], ends: list[int | None], after: int) -> int:
        """Reads a statement as a block, from which it goes on to another, and returns its label."""
        label = self.block()
        self.statement(tokens, ends)
        self.now.append(("goto", after))
        return label

    def statement(self, tokens: Iterator[Json], ends: list[int | None]) -> None:
        """Reads the next statement of the tokens, with those in it."""
        kind, it = kind_of(next(tokens))
        if kind == "Seq":
            self.statement(tokens, ends)
            self.statement(tokens, ends)
        elif kind in ("Block", "Loop", "If", "Switch"):
            now, after = self.now, self.block()
            if kind == "Block":
                now.append(("goto", self.inner(tokens, [after, *ends], after)))
            elif kind == "Loop":
                label = len(self.blocks)
                now.append(("goto", self.inner(tokens, [None, *ends], label)))
            elif kind == "If":
                yes, no = (self.inner(tokens, ends, after) for _ in range(2))
                now.append(("switch", (self.operand(it), 1), [(1, yes)], no))
            else:
                operand, bits = self.operand(it[0]), self.width(it[0])
                labels = [(case, self.inner(tokens, ends, after)) for case in it[1]]
                arms = sorted((value, label) for case, label in labels for value in case)
                default = self.inner(tokens, ends, after) if it[2] else None
                now.append(("switch", (operand, bits), arms, default))
            self.now = self.blocks[after]
        elif kind in ("Return", "Unreachable", "Exit"):
            if kind == "Exit" and ends[it] is None:
                raise ValueError("an exit to the head of a loop")
            end = {"Return": ("return",), "Unreachable": ("dead",)}
            self.now.append(end.get(kind) or ("goto", ends[it]))
            self.now = []
        elif kind == "Call":
            self.call(*it)
        elif kind == "Assign":
            self.now.append(("set", self.place(it[0]), self.value(*it)))
        elif kind == "LendStatic":
            self.now.append(("set", self.place(it[0]), ("use", ("term", self.static(it[2])))))
        elif kind != "Skip":
            raise ValueError(f"a statement {kind}")

    def static(self, what: Json) -> Term:
        kind, it = kind_of(what)
        if kind == "Ints":
            values = tuple(number(n, it["width"]) for n in it["values"])
            found = bytes(it["values"]) if it["width"] == 8 else ("agg", None, values)
        elif kind == "Parts" and all("Int" in part for part in it):
            found = ("agg", None, tuple(self.operand(part)[1] for part in it))
        elif kind == "Repeat":
            found = ("repeat", self.operand(it[0])[1], self.amount(it[1]))
        else:
            raise ValueError(f"a constant {what}")
        return ("ptr", ("static", found), ())

    # ---- places

    def shape(self, of: Json) -> Json:
        kind, named = kind_of(of)
        found = self.library.types[named[0]["name"]]["shape"] if kind == "Named" else {}
        return found if isinstance(found, dict) else {}

    def walk(self, place: Json) -> Iterator[tuple[Term | None, Json]]:
        """Yields the steps of a place with the type after each, first that of the local."""
        of, variant = self.locals[place["local"]], None
        yield None, of
        for kind, n in map(kind_of, place["steps"]):
            step: Term | None = None
            if kind == "Deref":
                step, of = ("*",), n
            elif kind == "Field" and is_slice(of):
                step, of = ("len" if n else "first",), of["Struct"][1][n]
            elif kind == "Field":
                fields, named = self.shape(of), of["Named"][1]
                is_enum = "Variants" in fields
                step = ("f", variant, n - is_enum) if n or not is_enum else ("tag",)
                fields = fields["Variants"][variant or 0] if is_enum else fields["Fields"]
                inner = fields[n - is_enum] if n or not is_enum else {"Int": 8}
                of = named[inner["Param"]] if "Param" in inner else inner
            elif kind != "Variant":
                raise ValueError(f"a step {kind}")
            variant = n if kind == "Variant" else None
            if step:
                yield step, of

    def type_of(self, place: Json) -> Json:
        return [*self.walk(place)][-1][1]

    def place(self, place: Json) -> Term:
        return place["local"], tuple(step for step, _ in self.walk(place) if step)

    def size(self, of: Json) -> Term:
        """Returns how many bytes a type has, as a term."""
        layout = self.layout(of)
        return number(layout[0], 64) if layout else ("size", json.dumps(of))

    # Rattle places fields in the order of the source, each at a multiple of its alignment. Of an
    # enum with fields, and of 128 bits, the size is not known, and so no index by a distance.
    def layout(self, of: Json) -> Layout | None:
        """Returns how many bytes a type has, and of what its places are multiples, or None: the
        fields lie in the order of the source."""
        kind, it = kind_of(of)
        if kind in LAYOUTS or kind == "Int" and it <= 64:
            return LAYOUTS.get(kind) or (it // 8, it // 8)
        if kind == "Array":
            inner = self.layout(it[0])
            return (it[1]["Lit"] * inner[0], inner[1]) if inner and "Lit" in it[1] else None

        def layouts(some: list[Json]) -> list[Layout | None]:
            given = (it[1][of["Param"]] if "Param" in of else of for of in some)
            return [self.layout(of) for of in given]

        shape, end, whole = self.shape(of), 0, 1
        if "Variants" in shape:  # a tag, and what is known if it has no bytes
            is_tag = all(set(layouts(some)) <= {(0, 1)} for some in shape["Variants"])
            return (1, 1) if is_tag else None
        for field in layouts(shape["Fields"]) if shape else [None]:
            if not field:
                return None
            size, multiple = field
            end, whole = -(-end // multiple) * multiple + size, max(whole, multiple)
        return (-(-end // whole) * whole, whole)

    def borrowed(self, place: Json) -> Json:
        """Returns the array to which a reference to a place is a pointer, or None."""
        of = self.type_of(place)
        is_same = len(place["steps"]) == 1 and "Deref" in place["steps"][0] and "Array" not in of
        return self.array({**place, "steps": []}) if is_same else of if "Array" in of else None

    def array(self, place: Json) -> Json:
        """Returns the type of the array to which what a place has is a pointer, or None."""
        kind, of = kind_of(self.type_of(place))
        found = None if place["steps"] else self.arrays.get(place["local"])
        is_first = place["steps"][-1:] == [{"Field": 0}]
        return found or (of[2] if kind == "Ref" and "Array" in of[2] and not is_first else None)

    # ---- values

    def operand(self, it: Json) -> Term:
        if it in ("True", "False", "Unit"):
            return ("term", {"True": TRUE, "False": FALSE, "Unit": UNIT}[it])
        kind, what = kind_of(it)
        if kind in ("Copy", "Move"):
            return ("copy", self.place(what))
        if kind == "Int" and isinstance(what["value"], int):
            return ("term", number(what["value"], what["width"]))
        if kind == "NumOf":
            return ("term", self.amount(what[1], what[0]))
        if kind == "SizeOf":
            return ("term", self.size(what))
        raise ValueError(f"an operand {it}")

    def amount(self, of: Json, bits: int = 64) -> Term:
        kind, n = kind_of(of) if isinstance(of, dict) else ("Lit", of)
        if kind not in ("Lit", "Const", "Param"):
            raise ValueError(f"a number {of}")
        return ("gen", self.types[n][0]) if kind == "Param" else number(n, bits)

    def operand_type(self, it: Json) -> Json:
        kind, what = kind_of(it)
        if kind in ("Copy", "Move"):
            return self.type_of(what)
        if kind in ("Int", "NumOf"):
            return {"Int": what["width"] if kind == "Int" else what[0]}
        return "Unit" if it == "Unit" else "Bool"

    def width(self, operand: Json) -> int:
        of = self.operand_type(operand)
        bits: int = 1 if of == "Bool" else of["Int"]
        return bits

    def pointer(self, operand: Json) -> tuple[Term, Term | None, Term]:
        """Returns what is a pointer to an element, the length of the array if it is to one, and
        how many bytes an element has."""
        place = operand["Copy"]
        array = self.array(place)
        of, count = array["Array"] if array else (kind_of(self.type_of(place))[1][2], None)
        return ("raw", self.place(place)), array and self.amount(count), self.size(of)

    def value(self, place: Json, value: Json) -> Term:
        kind, it = kind_of(value)
        if kind == "Opd":
            return ("use", self.operand(it))
        if kind == "AddrOf":
            (local, steps), is_array = self.place(it), "Array" in self.type_of(it)
            is_same = steps[-1:] == (("*",),) and not is_array  # `&*x` is `x`
            return ("use", ("raw", (local, steps[:-1]))) if is_same else ("ref", (local, steps))
        if kind == "Repeat":
            return ("repeat", self.operand(it[0]), ("term", self.amount(it[1])))
        if kind == "Aggregate":
            return self.aggregate(self.type_of(place), it)
        name, sign = kind_of(it[0])
        if kind == "Op1" and name == "Not":
            return (name, self.width(it[1]), self.operand(it[1]))
        if kind == "Op1" and name == "Cast":
            return ("cast", sign[0] == "Signed", self.width(it[1]), sign[2], self.operand(it[1]))
        if kind != "Op2":
            raise ValueError(f"a right side {kind} {name}")
        if name == "Offset":
            return ("offset", *self.pointer(it[1]), self.operand(it[2]))
        a, b = map(self.operand, it[1:])
        b = ("amount", b) if name in ("Shl", "Shr") else b
        return (name, sign == "Signed", self.width(it[1]), a, b)

    def aggregate(self, of: Json, operands: list[Json]) -> Term:
        if is_slice(of):
            return ("slice", *self.pointer(operands[0])[:2], self.operand(operands[1]))
        parts, (kind, named) = [*map(self.operand, operands)], kind_of(of)
        if "Variants" in self.shape(of):
            return ("agg", operands[0]["Int"]["value"], parts[1:])
        closure = self.library.closures.get(plain(named[0]["name"])) if kind == "Named" else None
        return ("agg", ("closure", closure) if closure else None, parts)

    # ---- calls

    def call(self, of: Json, operands: list[Json], place: Json) -> None:
        path, method = of["Fn"][0] if "Fn" in of else "", self.method(of)
        if path in self.library.nothing:
            return
        terms, lent = self.operands(of, operands), [*map(self.lent, operands)]
        if "Method" in of and method in ("call", "call_mut", "call_once"):
            terms[1:] = [self.temporary(("agg", None, terms[1:]))]
        if re.fullmatch(r"core::fmt::builders::\w+::field", path):
            terms[-1] = self.temporary(("dyn", integer_of(of["Fn"][1]["dicts"][-1]), terms[-1]))
        is_clone = method == "clone" and "Fn" not in of or path.endswith("Clone::clone")
        form = "unit" if self.type_of(place) == "Unit" else "clone" if is_clone else None
        self.now.append(("call", (method, path, of), terms, self.place(place), lent, form))

    def temporary(self, value: Term) -> Term:
        self.now.append(("set", ("temporary", ()), value))
        return ("raw", ("temporary", ()))

    def lent(self, operand: Json) -> str:
        kind, inner = kind_of(self.operand_type(operand))
        kind, inner = kind_of(inner[1][0]) if kind == "Struct" else (kind, inner)
        return "" if kind != "Ref" else "mut" if inner[1] == "Mut" else "&"

    def operands(self, of: Json, operands: list[Json]) -> list[Term]:
        """Returns the operands. A function by its name is a unit and an impl of `Fn`, with the
        types and the impls that it is called with."""
        given = of["Fn"][1]["dicts"] if "Fn" in of else ()
        form = r"\w+::(\w+\+.*)\+Fn(?:Mut|Once)?$"
        found = ((re.match(form, it["Impl"][0]), it["Impl"]) for it in given if "Impl" in it)
        named = [(re.sub(r"\++", "::", it[1]), *what[1:]) for it, what in found if it]
        functions = iter([("term", ("fn", json.dumps(it))) for it in named])
        terms = map(self.operand, operands)
        return [next(functions, it) if it == ("term", UNIT) else it for it in terms]

    def method(self, of: Json) -> str | None:
        if "Fn" in of:
            return last(of["Fn"][0])
        way, n, _ = of["Method"]
        of = self.body["generics"]["bounds"][way["Given"]]["of"]
        # That of an operator is named as its trait, as of `AddAssign`.
        operator = re.sub(r"(?<=[a-z])([A-Z])", r"_\1", last(of)).lower()
        is_operator = of.startswith(("core::ops::", "core::default::")) and n == 0
        return self.library.order.get((last(of), n)) or (operator if is_operator else None)
