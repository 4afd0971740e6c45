"""Reads the MIR that rustc compiles, as `--emit=mir` prints it. What is not read is an error: each
statement, terminator, right side and constant has a known form."""

import ast
import functools
import re
from collections.abc import Callable, Iterable, Iterator, Sequence

from machine import Function
from terms import FALSE, TRUE, UNIT, WIDTHS, Term, length, number, text_of, value

PLACE = re.compile(r"<impl at ([^:>]*):(\d+):(\d+): (\d+):(\d+)>")
CLOSURE = re.compile(r"\{closure@([^}]*)\}")
OPERATION = re.compile(r"(Not|Neg|Add|Sub|Mul|Div|Rem|Bit\w+|Shl|Shr|Eq|Ne|Lt|Le|Gt|Ge)\((.*)\)")
IGNORED = re.compile(r"Storage(Live|Dead)\(_\d+\);|ConstEvalCounter;|nop;|debug |scope \d+ \{|\}")
LIMIT = re.compile(r"(?:core::num::<impl )?([iu]\w+?)>?::(MIN|MAX|BITS)")

SWITCH = r"switchInt\((.*)\) -> \[(.*), otherwise: bb(\d+)\];"
ENDED = re.compile(
    r"(.*?) -> (?:\[(?:return|success): bb(\d+), unwind [\w()]+\]|bb(\d+)|unwind [\w()]+);"
)

# A type or trait that a source declares; an enum with what is in it; and a variant of that.
DECLARED = r"^(?! *//).*?\b(?:enum|struct|trait)\s+([A-Z]\w*)"
ENUM = r"^(?:pub(?:\(.*?\))? )?enum (\w+)[^\n{]*\{$(.*?)^\}"
VARIANT = r"(?:#\[[^\]]*\]\s*)*(\w+)(?:\s*[({].*[)}]|\s*=\s*(-?\d+))?"

# What `core` declares: of enums the variants, and the discriminants if they are others.
VARIANTS = {
    "Option": ["None", "Some"], "Result": ["Ok", "Err"], "ControlFlow": ["Continue", "Break"],
    "Ordering": ["Less", "Equal", "Greater"],
}  # fmt: skip
STRUCTS = {"AllocError", "Range", "RangeFrom", "RangeTo", "PhantomData"}

# What is a number in Rattle, and what has nothing to drop there.
STATUSES = {
    "core::process::ExitCode::SUCCESS": ("agg", None, (number(0, 8),)),
    "core::process::ExitCode::FAILURE": ("agg", None, (number(1, 8),)),
}
UNDROPPED = "core::result::Result<usize, core::io::Error>"

# A literal, or the modules of a type or a trait, and its name. Of all but `Error` a name has one.
NAMED = re.compile(r'"(?:\\.|[^"\\\n])*"|(?<![\w:>])((?:[a-z_]\w*::)+)([A-Z]\w*[a-z]\w*)')


def outside(text: str, at: Iterable[str]) -> Iterator[int]:
    """Yields the places of some texts in one where no bracket or literal is open."""
    some, depth = "|".join(map(re.escape, at)), 0
    for it in re.finditer(rf"\"(\\.|[^\"\\])*\"|'(\\.[^']*|[^'\\])'|->|=>|({some})|.", text):
        depth -= it[0] in (")", "]", "}", ">")
        if it[3] and depth == 0:
            yield it.start()
        depth += it[0][-1] in "<([{"


@functools.cache
def split(text: str, at: str = ",") -> tuple[str, ...]:
    """Returns the parts of a text between these signs, where no bracket or literal is open."""
    start, parts = 0, []
    for n in outside(text, [at]):
        parts.append(text[start:n].strip())
        start = n + len(at)
    return tuple(it for it in (*parts, text[start:].strip()) if it)


def bracketed(text: str) -> str:
    """Returns a text up to the bracket that closes the one with which it begins."""
    return text[: next(outside(text, ")]}>")) + 1]


@functools.cache
def head(text: str) -> str:
    """Returns the path with which a text begins: to a `(`, a ` {`, or `: `."""
    return text[: next(outside(text, ["(", " {", ": "]), len(text))]


@functools.cache
def names(path: str) -> list[str]:
    """Returns the names in a path, without what they are given."""
    return [it.split("<")[0] for it in split(path, "::") if it[0] != "<"]


def last(path: str) -> str:
    return names(path)[-1]


def unreferenced(of: str) -> str:
    return re.sub(r"^&('\w+ )?(mut )?", "", of.strip())


class Text:
    """The functions and constants of some packages, and what their sources declare."""

    resolve: Callable[[str], str | None]  # which constant a path names

    def __init__(self, sources: Iterable[list[str]]) -> None:
        self.variants, self.values = dict(VARIANTS), {"Ordering": [-1, 0, 1]}
        self.declared: set[str] = set()
        self.functions: dict[str, Body] = {}
        self.closures: dict[str, str] = {}  # the function of each, by its place
        self.constants: dict[str, set[str]] = {}  # of which types those of a name are
        self.used: set[str] = set()
        self.by_hand: set[str] = set()  # the functions and constants of other files
        for source in map("\n".join, sources):
            for name in re.findall(DECLARED, source, re.M):
                self.require_new(name)
                self.declared.add(name)
            for name, inner in re.findall(ENUM, source, re.M | re.S):
                self.add_enum(name, split(re.sub("//.*", "", inner)))
            for name, of in re.findall(r"\bconst (\w+): ([^=;]+)(?: =|;)", source):
                self.constants.setdefault(name, set()).add(of)

    def add_enum(self, name: str, variants: Sequence[str]) -> None:
        matches = (re.fullmatch(VARIANT, it, re.S) for it in variants)
        found = [it for it in matches if it]
        if len(found) != len(variants):
            raise ValueError(f"the variants of {name}: {variants}")
        self.variants[name] = [it[1] for it in found]
        values: list[int] = []
        for it in found:
            values.append(int(it[2]) if it[2] else (values or [-1])[-1] + 1)
        self.values.update({name: values} if any(it[2] for it in found) else {})

    def require_new(self, name: str) -> None:
        if name in self.declared:
            raise ValueError(f"two types or traits are named {name}")

    def read(self, text: str, crates: set[str]) -> None:
        """Reads what rustc prints of these crates in one package, each function once."""
        for name in set(re.findall(r"\b(?:core|alloc)::(?:\w+::)*([A-Z]\w*)", text)):
            self.require_new(name)
        again, function = False, None
        paths: dict[str, str] = {}
        for line in text.splitlines():
            if line == "// MIR FOR CTFE":
                again = True
            elif line.startswith(("alloc", "}")):
                function = None
            elif line[:1] not in (" ", "/", ""):
                function = Body(self, line)
                closure = CLOSURE.search(function.types.get("_1", ""))
                if function.name.endswith("}()") and closure:
                    self.closures.setdefault(closure[1], function.name)
                if names(function.path)[0] not in crates:
                    self.by_hand.add(function.path)
                    function = None
                elif again and function.name.endswith("()"):
                    function = None
                elif self.functions.setdefault(function.name, function) is not function:
                    raise ValueError(f"two functions are printed as {function.name}")
                again = False
            elif function and line.startswith(" "):
                function.read(line.strip())
            for path, name in NAMED.findall(line) if function else ():
                if name not in ("", "Error") and paths.setdefault(name, path) != path:
                    raise ValueError(f"{name} of {path} and of {paths[name]}")


class Body(Function):
    """A function or a constant, with its types and lines."""

    def __init__(self, text: Text, line: str) -> None:
        kind, _, rest = line.partition(" ")
        kind, rest = (kind, rest) if kind in ("fn", "const", "static") else ("const", line)
        self.text, self.path, self.temporaries = text, head(rest), 0
        super().__init__(self.path + "()" * (kind == "fn"))
        self.types, self.lines, rest = {}, {}, rest[len(self.path) :]
        if kind == "fn":
            self.types = dict(it.split(": ", 1) for it in split(bracketed(rest)[1:-1]))
        self.count = len(self.types)
        if kind != "fn":
            self.types["_0"] = re.sub(r" = .*| \{$", "", rest[2:])
            if not line.endswith("{"):
                self.lines = {0: [f"_0 = {rest.split(' = ', 1)[1]}", "return;"]}

    def read(self, line: str) -> None:
        if local := re.match(r"let (?:mut )?(_\d+): (.*);", line):
            self.types[local[1]] = local[2]
        elif block := re.match(r"bb(\d+)(?: \(cleanup\))?: \{", line):
            self.block = self.lines[int(block[1])] = []
        elif not IGNORED.match(line):
            self.block.append(line)

    def parameters(self) -> Iterator[tuple[str, list[Term]]]:
        """Yields the type of each parameter of Rattle, and the terms that it is here: for C, a
        slice is a pointer and its length."""
        types, n = [self.types[f"_{it + 1}"] for it in range(self.count)], 0
        while types:
            of, one, n = types.pop(0), ("param", n), n + 1
            if of[0] == "*":
                types.pop(0)
                kind, of = of.split(" ", 1)
                of = f"&mut [{of}]" if kind == "*mut" else f"&[{of}]"
                yield of, [("ptr_of", one), length(one)]
            else:
                yield of, [one]

    def arguments(self) -> list[Term]:
        return [it for _, terms in self.parameters() for it in terms]

    # ---- statements

    def lower(self) -> None:
        self.enums = {}  # of which enum a local has the discriminant
        for line in (it for lines in self.lines.values() for it in lines):
            tag = re.fullmatch(r"(_\d+) = (?:discriminant\((.*)\)|(?:copy|move) (_\d+));", line)
            if tag and tag[2]:
                enum = self.enums[tag[1]] = last(unreferenced(self.type_of(tag[2])))
                if not self.text.variants.get(enum):
                    raise ValueError(f"the variants of {enum}")
            elif tag and tag[3] in self.enums:
                self.enums[tag[1]] = self.enums[tag[3]]
        for label, lines in self.lines.items():
            self.now = self.blocks[label] = []
            for line in lines:
                self.statement(line)

    def statement(self, line: str) -> None:
        ended, assigned = ENDED.fullmatch(line), re.fullmatch(r"([_(].*?) = (.*);", line)
        text, label = (ended[1], ended[2] or ended[3]) if ended else (line, None)
        goto = ("goto", int(label)) if label else ("dead",)
        forms = ((run, re.fullmatch(pattern, text)) for pattern, run in FORMS if ended)
        run, found = next((it for it in forms if it[1]), (None, None))
        if line in ("return;", "unreachable;", "resume;"):
            self.now.append(("return" if line == "return;" else "dead",))
        elif run and found:
            run(self, *found.groups())
            self.now.append(goto)
        elif switch := re.fullmatch(SWITCH, line):
            self.switch(*switch.groups())
        elif assigned:
            self.now.append(("set", self.place(assigned[1]), self.value(assigned[2])))
        else:
            raise ValueError(line)

    def goes_on(self, _: str) -> None:
        pass

    def index_check(self, operands: str) -> None:
        self.now.append(("index", *self.operands(operands)))

    def drop(self, place: str) -> None:
        if self.types.get(place) == UNDROPPED:
            return
        given = [("copy", self.place(place))]
        self.now.append(("call", ("drop", "drop", None), given, ("unused", ()), "&", "unit"))

    def call(self, to: str, text: str) -> None:
        path, form = head(text), "unit" if self.types.get(to) == "()" else None
        given = split(text[len(path) + 1 : -1])
        terms, lent = [*map(self.operand, given)], [*map(self.lent, given)]
        self.now.append(("call", (last(path), path, None), terms, self.place(to), lent, form))

    def lent(self, operand: str) -> str:
        """Returns "mut" or "&" for such a reference; "mut" if the type is not known."""
        if not operand.startswith(("move ", "copy ")):
            return ""
        of = self.type_of(operand)
        return "mut" if not of or re.match(r"&('\w+ )?mut ", of) else of[:1]

    def enum(self, operand: str) -> str | None:
        return self.enums.get(operand.split(" ")[-1])

    def switch(self, operand: str, texts: str, otherwise: str) -> None:
        of, enum, term = self.type_of(operand), self.enum(operand), self.operand(operand)
        values = self.text.values.get(enum or "")
        pairs = [it.split(": bb") for it in split(texts)]

        def raw(n: int) -> int:  # a discriminant is printed without a sign
            return values.index(value(number(n, WIDTHS[of]), True)) if values else n

        arms = sorted((raw(int(n)), int(label)) for n, label in pairs)
        default = None if self.lines[int(otherwise)] == ["unreachable;"] else int(otherwise)
        self.now.append(("switch", (term, 8 if enum else WIDTHS[of]), arms, default))

    # ---- places

    def place(self, text: str) -> Term:
        place, rest = self.parse(text)
        if rest:
            raise ValueError(f"the place {text}")
        return place

    def parse(self, text: str) -> tuple[Term, str]:
        """Reads the place with which a text begins, and returns what is after it."""
        if not (found := re.match(r"_(\d+)", text)):
            (local, steps), rest = self.parse(text[2 if text.startswith("(*") else 1 :])
            if variant := re.match(r" as (\w+)", rest):
                steps = (*steps, self.variant(variant[1]))
            elif field := re.match(r"\.(\d+): ", rest):
                of = steps[-1] if steps and isinstance(steps[-1], int) else None
                steps = (*(steps if of is None else steps[:-1]), ("f", of, int(field[1])))
            else:
                steps = (*steps, ("*",))
            rest = text[len(bracketed(text)) :]
        else:
            (local, steps), rest = (int(found[1]), ()), text[found.end() :]
        while rest.startswith("["):
            inner, rest = rest[1:].split("]", 1)
            steps = (*steps, self.index(inner))
        return (local, steps), rest

    def index(self, inner: str) -> Term:
        """Returns the step to an element, or, by a pattern, to elements from both ends."""
        one, some = re.fullmatch(r"(-?)(\d+) of \d+", inner), re.fullmatch(r"(\d*):-?(\d*)", inner)
        if inner.startswith("_"):
            return ("e", ("copy", (int(inner[1:]), ())))
        if one:
            return ("end", int(one[2])) if one[1] else ("e", ("term", number(int(one[2]), 64)))
        if not some or some[2] and ":-" not in inner:
            raise ValueError(f"the part {inner} of an array")
        return ("win", int(some[1] or 0), int(some[2] or 0))

    def variant(self, name: str) -> int:
        (found,) = {it.index(name) for it in self.text.variants.values() if name in it}
        return found

    # ---- values

    def type_of(self, text: str) -> str:
        """Returns the type of an operand, as far as its text says it."""
        text = re.sub("^(copy|move|const) ", "", text)
        literal = re.fullmatch(r"-?\d+_(\w+)|\(.*\.\d+: ([^()]*)\)", text)
        local = re.fullmatch(r"(\(\*)?(_\d+)\)?(\[.*\])?", text)
        limit, is_char = LIMIT.fullmatch(text), text[0] == "'"
        if literal:
            return literal[1] or literal[2]
        if local:
            of = self.types[local[2]]
            of = unreferenced(of) if local[1] or local[3] else of
            return re.sub(r"^\[(.*?)(; .*)?\]$", r"\1", of) if local[3] else of
        if limit:
            return "u32" if limit[2] == "BITS" else limit[1]
        if is_char or text in ("true", "false"):
            return "char" if is_char else "bool"
        name = None if text[0] in '"b(' else self.text.resolve(text)
        types = self.text.constants.get(text.split("::")[-1], ())  # a constant of a trait
        of_trait = next(iter(types)) if len(types) == 1 else ""
        return self.text.functions[name].types["_0"] if name else of_trait

    def operand(self, text: str) -> Term:
        if text[:5] in ("move ", "copy "):
            return ("copy", self.place(text[5:]))
        if not text.startswith("const "):
            return ("term", ("fn", text))
        text = text.removeprefix("const ")
        if term := self.term(text):
            return ("term", term)
        self.temporaries += 1
        place = (f"constant {self.temporaries}", ())
        inner = re.search(r"::(promoted\[\d+\]|\{constant#\d+\})$", text)
        if not inner and text.startswith("<") and " as " in text:
            self.now.append(("call", (last(text), text, None), (), place, (), None))
        else:
            name = f"{self.path}::{inner[1]}" if inner else self.text.resolve(text)
            if name is None:
                raise ValueError(f"the constant {text}")
            self.text.used.add(name)
            self.now.append(("constant", place, self.text.functions[name]))
        return ("copy", place)

    def operands(self, text: str) -> Term:
        return tuple(map(self.operand, split(text)))

    def term(self, text: str) -> Term | None:
        """Returns a constant that needs no code, or None."""
        if integer := re.fullmatch(r"(-?\d+)(?:_(\w+))?", text):
            return number(int(integer[1]), WIDTHS[integer[2] or "usize"])
        if limit := LIMIT.fullmatch(text):
            bits, signed = WIDTHS[limit[1]], limit[1][0] == "i"
            n = {"MAX": (1 << bits - signed) - 1, "MIN": signed << bits - 1, "BITS": bits}
            return number(n[limit[2]], 32 if limit[2] == "BITS" else bits)
        if text[0] in "'\"b" and text[-1] in "'\"":
            return literal_of(text)
        known = {"true": TRUE, "false": FALSE, "()": UNIT, **STATUSES}
        return known.get(text) or (("gen", text) if re.fullmatch("[A-Z]+", text) else None)

    def count_of(self, text: str) -> Term:
        """Returns how many elements there are in an array, by the text in its type."""
        if term := self.term(text):
            return term
        raise ValueError(f"the number {text} of elements")

    def value(self, text: str) -> Term:
        if operation := OPERATION.fullmatch(text):
            return self.operated(operation[1].removeprefix("Bit"), split(operation[2]))
        if unary := re.fullmatch(r"(discriminant|PtrMetadata)\((?:copy |move )?(.*)\)", text):
            local, steps = self.place(unary[2])
            step = "tag" if unary[1] == "discriminant" else "len"
            return ("use", ("copy", (local, (*steps, (step,)))))
        if borrowed := re.fullmatch(r"&(?:mut |raw const \(fake\) )?([_(].*)", text):
            return ("ref", self.place(borrowed[1]))
        # It is said to Miri, of a copy of a reference, and computes nothing.
        text = text.removeprefix("no_retag ")
        if text[:5] in ("copy ", "move ", "const"):
            operand, *to = split(text, " as ")
            return self.casted(operand, *to) if to else ("use", self.operand(operand))
        return self.aggregate(text)

    def aggregate(self, text: str) -> Term:
        item, *count = split(text[1:-1], ";") or ("",)
        if text[0] == "[" and count:
            size = "const " + count[0].removeprefix("const ")
            return ("repeat", self.operand(item), self.operand(size))
        closure = CLOSURE.match(text)
        path = closure[0] if closure else head(text) if text[0] not in "[(" else ""
        parts, found = text[len(path) :].strip()[1:-1].strip(", "), names(path)
        if " {" in text[len(path) :][:2]:
            parts = ", ".join(it.split(": ", 1)[1] for it in split(parts))
        variants = self.text.variants.get(found[-2] if len(found) > 1 else "", ())
        variant = variants.index(found[-1]) if found and found[-1] in variants else None
        is_struct = bool(found) and found[-1] in self.text.declared | STRUCTS
        if found and not closure and variant is None and not is_struct:
            raise ValueError(f"{path} is no type that is known: {text}")
        return ("agg", ("closure", path) if closure else variant, self.operands(parts))

    def operated(self, name: str, operands: Sequence[str]) -> Term:
        typed = operands[:1] if name in ("Shl", "Shr") else operands  # not the amount's type
        of, terms = next(filter(None, map(self.type_of, typed)), ""), map(self.operand, operands)
        bits, signed = WIDTHS.get(of), of[:1] == "i"
        if any(map(self.enum, operands)):
            bits = 8 if name in ("Eq", "Ne") else None
        if not bits:
            raise ValueError(f"{name} of {of}")
        if name == "Not":
            return (name, bits, *terms)
        zero = [("term", number(0, bits))] if name == "Neg" else []
        return ("Sub" if zero else name, signed, bits, *zero, *terms)

    def casted(self, operand: str, text: str) -> Term:
        found = re.fullmatch(r"(.*) \((IntToInt|PointerCoercion\(Unsize, .*\))\)", text)
        if not found:
            raise ValueError(f"the cast to {text}")
        to, how = found.groups()
        of, enum, term = self.type_of(operand), self.enum(operand), self.operand(operand)
        if enum in self.text.values:
            raise ValueError(f"a discriminant that is not the number of a variant: {text}")
        if how == "IntToInt":
            # What is proved is of a `usize` of 64 bits. One of 32 holds fewer numbers.
            if to == "usize" and not enum and of != "usize" and WIDTHS[of] > 32:
                raise ValueError(f"a cast of {of} to usize, which may have 32 bits")
            return ("cast", of[0] == "i", 8 if enum else WIDTHS[of], WIDTHS[to], term)
        if array := re.fullmatch(r"\[.*; (.*)\]", unreferenced(of)):
            return ("whole", term, self.count_of(array[1]))
        # It is a value as one of any type, for `Debug`.
        kind = re.sub(r"&|'\w+ |mut ", "", of)
        return ("dyn", kind if kind in WIDTHS and kind not in ("bool", "char") else None, term)


# How a statement that ends a block is read. What is asserted before a division has a check of its
# own.
FORMS: tuple[tuple[str, Callable[..., None]], ...] = (
    (r'goto|assert\(!move _\d+, "attempt to (divide|calculate|compute `\{\} [/%]).*', Body.goes_on),
    (r'assert\(move _\d+, "index out of bounds:[^"]*", (.*)\)', Body.index_check),
    (r"drop\((.*)\)", Body.drop),
    (r"([_(].*?) = (.*\))", Body.call),
)  # fmt: skip


def literal_of(text: str) -> Term:
    escape = lambda it: "\\U" + it[2].zfill(8) if it[2] else "\\x00" if it[1] == "0" else it[0]
    found = ast.literal_eval(re.sub(r"\\(u\{(\w+)\}|.)", escape, text))
    if text[0] == "b":
        return ("ptr", ("static", found), ())
    return number(ord(found), 32) if text[0] == "'" else text_of(found.encode())
