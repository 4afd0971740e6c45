"""Plain Rust from a Rattle source file.

Rattle is Rust with contracts. These are left out:

- clauses: `requires` and `ensures` before a function's body;
- ghost items: `ghost use ..;`, and `ghost NAME`, what it is, and its `,` or `;`;
- `#[tactic(..)]`, `#[cfg(test)] mod tests;`, and the bound `+ Drop`;
- `Drop` and `Error` at the end of a `derive(..)`, and `#[error(..)]`;
- the modules that `__main__.py` lists for a crate, the imports of `UNUSED`, and each `let _bytes`;
- the comments above a clause or an item that is left out, and the line that says from which file the
  source itself is made.

These are changed, and nothing else:

- paths: crates become modules of one crate, `std` becomes `core` or the module `host`, and in
  variations `crate` becomes `super`;
- `fmt<W: fmt::Write>` over a `Formatter<W>`, which in Rust has no such parameter;
- `clone(&self) -> Result<T, AllocError>`, which returns the value of its `Ok`;
- a trait's parameter `Rhs`, which defaults to `Self`, as of Rust's operators;
- a slice parameter of an `extern "C"` function, which becomes a pointer and a length;
- an `extern "C"` function with a slice or a reference, which becomes `unsafe`;
- `prove!(..)`, which becomes `const { assert!(..) }`: rustc checks it of each type; or, with a
  message, `assert!(..)`, with which a call from Rust panics that breaks a precondition;
- the program's `fn main`, which becomes `pub`;
- functions of `CONST`, which become `const`, and those of the library, which become `#[inline]` and
  `#[must_use]`;
- in documentation the package's name, and in a comment `#[doc(alias = ..)]` and
  `#[diagnostic::..]`, attributes that Rattle does not have, which become ones.

`Display` and `Error` of a type that derives `Error` are added, what `DERIVED` lists, and in each
file of the program the import of what Rattle has in scope.

`tools/mir` compares what both compilers make of the source and of the output. What it cannot
compare is an error, as far as `forms.py` knows it.
"""

import re
from collections.abc import Sequence
from typing import Literal, NamedTuple, NoReturn

import forms
from contracts import Contracts
from widths import MADE

# Functions of the library that are `const` in Rust. A `const fn` of Rattle may not call `split_at`,
# `is_empty` or `unwrap`, which that of Rust may.
CONST = (
    "after_point from_decimal from_decimal_bytes half_units "
    "nearest_raw read_bits_16 read_bits_32 read_bits_64 read_decimal read_decimal_bytes"
).split()

LIBRARY = "font_decimal font_base font_fixed font_tags font_ids font_geom font_types".split()

# What a crate becomes part of; `exports` are for C.
Target = Literal["library", "exports", "program", "variations", "tests"]


class Crate(NamedTuple):
    name: str
    target: Target
    left_out: Sequence[str] = ()  # which of its modules


# What Rust derives besides, of types whose proofs need no such function.
DERIVED = {
    "Align": "Debug, PartialEq, Eq, Hash",
    "Pad": "Debug, PartialEq, Eq, Hash",
    "SampleHeader": "Clone, Copy, Debug",
    "TryFromGlyphIdError": "Clone, Copy, PartialEq, Eq",
    "TryFromUint24Error": "Clone, Copy, PartialEq, Eq",
}

# Errors that are `Copy` in Rust. A derived `Copy` would change what the derived `Clone` does.
COPIED = ("DecimalFault", "InvalidTag", "SettingError")

# The targets that have documentation, and derive what `DERIVED` and `COPIED` say.
PACKAGES = ("library", "variations")


class Header(NamedTuple):
    end: int
    clauses: list[range]


class Refused(Exception):
    """A form that is not erased, after its line."""


class Token(NamedTuple):
    kind: str  # which group of `TOKEN` it is
    text: str
    line: int


# The concatenated tokens are the file. All but spaces and comments are words.
TOKEN = re.compile(
    r"""(?P<space>\s+) | (?P<head>//![^\n]*) | (?P<doc>///(?!/)[^\n]*) | (?P<comment>//[^\n]*)
    | (?P<wrong>/\*) | (?P<code> b?"(?:[^"\\]|\\.)*" | r(?P<marks>\#*)".*?"(?P=marks)
    | b'(?:[^'\\\n]|\\.)*' | '(?:\\[^\n][^'\n]*|[^\n])' | '\w+ | ::
    | \w+\b(?!["'\#]) | [^\w"'] )""",
    re.VERBOSE | re.DOTALL,
)


def tokens(source: str) -> list[Token]:
    """Splits a file into tokens."""
    at, found = 0, []
    while at < len(source):
        line, token = 1 + source.count("\n", 0, at), TOKEN.match(source, at)
        if not token or token["wrong"]:
            what = (
                "a comment in `/* */`"
                if token
                else "an unterminated literal, a raw name or a quote of another form"
            )
            raise Refused(line, what)
        found.append(Token(str(token.lastgroup), token[0], line))
        at = token.end()
    return found


class Eraser:
    """A file. Places in it are counted in words."""

    def __init__(
        self,
        text: str,
        of: Crate,
        is_root: bool,
        known: dict[str, str] | None = None,
        path: str = "",
    ) -> None:
        self.tokens, self.of, self.is_root, self.file = tokens(text), of, is_root, path
        self.places = [n for n, token in enumerate(self.tokens) if token.kind == "code"]
        self.words = [self.tokens[n].text for n in self.places]
        # Of each token whether it is written, and what is written before it.
        self.kept = [not it.text.startswith("//" + MADE) for it in self.tokens]
        self.put_before = [""] * (len(self.tokens) + 1)
        self.modules: list[str] = []
        self.header, self.trait_end = 0, 0
        # Functions that had a parameter `W`, and the words whose form is checked.
        self.writers: list[range] = []
        self.visited: list[int] = []
        if of.target == "program":
            first = (n for n, it in enumerate(self.tokens) if it.kind not in ("space", "head"))
            self.put_before[next(first, 0)] += "use crate::host::*;\n\n"
        self.contracts = Contracts(self, known or {})
        at = 0
        while at < len(self.words):
            self.visited.append(at)
            if of.target in PACKAGES:
                self.contracts.note(at)
            at = self.step(at)
        first = (n for n, word in enumerate(self.words) if word in ("ghost", "use"))
        self.put(next(first, 0), self.contracts.imports())
        if of.target != "tests":
            forms.check(self)

    def step(self, at: int) -> int:
        """Decides on the words at this place, and returns the place of the next."""
        target = self.of.target
        match self.words[at : at + 9]:
            case ["requires" | "ensures", *_] if at >= self.header:
                self.refuse(at, "a clause elsewhere than before a function's body")
            case ["requires" | "ensures", *_]:
                return self.leave_out_with_comments(at, self.clause_end(at))
            case ["#", *after]:
                return self.attribute(at, at + 1 + (after[:1] == ["!"]))
            case ["pub" | "ghost" | "mod" | "use", *_]:
                return self.item(at)
            case ["fn", name, *_] if name != "(":
                return self.function(at)
            # A fact for a proof.
            case ["let", "_bytes", "=", *_] if target == "library":
                return self.leave_out_with_comments(at, self.item_end(at))
            case ["Formatter", "<", "W", ">", *_] if self.is_of_writer(at):
                self.replace(at + 2, "'_")
                return at + 3
            case ["trait", _, *generics] if forms.is_item(self.words, at):
                self.trait_end = self.group_end(self.header_end(at))
                if generics[:3] == ["<", "Rhs", ">"]:
                    self.put(at + 4, " = Self")
            # It returns the clone, not a `Result`.
            case [".", "clone", "(", ")", "?", *_] if target == "tests":
                return self.leave_out(at + 4, at + 5)
            case [".", "repeat", "(", "rt", _, "alloc", "(", ")", ",", *_] if target == "tests":
                end = self.group_end(at + 2)
                self.leave_out(end, end + 1)
                return self.leave_out(at + 3, at + 9)
            case ["+", "Drop", after, *_] if after != "::":
                return self.leave_out(at, at + 2)
            case ["prove", "!", "(", *_]:
                end = self.group_end(at + 2) - 1
                if self.words[end - 1][0] == '"':
                    self.replace(at, "assert")
                    return at + 1
                self.put_after(end, " }")
                self.replace(at, "const { assert")
            case [name, "::", after, *_] if forms.is_start(self.words, at):
                self.path(at, name, after)
        return at + 1

    def path(self, at: int, name: str, after: str) -> None:
        """Writes the start of a path."""
        target = self.of.target
        if name == "crate" and target == "variations":
            self.replace(at, "super")
        elif name == "crate":
            self.put(at + 2, f"{self.of.name}::")
        # Rattle has these in another form, and the program has its own.
        elif name == "std" and target == "program" and after in ("alloc", "env", "io"):
            self.replace(at, "crate::host")
        elif name == "std" and target != "program":
            self.replace(at, "crate::std_for_tests" if target == "tests" else "core")
        elif name == "font_types" and target in ("program", "variations"):
            self.replace(at, "font_types_proved")
        elif name in (*LIBRARY, "font_lines"):
            self.put(at, "crate::")

    def item(self, at: int) -> int:
        """An item that may be left out, with its visibility."""
        item = at
        if self.words[at] == "pub":
            item = self.group_end(at + 1) if self.words[at + 1 : at + 2] == ["("] else at + 1
        match self.words[item : item + 3]:
            case ["ghost", "use", *_]:
                end = self.item_end(item)
                self.check_logic(item, end)
            case ["ghost", *_]:
                end = self.ghost_end(item)
            case ["mod", name, ";"] if self.is_root and name in self.of.left_out:
                end = item + 3
            case ["use", *_] if forms.is_unused(self, item, self.item_end(item)):
                end = self.item_end(item)
            case ["enum", name, *_] if name in COPIED and self.of.target in PACKAGES:
                after = self.group_end(self.header_end(item))
                self.put_after(after - 1, f"\n\nimpl Copy for {name} {{}}\n")
                return item
            case ["struct" | "enum", name, *_] if name in DERIVED and self.of.target in PACKAGES:
                self.put(at, f"#[derive({DERIVED[name]})]\n")
                return item
            case ["mod", name, *_] if item == at:
                self.modules.append(name)
                return at + 1
            case _:
                return at + 1
        return self.leave_out_with_comments(at, end)

    def is_of_writer(self, at: int) -> bool:
        """Whether a word is in a function that had a parameter `W`."""
        return any(at in writer for writer in self.writers)

    def attribute(self, at: int, opens: int) -> int:
        """An attribute, whose bracket opens at the second place."""
        end = self.group_end(opens)
        match self.words[opens + 1 : end]:
            # `f` is the formatter, and of `n$` rustc looks outside of the type.
            case ["error", "(", text, *_] if re.search(r"\{\{|\{f[}:]|[$\\]", text):
                self.refuse(opens + 3, "`{{`, `{f`, `$` or an escape in the text of an error")
            case ["tactic" | "error", *_]:
                is_kept = False
            case ["cfg", "(", "test", ")", "]"]:
                if self.words[end : end + 3] != ["mod", "tests", ";"]:
                    self.refuse(at, "tests elsewhere than in `mod tests;`")
                return self.leave_out_with_comments(at, end + 3)
            case ["derive", "(", *_]:
                is_kept = self.derive(opens + 3, end)
            case ["inline" | "must_use", "]"] if self.of.target == "library":
                self.refuse(at, "an attribute that the eraser writes")
            case words:
                is_kept = True
                if self.of.target != "tests":
                    forms.check_attribute(self, opens + 1, words, self.words[end:])
        if not is_kept:
            self.leave_out(at, end)
        return end

    def derive(self, first: int, end: int) -> bool:
        """Leaves `Drop` and `Error` out of a `derive`, where they are last, and returns whether
        others are left. `Error` and `Display` are written after the type."""
        names = self.words[first : end - 2]
        is_error, count = names[-1:] == ["Error"], len(names)
        while names and names[-1] in ("Drop", "Error", ","):
            names.pop()
        if is_error:
            after = self.group_end(self.header_end(end))
            self.put_after(after - 1, impls(self.words[end:after]))
        if len(names) < count:
            self.leave_out(first + len(names), end - 2)
        return len(names) > 0

    def function(self, at: int) -> int:
        """`fn` and a name."""
        self.header = self.header_end(at)
        is_root, target = self.is_root, self.of.target
        if self.words[max(at - 2, 0) : at] == ["extern", '"C"']:
            return self.export(at)
        if is_root and target == "program" and self.words[at + 1] == "main":
            self.put(at, "pub ")
        if target == "library":
            self.put_attributes(at)
            if self.words[at + 1] in CONST:
                self.put(at, "const ")
        match self.words[at + 2 : at + 11]:
            case ["(", rt, ":", "HostRuntime", ")", *_] if target == "tests":
                self.put_after(self.header, f"let {rt} = crate::std_for_tests::Host;")
                return self.leave_out(at + 3, at + 6)
            case ["<", "W", ":", "fmt", "::", "Write", ">", *_]:
                self.writers.append(range(at + 9, self.group_end(self.header)))
                return self.leave_out(at + 2, at + 9)
            case ["(", "&", "self", ")", "-", ">", "Result", "<", *_] if self.words[
                at + 1
            ] == "clone":
                return self.clone_of_copy(at)
        return at + 1

    def put_attributes(self, at: int) -> None:
        """Writes `#[must_use]` above a function of a type, a module or a trait that returns a value
        in which no `Result` stands, which has that attribute itself; and `#[inline]` above each
        that has a body, does not print, and has no other."""
        first = self.contracts.first(at)
        before, header = self.words[first:at], " ".join(self.words[at : self.header])
        is_public = re.search(r"pub(?! \()", " ".join(before)) or at < self.trait_end
        if is_public and re.search(r"- > (?!.*- > |.*Result )", header):
            self.put(first, "#[must_use]\n")
        has_body = self.words[self.header] == "{"
        if has_body and self.words[at + 1] != "fmt" and "inline" not in before:
            self.put(first, "#[inline]\n")

    def export(self, at: int) -> int:
        """`extern "C" fn f(x: &[T]) { .. }` becomes `extern "C" fn f(x: *const T, x_len: usize) {
        let x = unsafe { slice(x, x_len) }; .. }`, and is unsafe."""
        end, slices = self.group_end(at + 2), ""
        for name in range(at + 3, end):
            match self.words[name : min(name + 6, end)]:
                case [word, ":", "&", "[", _, "]", *_]:
                    item, pointer, of = name + 4, "*const ", "slice"
                case [word, ":", "&", "mut", "[", _]:
                    item, pointer, of = name + 5, "*mut ", "slice_mut"
                case _:
                    continue
            self.leave_out(name + 2, item)
            self.put(item, pointer)
            self.replace(item + 1, f", {word}_len: usize")
            slices += f"\n    let {word} = unsafe {{ crate::{of}({word}, {word}_len) }};"
        if "&" in self.words[at:end]:
            self.put(at - 2, "unsafe ")
        self.put_after(self.header, slices)
        return at + 1

    def clone_of_copy(self, at: int) -> int:
        """`fn clone(&self) -> Result<T, AllocError> { Ok(x) }` becomes `fn clone(&self) -> T { x
        }`."""
        comma = self.header - 3
        if self.words[comma : comma + 6] != [",", "AllocError", ">", "{", "Ok", "("]:
            self.refuse(at, "a `clone` of another form")
        close = self.group_end(comma + 5) - 1
        if self.words[close + 1] != "}" or {"?", "return"} & set(self.words[comma:close]):
            self.refuse(at, "a `clone` of another body than `Ok(..)`")
        for start, end in (
            (at + 8, at + 10),
            (comma, comma + 3),
            (comma + 4, comma + 6),
            (close, close + 1),
        ):
            self.leave_out(start, end)
        return at + 10

    # ---- where it ends

    def group_end(self, at: int) -> int:
        """The end of the bracket that opens here; that of a word by itself is after it."""
        closes, pairs = [], {"(": ")", "[": "]", "{": "}"}
        for n in range(at, len(self.words)):
            word = self.words[n]
            if word in pairs:
                closes.append(pairs[word])
            elif word in (")", "]", "}") and (not closes or closes.pop() != word):
                self.refuse(n, f"`{word}` closes another bracket")
            if not closes:
                return n + 1
        self.refuse(at, "a bracket is not closed")

    def item_end(self, at: int) -> int:
        """After the next `;` outside of brackets."""
        while self.words[at : at + 1] != [";"]:
            at = self.group_end(at)
        return at + 1

    def logic_end(self, at: int) -> int:
        """The end of a group of logic."""
        if self.words[at : at + 1] != ["{"]:
            self.refuse(at, "a clause or a ghost item of another form")
        end = self.group_end(at)
        self.check_logic(at, end)
        return end

    def check_logic(self, at: int, end: int) -> None:
        """Checks that the logic ends where this text does: its comments, which begin with `--` or
        `{-`, are unknown here, and it has no `r".."` or `'x'`, of which the text may end
        elsewhere."""
        pairs = zip(self.words[at:end], self.words[at + 1 : end])
        inside = self.tokens[self.places[at] : self.places[end - 1]]
        is_known = all(
            kind == "space" or kind == "code" and (text[0] == '"' or not {'"', "'"} & {*text})
            for kind, text, _ in inside
        )
        if not is_known or any(it in (("-", "-"), ("{", "-")) for it in pairs):
            self.refuse(at, "a comment or a raw text in a clause or a ghost item")

    def clause_end(self, at: int) -> int:
        """`requires` or `ensures`, a name or none, and what it says."""
        return self.logic_end(at + 1 + (self.words[at + 1 : at + 2] != ["{"]))

    def ghost_end(self, at: int) -> int:
        """`ghost`, a name, and after `:` or `=` what it is; then a `,` or a `;` if there is one."""
        if self.words[at + 2 : at + 3] not in ([":"], ["="]):
            self.refuse(at, "a ghost item of another form")
        end = self.logic_end(at + 3)
        while self.words[end : end + 2] in ([":", "{"], ["=", "{"]):
            end = self.logic_end(end + 1)
        return end + (self.words[end : end + 1] in ([","], [";"]))

    def header_end(self, at: int) -> int:
        return self.header_and_clauses(at).end

    def header_and_clauses(self, at: int) -> Header:
        """The place of the `{` or the `;` after the header of a function or a type, past a bracket
        such as that of `A<{ N }>`, and its clauses."""
        clauses: list[range] = []
        while True:
            end = self.group_end(at)
            match self.words[at : at + 1]:
                case ["{"] if self.words[end : end + 1] in ([">"], [","]):
                    at = end
                case ["{" | ";"]:
                    return Header(at, clauses)
                case ["requires" | "ensures"]:
                    clauses.append(range(at, self.clause_end(at)))
                    at = clauses[-1].stop
                case ["ghost"]:
                    at = self.ghost_end(at)
                case _:
                    at = end

    # ---- what is written

    def written(self) -> str:
        """Returns the text that is kept. A line of which nothing is kept is not written."""
        rust = ""
        for before, is_kept, (kind, text, _) in zip(self.put_before, self.kept, self.tokens):
            if kind in ("head", "doc"):
                text = text.replace("font_types::", "font_types_proved::")
            elif kind == "comment" and text.startswith(("// #[doc(alias", "// #[diagnostic::")):
                text = text.removeprefix("// ")
            rust += before + (text if is_kept else "\0")
        lines = (rust + self.put_before[-1]).split("\n")
        kept = [line for line in lines if "\0" not in line or line.replace("\0", "").strip()]
        return "\n".join(kept).replace("\0", "").removesuffix("\n")

    def leave_out(self, start: int, end: int) -> int:
        """Leaves out words and what is between them, and returns their end."""
        for n in range(self.places[start], self.places[end - 1] + 1):
            self.kept[n] = False
        return end

    def leave_out_with_comments(self, start: int, end: int) -> int:
        """Also leaves out the comments and docs on the lines above."""
        for n in range(self.first_comment(start), self.places[start]):
            self.kept[n] = False
        return self.leave_out(start, end)

    def first_comment(self, start: int) -> int:
        """The first token of the comments and docs on the lines above a word, or its own."""
        first = self.places[start]
        while first >= 2:
            comment, space = self.tokens[first - 2 : first]
            is_own = first == 2 or "\n" in self.tokens[first - 3].text
            if comment.kind not in ("comment", "doc") or not is_own or space.text.count("\n") > 1:
                break
            first -= 2
        return first

    def put(self, at: int, text: str) -> None:
        """Writes a text before a word."""
        self.put_before[self.places[at]] += text

    def put_after(self, at: int, text: str) -> None:
        """Writes a text after a word."""
        self.put_before[self.places[at] + 1] += text

    def replace(self, at: int, text: str) -> None:
        self.put(at, text)
        self.leave_out(at, at + 1)

    def refuse(self, at: int, what: str) -> NoReturn:
        """An error at a word, or at the end of the file."""
        place = self.places[at] if at < len(self.places) else -1
        raise Refused(self.tokens[place].line, what)


def impls(words: list[str]) -> str:
    """Returns the impls that `derive(Error)` expands to. The words are those after the `derive`, to
    the end of the type. Texts of another form are errors of rustc."""
    kind = next(n for n, word in enumerate(words) if word in ("struct", "enum"))
    arms = ""
    for at in range(len(words)):
        match words[at : at + 9]:
            case ["#", "[", "error", "(", text, ")", "]", *after]:
                variant, shape = "Self", words[kind + 2]
                if at > kind:
                    variant, shape = f"Self::{after[0]}", after[1]
                # A field without a name is shown by its number.
                text = text.replace("{0}", "{field_0}").replace("{0:", "{field_0:")
                shown = "".join(f"{field}, " for field in re.findall(r"\{([^:}{]*)", text))
                pattern = {"{": f" {{ {shown}.. }}", "(": f"({shown}..)"}.get(shape, "")
                arms += f"{variant}{pattern} => write!(f, {text}),\n"
    name = words[kind + 1]
    return f"""

impl core::error::Error for {name} {{}}

impl core::fmt::Display for {name} {{
fn fmt(&self, f: &mut core::fmt::Formatter<'_>) -> core::fmt::Result {{
match self {{ {arms} }}
}}
}}
"""
