"""Forms that are errors, because `tools/mir` cannot compare what they mean: functions of std that
have one name and differ, and what linkers and other targets read. An error of a list names it. All
other forms that Rust may read otherwise than Rattle differ in what `tools/mir` compares."""

from __future__ import annotations

import re
from typing import TYPE_CHECKING

if TYPE_CHECKING:
    from eraser import Eraser

LISTS = {
    # The attributes that are kept, beside `derive`.
    "ATTRIBUTES": "doc(hidden)] inline(always)] inline(never)] inline] must_use] repr(C)] "
    "unsafe(no_mangle)]",
    # The imports that only a proof uses, or Rust does not have.
    "UNUSED": "usecrate::facts::each_is_byte; usethiserror::Error; usecrate::json::round_trip; "
    "usejson::{JsonFault,JsonScalar}; usestd::alloc::AllocError;",
}

# The modules of std that mean the same.
STD = "alloc|cmp|env|error|fmt|hash|io|iter|marker|ops|process|slice|str"

# Names of std whose meaning depends on the compiler, and a range with no end.
OTHERS = (
    "Layout RangeFrom align_of align_of_val needs_drop size_of size_of_val type_name "
    "type_name_of_val"
).split()

# The first row that fits says what a form is, if it is not one that means the same. The words of a
# row have a space after each; it may hold only at the top of a file.
ROWS = [
    # Rattle's ends below the top of its type. That of `bytes.get(n..)` is an index.
    (None, "index", r"\. \. \) "),
    ("a range with no end", "", r"(?<! [,(\[{@] )\. \. [)}{;,] "),
    ("an import of all", "", r"use [^;]* \* "),
    # Beside one for the value, a bound of one compiler alone would decide which is called.
    ("an `impl` for a reference", "top", "(?<! IntoIterator )for & "),
    # Of another name it could be one that rustc calls, as `memcmp`.
    (None, "", 'extern "C" fn fty_'),
    ("`extern` of something else than `fty_..`", "", "extern "),
    (None, "", r"unsafe \S+ std \S+ str \S+ from_utf8_unchecked "),
    ("`unsafe` of something else than `from_utf8_unchecked`", "", "unsafe "),
    # It returns another type.
    ("a use of `clone`", "", "(?<! fn )(clone|clone_from|cloned|repeat_n|to_owned) "),
    # Rust passes the bytes of a slice in one call, and Rattle in one for each.
    ("a `Hasher` of one's own", "", "Hasher for "),
    # Rust may ask the left one once less.
    ("`zip` of a closure", "", r"(?<! iter \( \) \. )zip "),
    ("a name of std that Rust has otherwise", "", f"({'|'.join(OTHERS)}) "),
    ("a module of std that is not in `STD`", "", f"std :: (?!({STD}) )"),
]
FORMS = [(what, where, re.compile(form)) for what, where, form in ROWS]


def is_in(words: list[str], name: str) -> bool:
    """Whether a list has these words."""
    return "".join(words) in LISTS[name].split()


def is_start(words: list[str], at: int) -> bool:
    """Whether a path may begin here: after the dots of a range, but not after that of a field."""
    return at == 0 or words[at - 1] not in ("::", ".") or words[max(at - 2, 0) : at] == [".", "."]


def is_item(words: list[str], at: int) -> bool:
    """Whether an item may begin here, not a type such as `impl Copy`."""
    return at == 0 or words[at - 1] not in (">", ":", "&", "(", ",", "<", "=", "+")


def is_index(words: list[str]) -> bool:
    """Whether these words end within the argument of a `get`."""
    depth = 0
    for n in range(len(words) - 1, -1, -1):
        depth += (words[n] in (")", "]", "}")) - (words[n] in ("(", "[", "{"))
        if depth < 0:
            return words[max(n - 2, 0) : n] == [".", "get"]
    return False


def is_unused(eraser: Eraser, at: int, end: int) -> bool:
    """Whether an import is one that is left out. The program has `AllocError`."""
    is_kept = eraser.words[at + 1] == "std" and eraser.of.target == "program"
    return not is_kept and is_in(eraser.words[at:end], "UNUSED")


def check_attribute(eraser: Eraser, at: int, words: list[str], after: list[str]) -> None:
    """Refuses an attribute, by its words and those after it."""
    until = after.index("fn") if "fn" in after else len(after)
    if words[0] == "unsafe" and after[max(until - 2, 0) : until] != ["extern", '"C"']:
        eraser.refuse(at, "an `unsafe` attribute of something else than an export")
    if not is_in(words, "ATTRIBUTES"):
        eraser.refuse(at, f"`{''.join(words)}`, which is not in `ATTRIBUTES`")


def check(eraser: Eraser) -> None:
    """Refuses a form that is not of the language."""
    words, text, depth = eraser.words, "; ", 0
    starts: list[int] = []
    for word in words:
        starts.append(len(text))
        is_text = word[-1] in "\"'" and word != '"C"'
        text += ("''" if is_text else word) + " "
    for at in eraser.visited:
        for what, where, form in FORMS:
            if not form.match(text, starts[at]) or where == "top" and depth > 0:
                continue
            if where == "index" and not is_index(words[:at]):
                continue
            if what:
                eraser.refuse(at, what)
            break
        depth = max(depth + (words[at] in ("(", "[", "{")) - (words[at] in (")", "]", "}")), 0)
