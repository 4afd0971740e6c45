"""What no MIR has, and a user meets: modules, imports, aliases, constants, fields, variants, the
heads of traits and `impl`s, and signatures. A file of Rust has them as the source that was proved
has them, word by word and in the same order, but for what the eraser adds."""

import re
from collections.abc import Iterator
from pathlib import Path

WORD = re.compile(
    r"""(?P<comment>//[^\n]*)|b?"(?:[^"\\]|\\.)*"|b?'(?:[^'\\\n]|\\[^\n][^'\n]*)'|\w+|::|!=|\S""",
    re.S,
)

# A macro of another name, which Rust may read otherwise in another build.
MACRO = re.compile(r"\b(?!(?:assert|eprint|matches|write|if|in|match|return|while) )\w+ ! ")

# What is compared; of a struct each field apart.
DECLARED = re.compile(
    r"\b(?:use|type|extern crate) [^;{]*(?:\{[^}]*\} )?;|\bmod \w+ [;{]|"
    r"\b(?:const|static|static mut) \w+ : [^;]*;|"
    r"\benum [^{]*\{[^}]*\}|(?:# \[ repr .*?\] (?:pub )?)?\b(?:struct|trait|impl) [^;{]*[;{]|"
    r"(?<=[{,] )(?:pub )?\w+ : [^,{}]*(?=[,}])|"
    r"\bfn \w+ (?:< [^(]*> )?\(.*?\) (?:- > .*?)?(?:where .*?)?(?=requires|ensures|\{|;)"
)

# What the eraser adds.
ADDED = re.compile(
    r"impl (?:Copy|std :: error :: Error|std :: fmt :: Display) for \w+ \{|use std :: \* ;|"
    r"fn fmt .*"
)

# How Rust is laid out, and what it has otherwise.
CHANGED = (
    (r"# \[ (?!repr|unsafe).*?\] ", ""),
    (r"\b(?:core|host) :: ", "std :: "),
    (r"\bfont_types_proved\b", "font_types"),
    (r", (?=[)}\]>{])", ""),
    (r"\+ Drop\b(?! ::) ", ""),
    (r"< Rhs = Self >", "< Rhs >"),
    (r"; (?=[\w:{} ]+ \])", "* "),
    (r"< W : fmt :: Write > ", ""),
    (r"Formatter < (?:W|' _) >", "Formatter"),
    (r"(fn clone .*? - > )Result < (.*?) , AllocError >", r"\1\2"),
    (r"\* const (\w+) , \w+_len : usize", r"& [ \1 ]"),
    (r"\* mut (\w+) , \w+_len : usize", r"& mut [ \1 ]"),
)


def words(text: str, crate: str) -> str:
    """Returns the words of a file of a crate, without comments and paths to the crate."""
    text = " ".join(it[0] for it in WORD.finditer(text) if not it["comment"])
    return re.sub(rf"\b(?:crate|super|{crate}) :: ", "", text)


def faults(root: Path, files: dict[str, str], lines: dict[str, list[str]]) -> Iterator[str]:
    """Yields what a file of Rust declares and its source does not."""
    for file, path in files.items():
        crate = file.split("/")[0]
        rust = words("\n".join(lines[path]), crate)
        rust = re.sub(r"# \[ cfg \( doc \) \] use [^;]* ; ", "", rust)
        source, at = words((root / "crates" / file).read_text(), crate), 0
        yield from (f"{path}: a macro that is not read: `{it}`" for it in MACRO.findall(rust))
        for pattern, new in CHANGED:
            rust, source = (re.sub(pattern, new, it) for it in (rust, source))
        for it in ("# [ repr", 'extern "C" fn', "no_mangle"):
            if rust.count(it) != source.count(it):
                yield f"{path}: not as often as in its source: `{it}`"
        for it in DECLARED.findall(rust):
            is_import = it.startswith("use ")  # which rustfmt sorts
            found = source.find(it, 0 if is_import else at)
            if found < 0 and not ADDED.fullmatch(it):
                yield f"{path}: not as its source has it: `{it}`"
                break
            if found >= 0 and not is_import:
                at = found + len(it)
