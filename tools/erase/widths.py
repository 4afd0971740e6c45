"""Fixed-point numbers of 16 and of 64 bits, from the files of those of 32, and the definitions of
each format, from those of `Fixed`.

Each is a whole file of 32 bits with another width: what the numbers of a width have, its
definitions, and the proofs of its functions.
"""

import re
from pathlib import Path

# The other widths, each with the format that examples name in place of `Fixed`.
WIDTHS = {16: "F2Dot14", 64: "F48Dot16"}

# The files of 32 bits, and folders of such files.
WHOLE = [
    "crates/font_fixed/src/fixed_i32/common.rt",
    "crates/font_fixed/specs/FixedI32.antt",
    "crates/font_fixed/proofs/fixed_i32/FixedI32",
    "crates/font_fixed/proofs/rounding/floor_bits_32",
    "crates/font_fixed/proofs/rounding/round_bits_32",
]

# The definitions of `Fixed`; those of the other formats; and the source of these, whose names have
# the bits before and after the point.
OF_FIXED = "crates/font_fixed/specs/Fixed.antt"
OF_FORMATS = "crates/font_fixed/specs/F[0-9]*.antt"
FORMATS = "crates/font_fixed/src/fixed_i*/f[0-9]*dot[0-9]*.rt"

# What a file that is made begins with, after the sign of a comment.
MADE = " @generated from "


def tree(root: Path) -> tuple[dict[str, str], set[str]]:
    """Returns the files of the other widths, by their paths, and those that are there."""
    files: dict[str, str] = {}
    old: set[str] = set()
    for width, name in WIDTHS.items():
        for path in [path for folder in WHOLE for path in whole(root, folder)]:
            sign, text = "//" if path.endswith(".rt") else "--", (root / path).read_text()
            head = f"{sign}{MADE}{path} by tools/erase\n"
            files[of_width(path, width, name)] = head + of_width(text, width, name)
        old.update(path for folder in WHOLE for path in whole(root, of_width(folder, width, name)))
    for file in root.glob(FORMATS):
        about = re.findall("^//!(.*)", file.read_text(), re.MULTILINE)
        lines = [f"{MADE}{OF_FIXED} by tools/erase", *about]
        _, text = (root / OF_FIXED).read_text().split("\n", 1)
        name = file.stem.replace("f", "F").replace("d", "D")
        head = "".join(f"--{it}\n" for it in lines)
        files[OF_FIXED.replace("Fixed", name)] = head + of_format(text, name)
    old.update(str(file.relative_to(root)) for file in root.glob(OF_FORMATS))
    return files, old


def whole(root: Path, path: str) -> list[str]:
    """Returns the path of a file, or those of the files of a folder."""
    if "." in path:
        return [path]
    return sorted(str(file.relative_to(root)) for file in (root / path).rglob("*.antt"))


def of_format(text: str, name: str) -> str:
    """Returns definitions of `Fixed` as those of another format."""
    whole, fraction = map(int, re.findall(r"\d+", name))
    text = re.sub(r"\b16\b", str(fraction), text)
    text = re.sub(r"(?<=FixedI|ixed_i)32", str(whole + fraction), text)
    text = re.sub(r"\bfixed_(?=bits|of|text)", f"{name.lower()}_", text)
    return re.sub(r"\bFixed\b", name, text.replace("a `Fixed`", f"an `{name}`"))


def of_width(text: str, width: int, name: str) -> str:
    """Returns a text about 32 bits as one about another width."""
    for number in "[u8; 4", "bytes_of 4", "signed_numeral 4":
        text = text.replace(number, f"{number[:-1]}{width // 8}")
    text = text.replace("u32::from_be_bytes", f"u{width}::from_be_bytes")
    text = text.replace("(31 - F)", f"({width - 1} - F)")
    text = re.sub(r"(?<!\w)((?:\w*[iIw_])?)32(?!\w)", rf"\g<1>{width}", text)
    text = re.sub(r"(?<!\w)Fixed(?!\w)", name, text)
    return text.replace("i64::from(self.0)", "self.0") if width == 64 else text
