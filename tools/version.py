#!/usr/bin/env python3
"""Writes a version everywhere: that of the library by `python3 tools/version.py 0.9.1`, and those of
the library for C and of variations by `python3 tools/version.py 0.9.1 c` and `.. variations`. A
test of tools compares the places with the `Cargo.toml` of each."""

import pathlib
import re
import sys

ROOT = pathlib.Path(__file__).resolve().parents[1]

# The places of each version, by the folder of its `Cargo.toml`: a file, and a text of it with the
# version, its first two numbers, what a program is linked with for (0.n, and from 1.0 on the first
# number), or its hexadecimal digits.
PLACES = {
    ".": [
        ("Cargo.toml", '\nversion = "{full}"\n'),
        ("compare/Cargo.toml", '\nversion = "{full}"\n'),
        ("Cargo.lock", 'name = "font-types-proved"\nversion = "{full}"\n'),
        ("variations/Cargo.lock", 'name = "font-types-proved"\nversion = "{full}"\n'),
        ("variations/Cargo.toml", '{{ path = "..", version = "{full}" }}'),
    ],
    "c": [
        ("c/Cargo.toml", '\nversion = "{full}"\n'),
        ("c/Cargo.lock", '\nversion = "{full}"\n'),
        ("c/font_types.map", "FONT_TYPES_{linked} {{"),
        ("c/include/font_types.h", 'FTY_VERSION "{full}"\n'),
        ("c/include/font_types.h", "FTY_VERSION_NUMBER 0x{major}{rest}\n"),
        ("c/README.md", "find_package(font_types {first} CONFIG"),
        ("c/README.md", 'CDLL("libfont_types.so.{linked}")'),
        ("c/README.md", "`FONT_TYPES_{linked}`"),
        ("c/README.md", "`libfont-types{linked}`"),
        ("crates/font_c/src/version.rt", "ensures {{ result ≡ 0x{major}_{rest} }}"),
        ("crates/font_c/src/version.rt", "\n    0x{major}_{rest}\n"),
    ],
    "variations": [
        ("variations/Cargo.toml", '\nversion = "{full}"\n'),
        ("variations/Cargo.lock", 'name = "font-variations-proved"\nversion = "{full}"\n'),
    ],
}


def of(manifest: str) -> str:
    (found,) = re.findall(r'^version = "(.*)"$', manifest, re.MULTILINE)
    return str(found)


def current(folder: str) -> str:
    return of((ROOT / folder / "Cargo.toml").read_text())


def shown(form: str, version: str) -> str:
    """Returns the text of a place for a version."""
    major, minor, patch = map(int, version.split("."))
    first, rest = f"{major}.{minor}", f"{minor:02X}{patch:02X}"
    digits, linked = f"{major:02X}", first if major == 0 else str(major)
    return form.format(full=version, first=first, linked=linked, major=digits, rest=rest)


def wrong() -> list[str]:
    """Returns the places that have another version than they should."""
    found = []
    for folder, places in PLACES.items():
        for path, form in places:
            right = shown(form, current(folder))
            if right not in (ROOT / path).read_text():
                found.append(f"{path}: {right.strip()}")
    return found


def write(folder: str, version: str) -> None:
    old = current(folder)
    for path, form in PLACES[folder]:
        file = ROOT / path
        file.write_text(file.read_text().replace(shown(form, old), shown(form, version)))


if __name__ == "__main__":
    version, folder = (*sys.argv[1:], ".")[:2]
    write(folder, version)
    sys.exit("\n".join(wrong()) or None)
