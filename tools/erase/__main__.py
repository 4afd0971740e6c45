"""Writes what is generated: the sources of fixed-point numbers of 16 and 64 bits, and the Rust of
the crates that cargo compiles: `python3 tools/erase`."""

import collections
import pathlib
import subprocess
import sys

sys.dont_write_bytecode = True
import definitions
import eraser
import widths
from eraser import Crate, Eraser, Refused

ROOT = pathlib.Path(__file__).resolve().parents[2]

# The modules of the library's crates that are left out, and those of its tests: calls of what the
# package does not export, and JSON and memory, which only Rattle has. For the same reasons cargo
# runs no tests of `fontval_main` and `font_c`, and of `callers` there is no Rust.
LEFT_OUT = {"font_base": ["facts"], "font_types": ["json"], "rows": ["json", "raw"]}

# The definitions that the contracts of each package name, in pages of rustdoc.
PAGES = {
    "library": "src/generated/definitions.rs",
    "variations": "variations/src/generated/definitions.rs",
}

# The legend of contracts, and the copy that the package of variations has.
LEGEND, COPY = "src/contracts.md", "variations/src/generated/contracts.md"

# Each crate, the name of its root, and the folder of its files.
CRATES = [
    *(
        (Crate(name, "library", LEFT_OUT.get(name, ())), "lib", f"src/generated/{name}")
        for name in eraser.LIBRARY
    ),
    (Crate("font_lines", "program"), "lib", "src/bin/fontval/generated/font_lines"),
    (Crate("fontval", "program"), "main", "src/bin/fontval/generated/fontval"),
    (Crate("font_c", "exports"), "lib", "c/src/generated/font_c"),
    (Crate("variations", "variations"), "lib", "variations/src/generated"),
    (Crate("rows", "tests", LEFT_OUT["rows"]), "tests", "tests/generated"),
    (Crate("variations", "tests"), "tests", "variations/tests/generated"),
]


def add_file(
    files: dict[str, str], of: Crate, source: str, name: str, folder: str, module: str
) -> None:
    """Adds a file and the modules that it declares."""
    path = f"{source}/{name}.rt"
    try:
        erased = Eraser((ROOT / path).read_text(), of, module == "mod", PATHS, path)
    except Refused as error:
        line, what = error.args
        sys.exit(f"{path}:{line}: {what}: see tools/erase/forms.py")
    except (IndexError, StopIteration):
        sys.exit(f"{path}: it ends within an item")
    SHOWN[of.target].update(erased.contracts.shown.values())
    files[f"{folder}/{module}.rs"] = formatted(path, erased.written())
    for inner in erased.modules:
        add_file(files, of, below(source, name), inner, below(folder, module), inner)


def below(folder: str, file: str) -> str:
    """Returns the folder of a file's modules: of the root the same, of others one of its name."""
    return folder if file in ("lib", "main", "mod") else f"{folder}/{file}"


def formatted(path: str, text: str) -> str:
    """Returns the text of a generated file, as rustfmt lays it out, with its source at the head."""
    head = f"// @generated from {path} by tools/erase\n\n"
    command = ["rustfmt", "--edition=2024", f"--config-path={ROOT}"]
    rustfmt = subprocess.run(command, input=head + text, capture_output=True, text=True)
    if rustfmt.returncode != 0:
        sys.exit(f"{path}: rustfmt cannot parse the erased text\n{rustfmt.stderr}")
    return rustfmt.stdout


def update(files: dict[str, str], old: set[str]) -> None:
    """Writes the files that have another text, and removes old ones."""
    for path in sorted(old | set(files)):
        file, text = ROOT / path, files.get(path)
        if text == (file.read_text() if file.exists() else None):
            continue
        print("removed:" if text is None else "written:", path)
        if text is None:
            file.unlink()
        else:
            file.parent.mkdir(parents=True, exist_ok=True)
            file.write_text(text)


update(*widths.tree(ROOT))
files: dict[str, str] = {COPY: (ROOT / LEGEND).read_text()}
old = set(PAGES.values())
# The definitions, the comments of their files and the paths that imports have; and the definitions
# that are shown.
DEFINITIONS, HEADS, PATHS = definitions.read(ROOT, [*eraser.LIBRARY, "variations"])
SHOWN: dict[str, set[str]] = collections.defaultdict(set)
for of, name, folder in CRATES:
    add_file(files, of, f"crates/{of.name}/src", name, folder, "mod")
    old.update(str(path.relative_to(ROOT)) for path in (ROOT / folder).rglob("*") if path.is_file())
for target, path in PAGES.items():
    pages = definitions.pages(DEFINITIONS, HEADS, SHOWN[target])
    files[path] = formatted("crates/*/specs", pages)
update(files, old)
