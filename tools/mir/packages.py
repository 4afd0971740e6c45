"""What cargo compiles of the erased Rust, and of which crates of Rattle that is."""

import os
import re
import subprocess
import tempfile
from collections.abc import Iterator
from pathlib import Path

# Without optimizations of MIR, which are trusted as LLVM is.
FLAGS = "--emit=mir -Cpanic=abort -Coverflow-checks=off -Zmir-opt-level=0 -Zinline-mir=no".split()
FLAGS += ["-Ztrim-diagnostic-paths=no", "--cap-lints=allow"]
# Cargo reads a warning by which rustc says which kinds of crates a target has not.
ENVIRONMENT = {"RUSTC_BOOTSTRAP": "1", "RUSTFLAGS": ""}

# What cargo compiles: a package, a target of it, the folder of erased crates, and their module.
PACKAGES = (
    (".", "--lib", "src/generated", ""),
    ("variations", "--lib", "variations/src/generated", "generated"),
    ("c", "--lib", "c/src/generated", ""),
    (".", "--bin=fontval", "src/bin/fontval/generated/font_lines", "font_lines"),
)

# What the program has in place of Rattle's std, in its module `host`, as that of Rust differs.
STAND_INS = r"(?<!:)\bhost(?=::(?:alloc::(?:AllocError|Vec)|hex)\b)"

EXPORT = r"^pub use ([\w:]+)::(\w+|\{[^}]*\});"

# A literal, or a crate with which a path begins, as the library has it.
PATHS = r'("(?:\\.|[^"\\\n])*")|\b(?:(std)|font_types_proved)::(?=([A-Z])?)'


class Sources:
    """The erased files, and of which crates, modules and files of Rattle they are."""

    def __init__(self, root: Path) -> None:
        self.crates, self.modules, self.lines, self.files = {}, set(), {}, {}
        by_hand = re.sub("//.*", "", (root / "src/lib.rs").read_text())
        self.by_hand = re.findall(r"\w+", by_hand)
        for _, _, folder, module in PACKAGES:
            for path in sorted((root / folder).rglob("*.rs")):
                first = module or path.relative_to(root / folder).parts[0]
                text = path.read_bytes().decode()
                self.lines[str(path.relative_to(root))] = text.split("\n")
                if head := re.match(r"// @generated from crates/(\w+)/src/(.*)\.rt ", text):
                    self.files[f"{head[1]}/src/{head[2]}.rt"] = str(path.relative_to(root))
                    self.modules.add("::".join(head[1].split() + head[2].split("/")))
                    self.crates[first.removesuffix(".rs")] = head[1]

    def exports(self) -> Iterator[tuple[str, str]]:
        """Yields the path that a module gives to what it re-exports, and the one that this has."""
        for file, lines in self.lines.items():
            for of, some in re.findall(EXPORT, "\n".join(lines), re.M):
                module = self.module(file)
                inner = of[7:] if of.startswith("crate::") else f"{module}::{of}"
                for name in re.findall(r"\w+", some):
                    yield f"{module}::{name}", f"{inner}::{name}"

    def module(self, file: str) -> str:
        """Returns the module that an erased file is."""
        folder, module = next(it[2:] for it in PACKAGES if file.startswith(it[2]))
        parts = Path(file).relative_to(folder).with_suffix("").parts
        return "::".join(it for it in (module, *parts) if it not in ("", "mod"))


def as_in_library(text: str) -> str:
    """Returns MIR with the paths that it has in the library."""
    crate = lambda it: it[1] or ("core::" if it[2] else "font_types::" if it[3] else "")
    return re.sub(PATHS, crate, text)


def emitted(root: Path, package: str, target: str) -> str:
    """Returns the MIR that cargo and rustc make of a target."""
    with tempfile.TemporaryDirectory() as room:
        cargo = ["cargo", "rustc", "--quiet", target, "--target-dir", room, "--", *FLAGS]
        where, env = root / package, os.environ | ENVIRONMENT
        subprocess.run(cargo, cwd=where, env=env, check=True, capture_output=True, text=True)
        (file,) = Path(room).rglob("*.mir")
        return file.read_text()


def printed(root: Path, package: str, target: str) -> str:
    """Returns the MIR of a target, with the paths that it has in the library."""
    text = as_in_library(emitted(root, package, target))
    text = re.sub(STAND_INS, "core", text) if "bin" in target else text
    own = rf"\1{package}/src/"
    return text if package == "." else re.sub(r"(@| at )src/(?:\.\./\.\./)?", own, text)
