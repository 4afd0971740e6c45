"""From 1.0 on, nothing is gone that the last release has, if it has the same first number: no name
of Rust, no clause, no definition, no answer of `fontval`, and no declaration of C. The last release
was compared so with the one before it, and has all that this one had. CHANGELOG names what is new
in Rust since then, and has each clause and definition that is written in other words now.

`python3 tools/tests/api.py` prints what users can name, with contracts, and `python3
tools/tests/api.py COMMIT` what differs from a commit.
"""

import re
import subprocess
import sys
import unittest
from collections import Counter
from collections.abc import Callable, Iterable, Iterator
from functools import cache
from pathlib import Path
from tempfile import TemporaryDirectory

ROOT = Path(__file__).parent.parent.parent
sys.path.append(str(ROOT / "tools"))

import surface  # noqa: E402
import version  # noqa: E402
from surface import Surface  # noqa: E402

# What the packages of Rust are made of, and definitions.
FILES = ["Cargo.toml", "Cargo.lock", "src", "docs", "variations", "crates/*/specs/*.antt"]
PACKAGES = [".", "variations"]
# In CHANGELOG, words that changed and mean the same: of which item, why, and both.
REWORDED = re.compile(r"^`([^`\n]+)`: ((?:.+\n)+)\n```diff\n((?:[-+].*\n)+)```$", re.M)


def stated(tree: Path, package: str) -> Iterator[str]:
    """Yields the definitions of a package, and of what `fontval` answers."""
    crates = re.findall(r'"/crates/(\w+)"', (tree / "Cargo.toml").read_text())
    for crate in [*crates, "font_lines"] if package == "." else [package]:
        for path in (tree / f"crates/{crate}/specs").rglob("*.antt"):
            yield from surface.definitions(path.read_text())


def reworded(page: str) -> Iterator[tuple[str, str, str]]:
    """Yields, of each rewording, whose words changed, the old ones and the new ones."""
    for path, _, lines in REWORDED.findall(page):
        old, new = ("\n".join(re.findall(rf"^[{it}](.*)", lines, re.M)) for it in "-+")
        yield path, surface.plain(old), surface.plain(new)


def weaker(old: Surface, new: Surface, page: str) -> list[str]:
    """Returns what promises less, or asks for more, than it did, but for the rewordings of a page,
    and each of these that is none."""
    lost, more = surface.changed(old, new)
    wrong = []
    for path, before, now in reworded(page):
        if (path, before) in old.clauses - new.clauses and (path, now) in new.clauses - old.clauses:
            lost.discard((path, before))
            more.discard((path, now))
        else:
            wrong.append(f"no rewording: {path}: {before}")
    wrong += [f"gone: {path}: {it}" for path, it in sorted(lost)]
    return wrong + [f"new: {path}: {it}" for path, it in sorted(more)]


def of_tree(tree: Path, package: str) -> Surface:
    found = surface.of_package((tree / package).resolve())
    found.clauses.update((surface.DEFINITIONS, it) for it in stated(tree, package))
    return found


@cache
def current(package: str) -> Surface:
    return of_tree(ROOT, package)


def of_commit(commit: str, package: str) -> Surface:
    with TemporaryDirectory() as tree:
        files = git(commit, "archive", commit, *FILES)
        subprocess.run(["tar", "-x", "-C", tree], input=files, check=True)
        return of_tree(Path(tree), package)


def exchangeable(arguments: dict[str, list[str]]) -> list[str]:
    """Returns the functions that rustc takes with two arguments exchanged, because both have one
    type; and those that take bytes of any kind, but are no constructor."""
    found = []
    for line, given in arguments.items():
        types = [re.sub(r"'\w+ ", "", it) for it in given]
        is_bytes = "&[u8]" in types and (not re.search(r"::new\b", line) or len(types) > 1)
        if is_bytes or len(set(types)) < len(types):
            found.append(line)
    return found


def of_c(shown: str) -> Counter[str]:
    """Returns what stays of the library for C: what the header declares, and symbol versions with
    exports."""
    header, exports = shown.split("\n\0\n")
    code = re.sub(r"/\*.*?\*/|\\\n", " ", header, flags=re.DOTALL)
    found = re.findall(r"((?:const )?\w+ \*?fty_(?!api_)\w+\([^()]*\))\s+\w+\s*[;{]", code)
    found += re.findall(r"\btypedef struct \w+ \{[^{}]*\}", code)
    found += re.findall(r"\btypedef enum \w+ \w+|\bFTY_\w+ = \d+", code)
    found += re.findall(r"^#define (FTY_(?!API_|VERSION).*)", code, re.MULTILINE)
    found += re.split(r"\n+(?=[^ }])", exports)
    return Counter(" ".join(it.split()) for it in found if not it.startswith("# "))


def of_program(shown: str) -> Counter[str]:
    """Returns what stays of `fontval`: the lines of its input that it does not refuse, each with
    its answer."""
    lines, answers = (it.split("\n") for it in shown.split("\n\0\n"))
    asked = zip(lines, answers)
    return Counter(f"{line}: {it}" for line, it in asked if not it.startswith("error "))


# What stays from 1.0 on, by the folder of its version: of which files.
LASTING = [
    (".", of_program, ["crates/fontval/stdin", "crates/fontval/stdout"]),
    ("c", of_c, ["c/include/font_types.h", "c/font_types.map"]),
]


def gone(lasting: Callable[[str], Counter[str]], old: str, new: str) -> list[str]:
    """Returns what was there, and is gone."""
    return list((lasting(old) - lasting(new)).keys())


def joined(files: Iterable[bytes]) -> str:
    return "\n\0\n".join(it.decode("latin-1") for it in files)


def git(commit: str, *command: str) -> bytes:
    found = subprocess.run(["git", *command], cwd=ROOT, capture_output=True)
    if found.returncode != 0:
        needs = "a clone with the commits of releases; in a shallow one, run git fetch --unshallow"
        raise AssertionError(f"{commit}: {found.stderr.decode()}This needs {needs}.")
    return found.stdout


def of_release(commit: str, path: str) -> bytes:
    return git(commit, "show", f"{commit}:{path}")


# A package, and what takes something from its users, or asks more of them, and what does not.
SAMPLE = """
pub use inner::*;
mod inner {
    #[cfg(doc)]
    use crate::definitions::strong as is_held;
    /// ```text
    /// requires { small a }
    /// ensures { is_held result }
    /// ensures last { large result }
    /// ```
    /// [`is_held`]
    pub fn vary(a: u8) -> u8 { a }
    pub fn here() {}
    /// ```text
    /// ghost value: { Self → ℕ };
    /// ```
    pub trait Offset: Copy {
        const NULL: Self;
        /// ```text
        /// ensures { result ≡ value self }
        /// ```
        fn size(self) -> usize;
        fn first(self) -> bool { true }
    }
    pub trait Mark {}
    /// ```text
    /// ghost within: { fill ≤ 9 },
    /// ```
    #[derive(Clone, Hash)]
    pub struct Pad { pub fill: u8, pub side: u16 }
    #[derive(Clone, Copy, Debug)]
    pub enum Side { Left = 1, Right = 2 }
    pub struct Row<'a>(&'a [u8]);
    impl<'a> Row<'a> {
        pub const MOST: usize = 4;
        pub fn len(&self) -> usize { 4 }
    }
    /// ```text
    /// ghost add_gives = { λ x y sum. sum ≡ x };
    /// ```
    impl core::ops::Add for Side {
        type Output = u8;
        fn add(self, _: Side) -> u8 { self as u8 }
    }
}
#[cfg(doc)]
pub mod definitions { pub mod strong {} pub mod weak {} }
#[macro_export]
macro_rules! record { ($v:vis struct $Name:ident $fields:tt) => { $v struct $Name $fields } }
"""
WRONG = [
    ("strong as is_held", "weak as is_held"),
    ("/// requires { small a }", "/// requires { small a }\n/// requires { tiny a }"),
    ("/// ensures last { large result }\n", ""),
    ("vary(a: u8)", "vary(a: i8)"),
    ("(a: i8) -> u8 { a }", "(_: i8) -> u8 { 0 }"),
    ("pub fn here", "#[cfg(doc)]\npub fn here"),
    ("ghost value: { Self → ℕ };", "ghost value: { Self → ℕ };\n/// ghost law: { ⊤ };"),
    ("const NULL: Self;", "const LEN: usize;"),
    ("result ≡ value self }", "result ≡ value self }\n/// ensures { large result }"),
    ("fn first(self) -> bool { true }", "fn first(self) -> bool;"),
    ("pub trait Mark {}", "pub trait Mark {}\nimpl<T: Offset> Mark for &mut T {}"),
    ("ghost within: { fill ≤ 9 },", "ghost within: { fill ≤ 9 },\n/// ghost more: { ⊥ },"),
    ("#[derive(Clone, Hash)]", "#[derive(Clone)]"),
    ("pub side", "side"),
    ("Left = 1, Right = 2", "Left = 3, Right = 2, Up = 4"),
    ("Row<'a>(&'a [u8])", "Row<'a>(&'a mut u8, *const u8)"),
    ("MOST: usize", "MOST: u8"),
    ("len(&self)", "len(_: &Self)"),
    ("sum ≡ x }", "⊤ }"),
    ("type Output = u8", "type Output = i8"),
    ("_: Side) -> u8 { self as u8 }", "_: Side) -> i8 { self as i8 }"),
    ("=> { $v struct", "=> { impl Drop for $Name { fn drop(&mut self) {} } $v struct"),
]
HASH = "impl core::hash::Hash for Pad { fn hash<H: core::hash::Hasher>(&self, _: &mut H) {} }"
RIGHT = [
    ("/// requires { small a }\n", ""),
    ("ensures { is_held result }", "ensures held { is_held result }\n/// ensures { tiny result }"),
    ("vary(a: u8) -> u8 { a }", "vary(other: u8) -> u8 { other }"),
    ("#[derive(Clone, Hash)]", "#[derive(Clone)]"),
    ("pub trait Mark {}", f"pub trait Mark {{}}\n{HASH}"),
    ("#[derive(Clone, Copy", "#[derive(Clone, Copy, Eq, PartialEq"),
    ("pub fn len", "/// ```text\n/// ensures { result ≡ 4 }\n/// ```\npub const fn len"),
    ("pub fn here", "pub fn other() {}\npub fn here"),
]


def of_sample(work: Path, edits: list[tuple[str, str]]) -> Surface:
    code = SAMPLE
    for old, new in edits:
        assert code.count(old) == 1, old
        code = code.replace(old, new)
    manifest = '[package]\nname = "font-types-proved"\nedition = "2024"\n[lib]\npath = "lib.rs"\n'
    (work / "Cargo.toml").write_text(manifest + "[workspace]\n")
    (work / "lib.rs").write_text(code)
    return surface.of_package(work)


def last_release() -> tuple[str, str]:
    """Returns the commit of the last release, and what CHANGELOG says since then."""
    page = (ROOT / "CHANGELOG.md").read_text()
    releases, commits = zip(*re.findall(r"^\| (\d+\.\S+) \| `(\w+)` \|", page, re.M))
    # The newest heading is of what follows the last release.
    _, *earlier = re.findall(r"^## (\S+)", page, re.M)
    assert [*releases] == earlier[: len(releases)], "CHANGELOG.md lacks the row of a release"
    return commits[0], re.split(r"\n## ", page)[1]


def is_free(folder: str, commit: str) -> bool:
    """Returns whether what is in a folder may lose names: below 1.0, or with a new first number."""
    manifest = of_release(commit, f"./{folder}/Cargo.toml").decode()
    first = version.current(folder).split(".")[0]
    return first == "0" or first != version.of(manifest).split(".")[0]


class Api(unittest.TestCase):
    def test_rows_of_releases(self) -> None:
        """With another commit, what is compared would be no release. A release is a commit whose
        verdicts are of its own files, and its tree is beside it."""
        page = (ROOT / "CHANGELOG.md").read_text()
        form = r"^\| (\d\S+) \| `(\w+)` \| `(\w+)` \|$"
        for release, commit, tree in re.findall(form, page, re.M):
            found = git(commit, "rev-parse", f"{commit}^{{tree}}").decode().strip()
            newest = re.findall(r"^## (\S+)", of_release(commit, "CHANGELOG.md").decode(), re.M)[0]
            self.assertEqual((newest, found), (release, tree), "of " + commit)
            proved = git(commit, "ls-tree", commit, "c", "crates", "src", "variations").decode()
            verdicts = of_release(commit, "docs/VERDICTS.md").decode()
            missing = [it for it in proved.splitlines() if f"\nof: {it}\n" not in verdicts]
            self.assertEqual(missing, [], f"{commit} has the verdicts of other files")

    def test_nothing_of_the_last_release_is_gone(self) -> None:
        commit, _ = last_release()
        for folder, lasting, paths in LASTING:
            if not is_free(folder, commit):
                old = joined(of_release(commit, path) for path in paths)
                new = joined((ROOT / path).read_bytes() for path in paths)
                self.assertEqual(gone(lasting, old, new), [], f"of {commit}")

    def test_nothing_of_rust_is_gone(self) -> None:
        """What a package below 1.0 loses, or one with another first number, is named in CHANGELOG,
        as all that is new."""
        commit, since = last_release()
        told = set(re.findall(r"\w+", " ".join(since.split("`")[1::2])))
        for package in PACKAGES:
            old, new = of_commit(commit, package), current(package)
            for of in (old, new):
                self.assertGreater(min(len(of.kept), of.clauses.total()), 200)
            lost, names = surface.gone(old, new), surface.added(old, new)
            if is_free(package, commit):
                kept = new.kept | old.kept
                names |= {kept[it.removeprefix("added: ")][1] for it in lost}
                names |= {surface.subject(*it) for of in surface.changed(old, new) for it in of}
            else:
                self.assertEqual(lost, [], f"of {commit}")
                wrong = weaker(old, new, since)
                self.assertEqual(wrong, [], "\n".join(["see CONTRIBUTING.md on words", *wrong]))
            self.assertEqual(sorted(names - told), [], f"of {package}, not named in CHANGELOG")

    def test_what_is_gone(self) -> None:
        """Of a package with what rustdoc has words for. If rustdoc gives one of them another word,
        so that it is in no line, this test fails."""
        with TemporaryDirectory() as name:
            old = of_sample(Path(name), [])
            wrong, right = of_sample(Path(name), WRONG), of_sample(Path(name), RIGHT)
        kept = old.kept | wrong.kept
        names = {kept[it.removeprefix("added: ")][1] for it in surface.gone(old, wrong)}
        told = "Drop Hash LEN Left MOST Mark NULL Output Pad Send Sync UnwindSafe Up "
        self.assertEqual(sorted(names), (told + "first here len side vary").split())
        lost, more = (sorted(it for _, it in of) for of in surface.changed(old, wrong))
        told = "ensures { large result } | ensures { strong result } | ghost add_gives = "
        self.assertEqual(" | ".join(lost), told + "{ λ x y sum. sum ≡ x };")
        told = "ensures { large result } | ghost law: { ⊤ }; | ghost more: { ⊥ }, | requires "
        self.assertEqual(" | ".join(more), told + "{ tiny a }")
        self.assertEqual(surface.gone(old, right), [])
        self.assertEqual(surface.changed(old, right), (set(), set()))
        self.assertEqual(surface.added(old, right), {"Eq", "PartialEq", "len", "other"})

    def test_definitions_and_rewordings(self) -> None:
        """Of planted changes."""

        def of(code: str, *clauses: str) -> Surface:
            found = [(surface.DEFINITIONS, it) for it in surface.definitions(code)]
            found += [("f", it) for it in clauses]
            return Surface({}, set(), Counter(found), set(), {})

        code = "use A.{other, small}\n\nabbrev pub IsA : Type 0\nIsA = small\n"
        old = of(code, "ensures { a }", "ensures { b }")
        page = "- Of `f`.\n\n`f`: b is c.\n\n```diff\n-ensures b { b }\n+ensures {\n+    c }\n```\n"
        new = of(code, "ensures { a }", "ensures { c }", "ensures { d }")
        self.assertEqual(weaker(old, new, page), [])
        self.assertEqual(weaker(old, new, "`f`"), ["gone: f: ensures { b }"])
        self.assertEqual(weaker(old, old, page), ["no rewording: f: ensures { b }"])
        redirected = of(code.replace("other, small", "other as small"), "ensures { a }")
        self.assertEqual(len(weaker(old, redirected, "")), 3)
        more = "\nabbrev IsA : Type 0\nIsA = other\n\nabbrev IsA : ℕ\nIsA = 0\n"
        again = of(code + more, "ensures { a }", "ensures { b }")
        self.assertEqual(
            weaker(old, again, ""), ["new: definitions: abbrev IsA : Type 0 IsA = other"]
        )

    def test_lines_and_declarations(self) -> None:
        """Of planted changes."""
        in_c = joined((ROOT / path).read_bytes() for path in LASTING[1][2])
        for old, new in (
            ("fty_status fty_skip(", "fty_status fty_skipped("),
            ("fty_skip(fty_view *rest, size_t", "fty_skip(fty_view *rest, uint32_t"),
            ("FTY_OUT_OF_RANGE = 2,", "FTY_OUT_OF_RANGE = 13,"),
            ("FTY_FRACTION(30)", "FTY_FRACTION(29)"),
            ("    size_t room;", "    uint32_t room;"),
            ("        fty_tag_parse;\n", ""),
        ):
            self.assertEqual(in_c.count(old), 1, old)
            self.assertEqual(len(gone(of_c, in_c, in_c.replace(old, new))), 1, old)
        asked = joined((ROOT / path).read_bytes() for path in LASTING[0][2])
        answer = "int24 fe1dc0: -123456"
        self.assertEqual(gone(of_program, asked, asked.replace("-123456", "-12345")), [answer])

    def test_arguments_of_variations(self) -> None:
        """Those of one function differ in their types."""
        arguments = current("variations").arguments
        self.assertGreater(sum(given == ["&'a [u8]"] for given in arguments.values()), 3)
        self.assertEqual(exchangeable(arguments), [])
        for line, given in (
            ("fn map", ["Fixed", "&[u8]"]),
            ("fn A::new", ["&'a [u8]", "&'b [u8]"]),
            ("fn at", ["u16", "core::option::Option<(u8, u8)>", "u16"]),
        ):
            self.assertEqual(exchangeable({line: given}), [line])


def printed(of: Surface) -> Counter[str]:
    clauses = {f"{path}: {it}": n for (path, it), n in of.clauses.items() if it}
    return Counter(clauses) + Counter(of.kept.keys())


if __name__ == "__main__":
    for package in PACKAGES:
        new = printed(current(package))
        old = printed(of_commit(sys.argv[1], package)) if sys.argv[1:] else Counter()
        for sign, of in ("- ", old - new), ("+ " * bool(old), new - old):
            print("".join(f"{sign}{it}\n" for it in sorted(of.elements())), end="")
