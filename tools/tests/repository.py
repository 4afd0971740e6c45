"""The repository: what its pages name, link to and show is there; its package is whole and of one
version; and its source makes no error of its own."""

import pathlib
import re
import subprocess
import sys
import unittest
from collections.abc import Iterator

ROOT = pathlib.Path(__file__).resolve().parents[2]
sys.path += [str(ROOT / "tools"), str(ROOT / "tools/erase")]
import version
from contracts import HIDDEN
from requirements import ATTRIBUTES, is_compiled
from surface import paragraphs


def run(*command: str) -> list[str]:
    done = subprocess.run(command, cwd=ROOT, check=True, capture_output=True, text=True)
    return done.stdout.splitlines()


FILES = run("git", "ls-files", "--cached", "--others", "--exclude-standard")

# The generated Rust of both packages, which has their documentation.
GENERATED = ("src/generated/", "variations/src/generated/")

# Names of std, of other crates and libraries, and of earlier versions.
OTHERS = (
    "__udivti3 FT_Matrix_Invert FT_NEXT_USHORT FT_PEEK_USHORT bytemuck cast_slice get_mut size_of "
    "strip_suffix type_name bit_and round_steps from_steps scalar_at"
)

# Folders that a page names, and that a command or a reader makes.
ELSEWHERE = ("target/release", "crates/my_reader")

# Items of which no test of Rattle shows what they lack: the crate, and the code in one line.
ITEMS = [
    ("font_base/src/uint24.rt", "#[derive(Debug, Drop, Error)] pub struct TryFromUint24Error;"),
    ("font_ids/src/glyph_id.rt", "#[derive(Debug, Drop, Error)] pub struct TryFromGlyphIdError"),
    (
        "font_tags/src/tag.rt",
        "#[derive(Clone, Debug, PartialEq, Eq, Drop, Error)] pub enum InvalidTag",
    ),
    (
        "font_decimal/src/reader.rt",
        "#[derive(Clone, PartialEq, Eq, Debug, Drop, Error)] pub enum DecimalFault",
    ),
    (
        "font_types/src/json.rt",
        "#[derive(Clone, Debug, PartialEq, Eq, Drop, Error)] pub enum JsonFault",
    ),
    ("font_lines/src/serve.rt", "#[derive(Debug, Drop, Error)] pub enum ServeFault"),
    ("font_lines/src/device.rt", "#[derive(Drop)] pub struct Failed;"),
    (
        "font_lines/src/device/from_read.rt",
        "#[derive(Drop)] pub struct FromRead<R> { reader: R, failed: bool, }",
    ),
    (
        "font_lines/src/device/from_write.rt",
        "#[derive(Drop)] pub struct FromWrite<W> { writer: W, failed: bool, }",
    ),
]

# Where a source makes an error of std, or one for want of memory or of a device, itself.
MADE = re.compile(
    r"\b(Err|ok_or|ok_or_else|map_err)\((?!.*\) =>).*\b(Error|AllocError|Failed|Memory)\b"
    r"|\bfmt::Error\b"
)


def text(path: str) -> str:
    return (ROOT / path).read_text()


def of(start: str | tuple[str, ...], *endings: str) -> list[str]:
    """Returns the paths of the files that start and end so."""
    return [path for path in FILES if path.startswith(start) and path.endswith(endings or ("",))]


def words(text: str) -> set[str]:
    return set(re.findall(r"[A-Za-z0-9_]+", text))


# What a file takes from the definitions of Rattle's kit.
OF_KIT = r"\buse Rattle\.(?:std|hex|serde_json)\.specs\b[\w.]*(?:\.\{([^}]*)\}|(?: as |\.)(\w+);)"


def inside(code: str, at: int) -> str:
    """Returns what stands between the brace before a place and the one that closes it."""
    depth, end = 1, at
    while depth:
        depth += {"{": 1, "}": -1}.get(code[end], 0)
        end += 1
    return code[at : end - 1]


def clauses(code: str) -> str:
    """What the clauses of a Rattle source state, and what its calls give."""
    starts = re.finditer(r"\b(?:requires|ensures|ghost \w+_gives)\b[^{}\n]*\{", code)
    return " ".join(inside(code, it.end()) for it in starts)


# A function, or a clause or a ghost item, after the comments and attributes above it.
STATED = re.compile(
    r"((?:^ *(?://|#\[).*\n)*)^ *(?:(?:pub(?:\(\w+\))? |const |unsafe )*fn "
    r"|((?:requires|ensures|ghost)\b(?! use)[^{;\n]*\{))",
    re.M,
)
# Ghost items that the documentation leaves out: constants, which Rust has, and proofs.
LEFT_OUT = re.compile(rf"ghost (?:[A-Z_]+\b|(?:{'|'.join(HIDDEN)}) = )")


def stated(code: str) -> list[str]:
    """Returns the clauses of a source that its documentation has to show: of functions that have
    documentation, those that are not marked as for proofs, and of others the ghost items."""
    found, is_documented = [], False
    for it in STATED.finditer(code):
        above, start = it[1], it[2] or ""
        if not start:
            is_documented = "///" in above
        elif start.startswith("ghost") or is_documented and "// For proofs." not in above:
            if not LEFT_OUT.match(start):
                found.append(squeezed(f"{start}{inside(code, it.end())}}}"))
    return sorted(found, key=is_ghost)


def documented(code: str) -> list[str]:
    """Returns the clauses and definitions that a generated file shows."""
    blocks = re.findall(r"/// ```text\n(.*?)/// ```", code, re.DOTALL)
    lines = re.sub(r"(?m)^ *///(?: *(?://|--).*\n)?", "", "\n\n".join(blocks))
    parts = re.split(r"\n(?= *(?:requires|ensures|ghost)\b)|\n\s*\n", lines)
    found = [squeezed(it).rstrip(",;") for it in parts if it.strip()]
    return sorted(found, key=is_ghost)


def is_ghost(clause: str) -> bool:
    """The documentation of a trait has its ghost items first."""
    return clause.startswith("ghost")


def squeezed(text: str) -> str:
    return "".join(text.split())


# A link to a file of this repository, or to a heading.
LINK = r"\]\(([^):#]*)(?:#([^)]*))?\)"


def headings(page: str) -> list[str]:
    """Returns the headings of a page, as links name them."""
    found = re.findall(r"^#+ (.*)", page, re.M)
    return [re.sub(r"[^\w -]", "", it.lower()).replace(" ", "-") for it in found]


def quoted(page: str, others: str) -> list[str]:
    """What a page, without its blocks of code, quotes in characters of names and these, without the
    arguments of a call."""
    texts = "\n".join(page.split("```")[::2]).split("`")[1::2]
    found = (re.fullmatch(rf"([A-Za-z0-9_{others}]+)(?:\(.*\))?", it, re.S) for it in texts)
    return [it[1] for it in found if it]


def formats() -> dict[str, str]:
    """Returns the alias of each fixed-point format, and what names the format."""
    found = "".join(text(path) for path in of("src/generated/font_fixed/", ".rs"))
    aliases = re.findall(r"^pub type (\w+) = FixedI(\d+)<(\d+)>;$", found, re.M)
    return {
        it: rf"\b{it}\b|[`\"]{it.lower()}\b|(?<![\d.]){int(width) - int(bits)}\.{bits}(?![\d.])"
        for it, width, bits in aliases
    }


def lists(shown: str, is_page: bool) -> Iterator[str]:
    """Yields what is in brackets, or in a row of a table."""
    if is_page:
        yield from (line for line in shown.splitlines() if line[:1] == "|")
        shown = re.sub(r"^\|.*", "", shown, flags=re.M)
    starts = []
    for at, letter in enumerate(shown):
        if letter in "([{":
            starts.append(at)
        elif letter in ")]}" and starts:
            yield shown[starts.pop() : at + 1]


class Pages(unittest.TestCase):
    def test_names_paths_and_links(self) -> None:
        endings = ".rt .antt .rs .c .h .map .txt .py .in".split()
        texts = map(text, of("", *endings))
        source = words(" ".join([*FILES, OTHERS, *texts]))
        callers = {
            pathlib.Path(path).stem: words(text(path))
            for name in ("callers", "variations")
            for path in of(f"crates/{name}/src/", ".rt")
            if not path.endswith("/laws.rt")
        }
        paths = {it for path in FILES for it in (path, *map(str, pathlib.Path(path).parents))}
        ends = {it[at:] for it in paths for at in range(len(it)) if f"/{it}"[at] == "/"}
        # The documentation of each type names its file.
        pages = [path for path in of("", ".md") if path != "CHANGELOG.md"]
        wrong = []
        for page in pages + of(GENERATED, ".rs"):
            shown = text(page)
            for name in quoted(shown, ":"):
                parts = name.split("::")
                # A form that a page names is in its module of a caller.
                in_caller = len(parts) == 1 or parts[1] in callers.get(parts[0], parts)
                if ("::" in name or "_" in name) and not (set(parts) <= source and in_caller):
                    wrong.append(f"{page}: no code has the name {name}")
            for path in quoted(shown, "/."):
                parts = re.split("[/.]", path.rstrip("/"))
                is_any = any(not part or part.isupper() or part.isdigit() for part in parts)
                is_path = "/" in path or path.endswith((".rt", ".antt", ".rs"))
                if is_path and not is_any and path.rstrip("/") not in {*ends, *ELSEWHERE}:
                    wrong.append(f"{page}: no file or folder has the name {path}")
            for link, place in re.findall(LINK, shown) if page in pages else ():
                target = (ROOT / page).parent.joinpath(link) if link else ROOT / page
                if not target.exists():
                    wrong.append(f"{page}: no file is where the link leads, {link}")
                elif place and place not in headings(target.read_text()):
                    wrong.append(f"{page}: no heading is where the link leads, {link}#{place}")
        if wrong:
            self.fail("\n".join(["", *wrong]))

    def test_shown_code(self) -> None:
        # README and CALLING show contracts and definitions, CALLING and CONTRIBUTING files.
        files = ["src/reader.rt", "specs/Reading.antt"]
        source = squeezed("".join(text(f"crates/font_decimal/{file}") for file in files))
        _, page = text("README.md").split("## What a contract looks like")
        contract, definition = [it.split("\n", 1)[1] for it in page.split("```")[1::2]]
        for block in contract, definition:
            self.assertTrue(squeezed(block) in source, block)
        file, after = text("docs/CALLING.md").split("](../crates/callers/", 1)[1].split(")", 1)
        self.assertEqual(after.split("```")[1].split("\n", 1)[1], text(f"crates/callers/{file}"))
        answers = after.split("```text\n", 1)[1].split("```")[0]
        (place,) = re.findall(r"Rattle\.callers\.(\S+)\.Goals", answers)
        self.assertEqual(answers, text(f"crates/callers/{place.replace('.', '/')}/Answers.antt"))
        callers = squeezed("".join(map(text, of("crates/callers/", ".rt", ".antt"))))
        for block in re.findall(r"```(?:rust|antt)\n(.*?)```", after, re.DOTALL):
            self.assertTrue(squeezed(block) in callers, block)
        page, mutant = text("CONTRIBUTING.md"), r"`(\S+\.edit)`:\n\n```text\n(.*?)```"
        ((file, shown),) = re.findall(mutant, page, re.DOTALL)
        self.assertEqual(shown, text(file))
        # FONTVAL has each message of the program.
        messages = re.findall(r'codes "(fontval: .*?)"', text("crates/font_lines/specs/Serve.antt"))
        page = " ".join(text("docs/FONTVAL.md").split())
        self.assertEqual([it for it in messages if f"`{it}`" not in page], [], "docs/FONTVAL.md")
        self.assertEqual(len(messages), 3)

    def test_bounds_of_two_matrices(self) -> None:
        """Pages and comments have those of the definitions."""
        definition = text("crates/font_geom/specs/FixedMatrix.antt")
        (composed,) = set(re.findall(r"unsigned_abs p\.y \+ (\d) \* 65536\)", definition))
        (in_turn,) = set(re.findall(r"unsigned_abs a\.xy \+ (65536)\)", definition))
        bounds = {r"(?:p\.)?y": composed, r"(?:v|a\.[xy]y)": str(int(in_turn) // 65536)}
        shown = "".join(map(text, of("", ".md", ".h", ".rt", ".antt")))
        for name, bound in bounds.items():
            found = re.findall(rf"\+ \\?\|{name}\\?\|\) / 65536 \+ (\d+)", shown)
            self.assertGreater(len(found), 3)
            self.assertEqual(set(found), {bound}, name)

    def test_bounds_of_variations(self) -> None:
        """The page has those of the definitions: half a unit for each axis."""
        definitions = squeezed(text("crates/variations/specs/Variations.antt"))
        shown = " ".join(text("variations/README.md").split())
        halves = "axis_count regions * sum_of_magnitudes subtable set n"
        for defined, bound in (
            ("IsNearScalar region coordinates n scalar = IsOffBy n scalar", "n/2 / 65536."),
            (f"sum_halves regions subtable set n = {halves}", "1/2 + n/2 * D / 65536 font units"),
            ("IsOffBy (65536 + sum_halves regions subtable", "1/2 + n/2 * D / 65536 font units"),
        ):
            self.assertIn(squeezed(defined), definitions)
            self.assertIn(f" by at most {bound}", shown)

    def test_steps(self) -> None:
        """CONTRIBUTING has a row for each step of `make check`."""
        (steps,) = re.findall(r"^STEPS := (.*)", text("Makefile"), re.M)
        _, page = text("CONTRIBUTING.md").split("\n### What `make check` runs\n")
        rows = re.findall(r"^\| `([\w-]+)` \|", page.split("\n## ")[0], re.M)
        self.assertEqual(sorted(rows), sorted(steps.split()))

    def test_aliases(self) -> None:
        """The guide's table has the names of other libraries that the search of the documentation
        finds, each beside what it finds."""
        head = "| FreeType, fontTools, `font-types` | Here |\n|---|---|\n"
        _, table = text("src/guide.md").split(head)
        rows = [row.split(" | ", 1) for row in table.split("\n\n")[0].splitlines()]
        cells = {name: here for there, here in rows for name in re.findall(r"`(\w+)`", there)}
        form = r'((?:#\[doc\(alias = "\w+"\)\]\s+)+)(?:#\[.*\]\s+)*pub [^({]*?(\w+)[<({]'
        found = re.findall(form, "".join(text(path) for path in of(GENERATED, ".rs")))
        aliases = [(it, name) for list, name in found for it in re.findall('"(.*)"', list)]
        self.assertEqual({alias for alias, _ in aliases}, cells.keys())
        for alias, name in aliases:
            self.assertRegex(cells[alias], rf"`\W*{name}\b", alias)

    def test_lists_of_formats(self) -> None:
        """A list that has all formats but one is not whole, with its texts or without them, and no
        file of code is. Of those of `font-types`, `compare/compared` sees each function."""
        known, wrong = formats(), []
        for path in of("", ".rs", ".rt", ".antt", ".py", ".h", ".c", ".cpp", ".md"):
            whole, is_page = text(path), path.endswith(".md")
            parts = [*lists(whole, is_page), *([] if is_page else [whole])]
            for it in parts if path[:8] != "compare/" else ():
                for shown in it, re.sub(r'"[^"\n]*"', '""', it):
                    left_out = [name for name in known if not re.search(known[name], shown)]
                    if len(left_out) == 1:
                        wrong.append(f"{path}: {left_out[0]} is not in {' '.join(it.split())[:60]}")
        self.assertEqual(wrong, [])
        self.assertGreater(len(known), 2)

    def test_crates_with_definitions(self) -> None:
        """EVIDENCE has a row for each, but for `callers` and `font_fixed2`."""
        crates = {path.split("/")[1] for path in of("crates/", ".antt") if "/specs/" in path}
        rows = re.findall(r"\n\| \[(\w+)\]\(\S+/specs\) \|", text("docs/EVIDENCE.md"))
        self.assertEqual({*rows, "callers", "font_fixed2"}, crates)

    def test_names_of_definitions(self) -> None:
        """No page of a definition or of its file has the name of a type or a trait, which the
        search of the documentation would list after it."""
        for package in GENERATED:
            rust = {path: text(path) for path in of(package, ".rs")}
            pages = set(re.findall(r"pub mod (\w+)", rust.pop(f"{package}definitions.rs")))
            types = r"^pub (?:enum|struct|trait|type) (\w+)"
            items = set(re.findall(types, "".join(rust.values()), re.M))
            self.assertGreater(len(items), 5)
            self.assertEqual(pages & items, set(), package)

    def test_signs_and_words_of_contracts(self) -> None:
        """The legend has a row for each sign, each member of a callback, each case of an `Option`
        or a `Result`, and each word of Rattle's kit, that contracts and definitions use. A word in
        the text, or in the explanation of another, is not explained."""
        cells = re.findall(r"^\| (.*?) \|", text("src/contracts.md").replace("\\|", "\0"), re.M)
        legend = " ".join(re.findall("`([^`]+)`", " ".join(cells))).replace("\0", "|")
        cases = r"\b(?:Is|If|Match)(?:Some|None|Ok|Err|Option|Result)\b"
        names = set()
        # Names that Rust has too, and files of definitions that prove laws, need no row.
        of_rust = set("Ok Err Some None true false Less Equal Greater".split())
        sources = [it for it in of("crates/", ".rt", ".antt") if "/src/" in it or "/specs/" in it]
        for path in (it for it in sources if "/tests/" not in it):
            source = text(path)
            if "use Rattle.std.proofs" not in source:
                found = re.findall(OF_KIT, source)
                here = {it.split(".")[-1].strip() for of in found for it in ",".join(of).split(",")}
                code = clauses(source) if path.endswith(".rt") else re.sub(OF_KIT, "", source)
                used = here & words(re.sub("--.*|//.*", "", code))
                self.assertFalse(used - words(legend) - of_rust, path)
                names |= here
        for package in GENERATED:
            shown = "".join(text(path) for path in of(package, ".rs"))
            blocks = "".join(re.findall(r"/// ```text\n(.*?)/// ```", shown, re.DOTALL))
            code = re.sub(r"///|//.*|-- .*", "", blocks)
            signs = re.findall(rf"[+*<-]?[^\x00-\x7f]+|&&|\|\||==|\+\+|\^|\bF\.\w+|{cases}", code)
            self.assertFalse({sign for sign in signs if sign not in legend}, package)
            # A package has pages of its own definitions.
            pages = set(re.findall(r"pub mod (\w+)", shown))
            self.assertFalse(names & words(code) - words(legend) - pages - of_rust, package)

    def test_pages_of_definitions(self) -> None:
        """Each definition that contracts and definitions of a package name has a page, or is on
        one."""
        defined = r"(?m)^ *(?:pub )?(?:abbrev|unfoldable|record) (?:pub )?(\w+)"
        crates = ("font_(?!c/|lines/)\\w+", "variations")
        for package, pattern in zip(GENERATED, crates):
            path = re.compile(rf"crates/{pattern}/specs/\w+\.antt")
            sources = [text(it) for it in of("crates/", ".antt") if path.fullmatch(it)]
            names = {name for source in sources for name in re.findall(defined, source)}
            shown = "".join(text(path) for path in of(package, ".rs"))
            clauses = "".join(re.findall(r"/// ```text\n(.*?)/// ```", shown, re.DOTALL))
            pages = set(re.findall(defined, clauses.replace("///", "")))
            # The name of an alias is that of a type of Rust, which has its page.
            pages |= set(re.findall(r"(?m)^pub type (\w+)", shown))
            self.assertFalse(names & words(re.sub(r"\w+\.\w+", "", clauses)) - pages, package)

    def test_shown_contracts(self) -> None:
        """The documentation shows each clause as its source has it, in its order, and no other; and
        definitions as they are, below the head of their module."""
        specs = map(text, of("crates/", ".antt"))
        defined = {squeezed(it) for code in specs for it in paragraphs(code)}
        count = 0
        for path in of(GENERATED, ".rs"):
            shown = documented(text(path))
            if source := re.findall(r"^// @generated from (\S+\.rt)", text(path)):
                self.assertEqual(shown, stated(text(*source)), path)
            else:
                self.assertEqual(set(shown) - defined, set(), path)
            count += len(shown)
        self.assertGreater(count, 1000)


class Package(unittest.TestCase):
    def test_files(self) -> None:
        """The package has the Rust, the source that it is made from, and the words of its
        contracts; its pages link to no file. The package of variations has the Rust and its pages.
        Both have both licenses."""

        def files(*options: str) -> set[str]:
            packed = run("cargo", "package", "--list", "--allow-dirty", "--offline", *options)
            return set(packed) - {"Cargo.lock", "Cargo.toml.orig", ".cargo_vcs_info.json"}

        packed = files()
        expected = {path for path in of("src/") if not path.startswith("src/bin/")}
        for name in "base decimal fixed geom ids tags types".split():
            source = of(f"crates/font_{name}/src/", ".rt")
            expected.update(path for path in source if "/tests" not in path)
            expected.update(of(f"crates/font_{name}/specs/", ".antt"))
        expected.update(
            "CHANGELOG.md Cargo.toml LICENSE-APACHE LICENSE-MIT docs/PORTING.md".split()
        )
        self.assertEqual(packed, expected)
        expected = {path.removeprefix("variations/") for path in of("variations/src/")}
        expected.update("Cargo.toml LICENSE-APACHE LICENSE-MIT README.md".split())
        self.assertEqual(files("--manifest-path", "variations/Cargo.toml"), expected)
        for page in packed:
            for link in text(page).split("](")[1:] if page.endswith(".md") else ():
                self.assertTrue(link.startswith("https:"), f"{page}: {link[:40]}")

    def test_fixed_files(self) -> None:
        """Rattle refuses threads, sockets and programs, and both packages have the same licenses."""
        self.assertEqual(text("HANDLES"), "Handles allowed: none.\n")
        for name in of("LICENSE-"):
            self.assertEqual(text(f"variations/{name}"), text(name))

    def test_versions(self) -> None:
        """All places have the version of their `Cargo.toml`, all packages and pages the Rust and
        the license of the library, and no package is for a registry."""
        self.assertEqual(version.wrong(), [], "tools/version.py writes these")
        # The package of variations stays below 1.0.
        self.assertRegex(version.current("variations"), "^0[.]")
        (latest, *_) = re.findall(r"^## (\S+)", text("CHANGELOG.md"), re.M)
        self.assertIn(latest, (version.current("."), "Unreleased"))
        (rust,) = re.findall(r'^rust-version = "(.*)"$', text("Cargo.toml"), re.M)
        pages = " ".join(text(path) for path in of("", ".md"))
        self.assertEqual(set(re.findall(r"\bRust (1\S+) or\s+later", pages)), {rust})
        tomls = "Cargo.toml c/Cargo.toml compare/Cargo.toml variations/Cargo.toml".split()
        same = ["publish = false", 'license = "MIT OR Apache-2.0"', f'rust-version = "{rust}"']
        for path in tomls:
            self.assertEqual([it for it in same if f"\n{it}\n" not in text(path)], [], path)
        # Of a git dependency, cargo takes whichever package has the name.
        named = re.compile('^name = "font-(?:types|variations)-proved"$', re.M)
        found = [path for path in of("", "Cargo.toml") if named.search(text(path))]
        self.assertEqual(found, ["Cargo.toml", "variations/Cargo.toml"])

    def test_versions_of_others(self) -> None:
        """Pages name what is compared, and the logic of the proofs."""
        pages = "".join(text(path) for path in of("", ".md") if path != "CHANGELOG.md")
        manifests = text("compare/Cargo.toml") + text("compare/fontations/Cargo.toml")
        pinned = re.findall(r'^([\w-]+) = (?:\{ version = )?"=(\S+?)"', manifests, re.M)
        self.assertGreater(len(pinned), 3)
        for name, number in pinned:
            named = re.findall(rf"\b{name}`?(?:\]\(\S+\))? (\d[\d.]*\d)", pages)
            self.assertEqual(set(named), {number}, name)
        self.assertEqual(len(set(re.findall(r"\blogic ([0-9a-f]{16})\b", pages))), 1)

    def test_names_on_its_first_page(self) -> None:
        page, exports = text("src/lib.rs"), text("src/generated/font_types/mod.rs")
        names = re.findall(r"\w+", " ".join(re.findall(r"pub use [^{;]*\{([^}]*)\}", exports)))
        # What tests of headers use and a constant are elsewhere.
        missing = [name for name in names if f"[`{name}`]" not in page]
        self.assertEqual(missing, ["SampleHeader", "TTC_HEADER_TAG"])


class Tests(unittest.TestCase):
    def test_none_is_passed_over(self) -> None:
        """A file of tests has no comment in brackets, no early return, and no condition but those
        known; what a debug build passes over, `make rust` runs in a release build; a module or a
        call names what is no test; and no package leaves its tests out."""
        folders = ("tests/", "compare/tests/", "variations/tests/")
        rust = of(folders, ".rs") + of("crates/", ".rt")
        files = {path: text(path) for path in rust if path.endswith(".rs") or "/src/tests" in path}
        skipped = r"/\*|^ *return;|^ *#!?\[(?:cfg|ignore).*"
        wrong = [path for path in files if not is_compiled(path)]
        for path, shown in files.items():
            found = map(str.strip, re.findall(skipped, shown, re.M))
            wrong += [f"{path}: {it}" for it in found if not re.fullmatch(ATTRIBUTES, it)]
            if "debug_assertions, ignore" in shown:
                runs = f"--release.* --test {pathlib.Path(path).stem}\\b"
                wrong += [] if re.search(runs, text("Makefile")) else [path]
        for path in of("tools/tests/", ".py"):
            names = re.findall(r"^    def (?!test_|setUp\b|__)(\w+)\(self", text(path), re.M)
            wrong += [f"{path}: {name}" for name in names if text(path).count(name) < 2]
        # `c/check` tests the library for C.
        known = ["c/Cargo.toml: test = false", "compare/Cargo.toml: harness = false"]
        for path in of("", "Cargo.toml"):
            keys = re.findall(r"^ *((?:auto\w+|test|doctest|harness) *=.*)", text(path), re.M)
            wrong += [it for key in keys if (it := f"{path}: {key}") not in known]
        self.assertEqual(wrong, [])


class Generated(unittest.TestCase):
    def test_first_lines(self) -> None:
        """A file is generated, and reviews hide it, if and only if its first line names its source."""
        made = re.compile(r"(//|--) @generated from (\S+) by tools/erase\n")
        files = of("", ".rs", ".rt", ".antt")
        found = {path: it[2] for path in files if (it := made.match(text(path)))}
        shown = run("git", "check-attr", "linguist-generated", *files)
        hidden = {it.split(":")[0] for it in shown if it.endswith(": set")}
        self.assertEqual(set(found), hidden)
        missing = {it for it in found.values() if "*" not in it} - set(FILES)
        self.assertEqual(missing, set())


class Items(unittest.TestCase):
    def test_items(self) -> None:
        for path, item in ITEMS:
            lines = [line.strip() for line in text(f"crates/{path}").splitlines()]
            code = " ".join(line for line in lines if not line.startswith(("#[error", "//")))
            self.assertIn(item, code, path)
        rust = (text(it) for it in of("crates/", ".rt") if "/src/tests" not in it)
        made = [line for it in rust for line in it.splitlines() if MADE.search(line)]
        self.assertEqual(made, ["    given.ok_or(Failed)"])
        # `Nullable` has no constructor but those of its traits.
        _, nullable = text("crates/font_ids/src/offset.rt").split("pub struct Nullable<T>")
        self.assertEqual(nullable.split(" for Nullable<T>")[0].count("    pub "), 4)
