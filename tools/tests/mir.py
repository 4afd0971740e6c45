"""The comparison of MIR accepts right Rust and refuses wrong Rust. `mir/attacks.rs` has functions
that `rt lib` proved; `mir/attacks.json.xz` is the MIR that `rt` left of them."""

import contextlib
import json
import lzma
import os
import pathlib
import subprocess
import sys
import tempfile
import types
import unittest
from typing import Any

ROOT = pathlib.Path(__file__).resolve().parents[2]
sys.path.append(str(ROOT / "tools/mir"))

import declared
import kept
import rattle
import rust
from compare import compare, taken
from names import Names
from packages import ENVIRONMENT, FLAGS, Sources, as_in_library

FILES = ROOT / "tools/tests/mir"

# The root of the crate: a module by hand has a trait that is named as one of std. Two of its names
# are those of a compared function, and of a default of a compared trait, which DEFAULT has.
DEFAULT = "pub trait Named { fn name() {} }\n"
ROOT_FILE = """mod attacks;
mod beside {
    pub trait Ord: Sized {
        fn min(self, other: Self) -> Self { other }
    }
    impl Ord for u32 {}
    impl crate::attacks::A {
        pub const OWN: u32 = 1;
        pub const of_pairs: u32 = 2;
    }
    impl crate::attacks::Named for u32 {
        fn name() {}
    }
}
"""

OF_ANOTHER_TRAIT = "Kind<Of: Level>>(_t: &T) -> u32 { <T as Kind>"

# A function, and what is wrong in it: of the first, results are 10 and 40 for 0, 10, .., 70.
ROWS = [
    ("constant_index", "a[1]", "a[4]"),
    ("of_a_value", "a[1]", "a[4]"),
    ("of_a_slice", "a[2]", "a[4]"),
    ("stored", "a[1]", "a[4]"),
    ("after_a_store", "a[1]", "a[4]"),
    ("in_a_pattern", "[_, b, ..]", "[_, _, b, ..]"),
    ("named_index", "AT: usize = 1", "AT: usize = 8"),
    ("of_arrays", "a[1][1]", "a[2][1]"),
    ("between_fields", "a[2]", "a[3]"),
    ("of_options", "i * 2", "i"),
    ("of_pairs", "i * 2", "i"),
    ("lent_in_a_loop", "b = y", "b = x"),
    ("slice_in_a_loop", "b = y", "b = x"),
    ("swapped_in_a_loop", "b = y", "b = x"),
    ("picked", "    a\n", "    1\n"),
    ("picked_and_lent", "    a\n", "    1\n"),
    ("joined_for_a_turn", "pair.0.wrapping_add(seen)", "seen.wrapping_add(seen)"),
    ("call_left_out", "text.as_slice()", "0"),
    ("of_the_associated_type", "number_of::<A>", "number_of::<B>"),
    ("of_other_signs", "both::<i16, u16>(x, y)", "both::<u16, i16>(x as u16, y as i16)"),
    ("of_pairs_of_other_signs", "(x, y) < (z, w)", "(x as u16, y as i16) < (z as u16, w as i16)"),
    ("of_other_parameters", "^ F", "^ Shift::<16>::AMOUNT"),
    ("of_unused_parameters", "T::number() } else", "S::number() } else"),
    ("of_the_first_type", "T: Kind> Pair<S, T>", "T: Kind> Pair<T, S>"),
    ("of_swapped_types", "S::Of::number() < 3 { T::Of", "T::Of::number() < 3 { S::Of"),
    ("of_one_of_both", "        *rs[i] = 9;\n    }\n    *x", "        *rs[i] = 9;\n    }\n    a"),
    ("of_one_of_both", "    if i < 2", "    let a = *x;\n    if i < 2"),
    (
        "of_two_indices",
        "            *rs[i] = 9;\n            return old ^ *rs[j];",
        "            let new = *rs[j];\n            *rs[i] = 9;\n            return old ^ new;",
    ),
    ("of_a_common_name", "A::drop(x) ^ B::drop(1)", "B::drop(x) ^ A::drop(1)"),
    ("of_another_bound", "<T as Make<A>>", "<T as Make<B>>"),
    ("of_a_generic_method", "count::<A>", "count::<B>"),
    ("of_two_parameters", "of_the_other::<A>", "of_the_other::<B>"),
    ("of_a_trait", "<A as Kind>::number", "A::number"),
    ("of_the_first_trait", "Kind>(_t: &T) -> u32 { <T as Outer>", OF_ANOTHER_TRAIT),
    ("passed_function", "number_of::<A>)", "number_of::<B>)"),
    ("passed_method", "<A as Kind>::number)", "<B as Kind>::number)"),
    ("passed_of_a_number", "Shift::<3>", "Shift::<4>"),
    ("passed_of_types", "Pair::<A, B>", "Pair::<B, A>"),
    ("least", "x.min(y)", "crate::beside::Ord::min(x, y)"),
    ("of_a_base", "..two }", "..some[n] }"),
    ("written", "    *other = 2;\n", ""),
    ("number_of_height", "Height::Low => 1", "_ => 1"),
]

# What a wrong eraser might write and no MIR tells: a file, a text, its wrong neighbor, and what the
# refusal says.
IDS, PADDING = "src/generated/font_ids/glyph_id.rs", "src/generated/font_decimal/padding.rs"
RAW, FORMAT = "src/generated/font_base/raw.rs", "c/src/generated/font_c/format.rs"
F4DOT12 = "src/generated/font_fixed/fixed_i16/f4dot12.rs"
EDITS = [
    (F4DOT12, "FixedI16<12>", "FixedI16<10>", "`type F4Dot12 = FixedI16 < 10 > ;`"),
    (F4DOT12, "Format<16, 12> for", "Format<16, 10> for", "`impl Format < 16 , 10 > for"),
    (PADDING, "    Left,", "    Right,", "`enum Align { Right , Center , Right }`"),
    (PADDING, "    Left,", "    Left = 0x0,", "`enum Align { Left = 0x0 , Center , Right }`"),
    (PADDING, "pub plus: bool", "pub zeros: bool", "`pub zeros : bool "),
    (IDS, "fn to_u32(self) -> u32", "fn to_u32(self) -> i32", "- > i32 `"),
    (IDS, "self.0 as u32", 'if cfg!(panic = "abort") { 1 } else { 2 }', "`cfg ! `"),
    (IDS, "self.0 as u32", "{ type T = u32; self.0 as T }", "`type T = u32 ;`"),
    (IDS, "use core::fmt;", "use core::primitive::u32 as U16;", "`use std :: primitive"),
    (RAW, "impl FixedSize for u16", "mod sizes {}\nimpl FixedSize for u16", "`mod sizes {`"),
    (RAW, "impl FixedSize for u16", "type U16 = u32;\nimpl FixedSize for U16", "`type U16 ="),
    (RAW, "impl FixedSize for u16", "static None: u8 = 1;\nimpl FixedSize for u16", "`static None"),
    (RAW, "pub trait Scalar", "extern crate core as a;\npub trait Scalar", "`extern crate"),
    (FORMAT, "#[repr(C)]\n", "", "`# [ repr`"),
    (FORMAT, 'extern "C" ', "", '`extern "C" fn`'),
    (FORMAT, "pub fn put_text", "#[unsafe(no_mangle)]\npub fn put_text", "`no_mangle`"),
]

# Functions that are refused, not compared: they read through one of several locals or references,
# or have type parameters that no parameter shows.
REFUSED = {"lent_in_a_loop", "slice_in_a_loop", "swapped_in_a_loop", "picked", "picked_and_lent"}
REFUSED |= {"number_of", "of_the_other", "of_unused_parameters", "of_one_of_both", "of_two_indices"}


def differing(room: pathlib.Path, source: str) -> tuple[set[str], list[str]]:
    """Returns the functions that differ in Rust, and which names are taken by hand."""
    source += DEFAULT
    (room / "attacks.rs").write_text(source)
    (room / "lib.rs").write_text(ROOT_FILE)
    rustc = "rustc --edition=2024 --crate-type=lib".split()
    subprocess.run([*rustc, *FLAGS, "lib.rs"], cwd=room, check=True, env=os.environ | ENVIRONMENT)
    mir = as_in_library((room / "lib.mir").read_text())
    lines = {"attacks.rs": source.split("\n")}
    text = rust.Text(lines.values())
    text.read(mir, {"attacks"})
    proved = json.loads(lzma.decompress((FILES / "attacks.json.xz").read_bytes()))
    crates = {"attacks": "attacks"}
    sources: Any = types.SimpleNamespace(lines=lines, crates=crates, by_hand=(), exports=dict)
    names = Names(text, rattle.Library([proved]), sources)
    differ = {name.split("::")[-1] for name, fault in compare(names) if fault}
    return differ, [*taken(room, names)]


class Mir(unittest.TestCase):
    def test_tree(self) -> None:
        """A folder of a clone has a tree of its own; files that the clone ignores have none."""
        room = pathlib.Path(self.enterContext(tempfile.TemporaryDirectory()))
        for folder in "", "inner", "target":
            (room / folder / "crates").mkdir(parents=True)
            (room / folder / "crates/file").write_text(folder)
        (room / ".gitignore").write_text("target/\n")
        commit = "-c user.name=me -c user.email=me@localhost commit -qm one".split()
        for command in ["init", "-q"], ["add", "."], commit:
            subprocess.run(["git", *command], cwd=room, check=True)
        trees = [kept.tree(room / folder) for folder in ("", "inner", "target")]
        self.assertEqual([bool(it) for it in trees], [True, True, False])
        self.assertNotEqual(trees[0], trees[1])

    def test_declarations(self) -> None:
        sources = Sources(ROOT)
        self.assertEqual([*declared.faults(ROOT, sources.files, sources.lines)], [])
        for path, old, new, word in EDITS:
            (file,) = (it for it, of in sources.files.items() if of == path)
            right = "\n".join(sources.lines[path])
            lines = {path: right.replace(old, new, 1).split("\n")}
            with self.subTest(new):
                self.assertIn(old, right)
                self.assertIn(word, "\n".join(declared.faults(ROOT, {file: path}, lines)))

    def test_casts_to_usize(self) -> None:
        """A `usize` of 32 bits does not hold the numbers of all types."""
        for of, is_wide in ("u16", False), ("u32", False), ("usize", False), ("u64", True):
            body: Any = types.SimpleNamespace(
                text=types.SimpleNamespace(values={}), enum=lambda _: None, operand=lambda it: it
            )
            body.type_of = lambda _, of=of: of
            refused: Any = self.assertRaises(ValueError) if is_wide else contextlib.nullcontext()
            with refused:
                rust.Body.casted(body, "copy _1", "usize (IntToInt)")

    def test_wrong_rust(self) -> None:
        right = (FILES / "attacks.rs").read_text()
        wrong = right
        for name, old, new in ROWS:
            place = wrong.index(old, 0 if wrong.count(old) == 1 else wrong.index(f"fn {name}"))
            wrong = wrong[:place] + new + wrong[place + len(old) :]
        room = pathlib.Path(self.enterContext(tempfile.TemporaryDirectory()))
        by_hand = [
            f"{it} in place of what is compared"
            for it in ("lib.rs:11: by hand, Named::name", "lib.rs:7: by hand, of_pairs")
        ]
        self.assertEqual(differing(room, right), (REFUSED, by_hand))
        self.assertEqual(differing(room, wrong), (REFUSED | {it for it, *_ in ROWS}, by_hand))
