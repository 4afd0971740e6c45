"""Edits a copy of `src`, as `edit.py FOLDER`: adds what the package leaves out of font-types.

Each edit is made as often as it says, so that a renamed type is seen. No function may be cut: what
does not compile beside a function of the package would not compile for its users either.
"""
import collections, pathlib, re, sys

NUMBERS = (
    r"FixedI\d+<const F: u32>|FWord|UfWord|GlyphId\d*|NameId|Offset\d+|Nullable<T>|Tag"
    r"|Version16Dot16|LongDateTime"
)
EDITS = [
    (r"^impl(<[^>]*>)? FixedSize for (?!BigEndian)[^{]+ \{.*?^\}\n", "", 26),
    (
        r"pub trait FixedSize: Sized",
        r"""impl<T: Scalar> FixedSize for T {
    const RAW_BYTE_LEN: usize = <T::Raw as BeByteArray>::LEN;
}
\g<0>""",
        1,
    ),
    (r"pub trait Scalar: FixedSize", "pub trait Scalar: Sized", 1),
    (r"\{BeByteArray, ByteChunks, Scalar\}", "{BeByteArray, ByteChunks, FixedSize, Scalar}", 1),
    (r"pub trait BeByteArray: Copy", r"\g<0> + bytemuck::AnyBitPattern", 1),
    (r"Copy \+ Ord \+ IdentityEq> PartialOrd", "Copy + PartialOrd> PartialOrd", 1),
    (
        r"Some\(self\.cmp\(other\)\)(\n    \}\n\}\n\n(///[^\n]*\n)*impl<T: Scalar \+ Copy)",
        r"self.get().partial_cmp(&other.get())\1",
        1,
    ),
    (r" \+ Ord \+ IdentityEq> Ord for", " + Ord> Ord for", 1),
    (rf"^pub struct (({NUMBERS})\(|[UI]i?nt24 |BigEndian<)", r"#[repr(transparent)]\n\g<0>", 19),
    (r"^pub struct (Matrix<T>|Point<T>|MajorMinor) ", r"#[repr(C)]\n\g<0>", 3),
    (
        r"^mod methods;",
        r"#[allow(missing_docs, clippy::all)]\nmod compat;\n"
        r"pub mod raw {\n    pub use crate::Scalar;\n}\n\g<0>",
        1,
    ),
]
made = [0] * len(EDITS)
cut = collections.Counter[str]()
for path in pathlib.Path(sys.argv[1]).rglob("*.rs"):
    text = path.read_text()
    cut.update(re.findall(r"\bfn \w+", text))
    for n, (old, new, _) in enumerate(EDITS):
        text, count = re.subn(old, new, text, flags=re.M | re.S)
        made[n] += count
    cut.subtract(re.findall(r"\bfn \w+", text))
    path.write_text(text)
if +cut:
    sys.exit(f"cut: {[*+cut]}")
wrong = [(old, count) for count, (old, _, number) in zip(made, EDITS) if count != number]
sys.exit(f"not made as often as it says: {wrong}" if wrong else 0)
