"""Calls each export of two builds of the library for C with the same random arguments: of what
cargo makes, and of what Rattle's compiler makes of the MIR that was proved. Both have to return
the same and to leave the same in memory: `c/tests/twins.py ONE.so OTHER.so [CALLS]`."""

import ctypes
import random
import re
import sys
from pathlib import Path
from typing import Any, NamedTuple

SOURCES = Path(__file__).resolve().parents[1] / "src/generated/font_c"
EXPORT = re.compile(r'extern "C" fn (\w+)\(([^)]*)\)(?: -> (\w+))? \{')
ROOM, SIZES = 64, {"u8": 1, "i32": 4, "FontPoint": 8}
TYPES: dict[str, Any] = {f"i{bits}": getattr(ctypes, f"c_int{bits}") for bits in (16, 32, 64)}
TYPES |= {f"u{bits}": getattr(ctypes, f"c_uint{bits}") for bits in (16, 32)}
for name, count in (("FontFraction", 1), ("FontMatrix", 6), ("FontPoint", 2)):
    fields = [(f"field_{n}", ctypes.c_int32) for n in range(count)]
    TYPES[name] = type(name, (ctypes.Structure,), {"_fields_": fields})


class Export(NamedTuple):
    name: str
    parameters: str
    result: str


def integer() -> int:
    """Returns an integer of any width, often one at which results change."""
    few = random.getrandbits(random.choice([3, 8, 17, 33, 64]))
    return random.choice([0, 1, -1, 1 << 31, (1 << 31) - 1, 1 << 63, few, -few])


def memory(name: str, of: str) -> ctypes.Array[ctypes.c_uint8]:
    """Returns memory with a decimal, a `FontPad`, or any bytes."""
    found = random.randbytes(ROOM)
    if name == "text" and random.random() < 0.9:
        found = b"%.9f" % random.uniform(-40000, 40000)
    if of == "&FontPad":
        found = random.randrange(40).to_bytes(8, "little") + bytes(random.choices(range(4), k=4))
    return (ctypes.c_uint8 * ROOM).from_buffer_copy(found.ljust(ROOM, b"\0"))


def arguments(parameters: list[tuple[str, str]]) -> list[Any]:
    """Returns what both get. A length is that of the slice before it, of the elements or fewer."""
    found: list[Any] = []
    most = 0
    for name, of in parameters:
        if of[0] in "*&":
            most = ROOM // SIZES.get(of.split()[-1], ROOM)
            found.append(memory(name, of))
        elif of == "usize":
            found.append(ctypes.c_size_t(random.randrange(min(most, 20) + 1)))
        elif of == "FontFraction":
            found.append(TYPES[of](random.randrange(36)))
        elif issubclass(TYPES[of], ctypes.Structure):
            found.append(TYPES[of](*(integer() for _ in TYPES[of]._fields_)))
        else:
            found.append(TYPES[of](integer()))
    return found


def called(library: ctypes.CDLL, export: Export, given: list[Any]) -> tuple[Any, list[bytes]]:
    """Returns what an export returns, and all that it leaves in memory."""
    copies = [type(it).from_buffer_copy(it) for it in given]
    function = getattr(library, export.name)
    function.restype = TYPES.get(export.result)
    result = function(*copies)
    is_struct = isinstance(result, ctypes.Structure)
    return bytes(result) if is_struct else result, [*map(bytes, copies)]


def main() -> int:
    one, other = map(ctypes.CDLL, sys.argv[1:3])
    calls = int(sys.argv[3]) if len(sys.argv) > 3 else 10000
    texts = [path.read_text() for path in SOURCES.glob("*.rs")]
    exports = [Export(*it) for text in texts for it in EXPORT.findall(text)]
    differ = 0
    for export in exports:
        parameters = re.findall(r"(\w+): ([^,\n]+)", export.parameters)
        for _ in range(calls):
            given = arguments(parameters)
            both = [called(it, export, given) for it in (one, other)]
            if both[0] != both[1]:
                print(export.name, [*map(bytes, given)], *both)
                differ += 1
    print(f"{len(exports)} exports, {calls} calls of each: {differ} differ")
    return min(differ, 1)


if __name__ == "__main__":
    sys.exit(main())
