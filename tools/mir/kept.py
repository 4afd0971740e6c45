"""The MIR that was proved: what `rt` left in this folder, or a copy of that, with which anybody
can compare."""

import json
import lzma
import re
import shutil
import subprocess
import sys
from pathlib import Path

from rattle import Json

FILE = Path(__file__).with_name("proved.json.xz")


def left_of(root: Path, crate: str) -> Path:
    return root / f"crates/{crate}/out/rlib/{crate}.rlib/toolchain/mir.json"


def left(root: Path, crates: list[str]) -> dict[str, Json]:
    """Returns what `rt` left of each crate, of a library alone, if it is of this tree."""
    sys.path.append(str(Path(shutil.which("rt") or "rt").resolve().parent))
    import rtlib  # of the kit

    others = []
    for crate in sorted(crates):
        folder = root / "crates" / crate
        stamp = folder / "out/rlib/stamp"
        now = rtlib.Crate(str(folder), str(root), {}).stamp
        if stamp.exists() and stamp.read_text() != now():
            others.append(crate)
    if others:
        told = f"what `rt` left of {', '.join(others)} is of another tree: run `rt lib` in "
        raise SystemExit(f"{told}font_lines, variations and font_c, which builds what they use")
    return {it: json.loads(left_of(root, it).read_text()) for it in sorted(crates)}


def kept() -> Json:
    """Returns the copy, with the logic and the tree of `crates` that it is of."""
    return json.loads(lzma.decompress(FILE.read_bytes()))


def run(root: Path, *command: str) -> str:
    return subprocess.run(command, cwd=root, capture_output=True, text=True).stdout.strip()


def tree(root: Path) -> str:
    """Returns which tree of `crates` is here, or "" in an archive, also inside of another clone."""
    found = run(root, "git", "rev-parse", "--verify", "HEAD:./crates")
    if not found:
        return ""
    is_changed = run(root, "git", "status", "--porcelain", "crates")
    return f"tree {'that is not committed' if is_changed else found} of crates"


def state(root: Path) -> str:
    """Returns of which logic, and of which tree of `crates`, the MIR is that `rt` leaves here."""
    (logic,) = re.findall(r"logic \w+", run(root, "rt", "version"))
    return f"{logic}, {tree(root)}"


def write(root: Path, crates: list[str]) -> None:
    data = json.dumps({"of": state(root), "crates": left(root, crates)}, sort_keys=True)
    FILE.write_bytes(lzma.compress(data.encode(), preset=9 | lzma.PRESET_EXTREME))


def compared(root: Path, crates: dict[str, Json]) -> str:
    """Says whether the copy is of this state. Fails if it is and has other MIR."""
    copy, now = kept(), state(root)
    if copy["of"] == now and copy["crates"] != crates:
        raise ValueError(f"tools/mir/{FILE.name} is not what `rt` left of these crates")
    return "what was proved" if copy["of"] == now else f"{copy['of']}, not of {now}"
