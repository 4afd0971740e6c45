"""The edits of `crates/*/must-fail`: mutants, which the checker has to refuse, and controls."""

import re
from pathlib import Path

ROOT = Path(__file__).resolve().parents[1]


class Edit:
    """A mutant of a file. Its controls are in place of the new texts, and its goals those without
    a clause in their name at which it may be refused."""

    def __init__(self, path: Path) -> None:
        text = path.read_text()

        def lines(head: str) -> list[str]:
            return re.findall(rf"^{head}: (.*)$", text, re.MULTILINE)

        self.path, self.name = path, f"{path.parts[-3]}/{path.name}"
        (self.file,) = {path.parents[1] / it for it in lines("file")}
        self.function, *self.clauses = lines("# clause")[0].split(", ")
        self.goals, self.controls = lines("# goal"), lines("# control")
        self.changes = [*zip(lines("old"), lines("new"), strict=True)]


def edits(root: Path = ROOT, crate: str = "*") -> list[Edit]:
    """Returns the edits of a crate, or of all crates."""
    return [Edit(it) for it in sorted(root.glob(f"crates/{crate}/must-fail/*.edit"))]
