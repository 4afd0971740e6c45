"""The text of LLVM's IR, split into functions, blocks and instructions."""

import re
from collections.abc import Iterator
from typing import NamedTuple

from values import Unsupported

NAME = r'(?:[@%]"[^"]*"|[@%][\w.$-]+)'
LABEL = re.compile(rf"label ({NAME})")
PHI = re.compile(rf"\[ (.*?), ({NAME}) \]")
INSTRUCTION = re.compile(rf"(?:({NAME}) = )?(?:(?:tail|notail|musttail) )?(\w+) ?(.*)$")
# A call that goes on at a label, and at another if it panics, which no call may.
INVOKE = re.compile(r"(.*?)\binvoke (.*) to (label \S+) unwind label [^\s,]+(.*)")
METADATA = re.compile(r", !([\w.]+) (!\d+|!\{\})$")

# What stands before a type or a value, and of which no goal is made: conventions of calls, what is
# promised of memory behind a pointer, and how a name is linked.
PASSED_OVER = set(
    "noalias captures readonly readnone writeonly nofree writable initializes dereferenceable sret "
    "dead_on_unwind dead_on_return returned immarg signext zeroext noext fastcc internal hidden "
    "dso_local unnamed_addr local_unnamed_addr".split()
)
ENDS = set("true false null undef poison zeroinitializer getelementptr inttoptr ptr void".split())
# By the layout of the target, how many bytes an address has, and the alignments of integers by
# their bits: of LLVM, unless the layout has others.
POINTER, ALIGNS = 8, dict[int, int]()
LLVM_ALIGNS = {1: 1, 8: 1, 16: 2, 32: 4, 64: 4}
WORD = re.compile(r"align (\d+)(?:\s+|$)|([a-z_]+)(?:\(((?:[^()]|\([^()]*\))*)\))?(?:\s+|$)")


class Attributes(NamedTuple):
    noundef: bool = False
    nonnull: bool = False
    range: tuple[int, int] | None = None
    align: int = 1
    byval: bool = False


class Instruction(NamedTuple):
    target: str
    op: str
    text: str
    metadata: dict[str, str]


class Function(NamedTuple):
    name: str
    returns: Attributes
    parameters: list[tuple[str, Attributes, str]]
    blocks: dict[str, list[Instruction]]

    def turns(self, head: str) -> set[str]:
        """Returns the blocks from which a loop goes on at its head: what goes there, and cannot be
        reached but through there. No other block is the head of a loop."""
        first = next(iter(self.blocks))
        seen, ahead = {head, first}, [first] if head != first else []
        while ahead:
            new = set(LABEL.findall(self.blocks[ahead.pop()][-1].text)) - seen
            seen |= new
            ahead += new
        inside = {head, *(self.blocks.keys() - seen)}
        return {it for it in inside if head in LABEL.findall(self.blocks[it][-1].text)}


class Constant(NamedTuple):
    type: str
    text: str
    align: int


def split_commas(text: str) -> list[str]:
    """Splits at the commas that are in no bracket and in no quotation."""
    parts, depth, start, quoted = [], 0, 0, False
    for i, character in enumerate(text):
        quoted ^= character == '"'
        depth += 0 if quoted else (character in "([{<") - (character in ")]}>")
        if character == "," and not depth and not quoted:
            parts.append(text[start:i].strip())
            start = i + 1
    last = text[start:].strip()
    return parts + [last] if last else parts


def closing(text: str, start: int) -> int:
    """Returns the place after the bracket that closes the bracket at `start`."""
    depth = 0
    for i in range(start, len(text)):
        depth += (text[i] in "([{<") - (text[i] in ")]}>")
        if depth == 0:
            return i + 1
    raise Unsupported(f"brackets of `{text}`")


def take_type(text: str) -> tuple[str, str]:
    """Splits a text into the type at its start and the rest."""
    text = text.strip()
    if text[:1] in ("[", "{", "<"):
        end = closing(text, 0)
    elif found := re.match(r"(void|ptr|i\d+|metadata)\b", text):
        end = found.end()
    else:
        raise Unsupported(f"type of `{text}`")
    return text[:end], text[end:].strip(" ,")


def take_attributes(text: str) -> tuple[Attributes, str]:
    """Splits a text into the attributes at its start and the rest."""
    kept = Attributes()
    while (found := WORD.match(text)) and found[2] not in ENDS:
        if found[1]:
            kept = kept._replace(align=int(found[1]))
        elif found[2] == "range":
            low, high = found[3].split(" ", 1)[1].split(", ")
            kept = kept._replace(range=(int(low), int(high)))
        elif found[2] == "noundef":
            kept = kept._replace(noundef=True)
        elif found[2] == "nonnull":
            kept = kept._replace(nonnull=True)
        elif found[2] == "byval":
            kept = kept._replace(byval=True)
        elif found[2] not in PASSED_OVER:
            raise Unsupported(f"attribute `{found[0]}`")
        text = text[found.end() :]
    return kept, text


def take_flags(text: str, known: str) -> tuple[set[str], str]:
    """Splits a text into those of the words at its start that are known, and the rest."""
    first, _, rest = text.partition(" ")
    if first not in known.split():
        return set(), text
    flags, rest = take_flags(rest, known)
    return flags | {first}, rest


def width_of(type_: str) -> int:
    if found := re.fullmatch(r"i(\d+)", type_):
        return int(found[1])
    raise Unsupported(f"{type_} for an integer")


def array_of(type_: str) -> tuple[int, str] | None:
    found = re.fullmatch(r"\[(\d+) x (.*)\]", type_)
    return (int(found[1]), found[2]) if found else None


def align_of(type_: str) -> int:
    if array := array_of(type_):
        return align_of(array[1])
    if type_[0] == "{":
        return max(map(align_of, split_commas(type_[1:-1])), default=1)
    if type_ == "ptr":
        return POINTER
    if type_[0] == "<":
        return 1
    # That of the next greater integer that the layout names, or of the greatest.
    width = width_of(type_)
    return ALIGNS[min((it for it in ALIGNS if it >= width), default=max(ALIGNS))]


def stored_size(type_: str) -> int:
    """Returns how many bytes a load or a store of a number accesses."""
    if type_ == "ptr":
        return POINTER
    if width_of(type_) % 8:
        raise Unsupported(f"{type_} in memory")
    return width_of(type_) // 8


def size_of(type_: str) -> int:
    """Returns how far apart the elements of an array are."""
    if array := array_of(type_):
        return array[0] * size_of(array[1])
    if type_[:2] == "<{":
        return sum(map(size_of, split_commas(type_[2:-2])))
    align, at = align_of(type_), 0
    for part in split_commas(type_[1:-1]) if type_[0] == "{" else ():
        at = -(-at // align_of(part)) * align_of(part) + size_of(part)
    return -(-(at if type_[0] == "{" else stored_size(type_)) // align) * align


def instruction(line: str) -> Instruction:
    metadata = {}
    while found := METADATA.search(line):
        metadata[found[1]] = found[2]
        line = line[: found.start()]
    found = INSTRUCTION.match(re.sub(r" #\d+$", "", line))
    if not found:
        raise Unsupported(line)
    return Instruction(found[1] or "", found[2], found[3], metadata)


def use_layout(parts: list[str]) -> None:
    """Sizes and alignments are those of a layout from here on."""
    global POINTER
    found = (re.match(r"i(\d+):(\d+)", it) for it in parts)
    ALIGNS.clear()
    ALIGNS.update(LLVM_ALIGNS | {int(it[1]): int(it[2]) // 8 for it in found if it})
    POINTER = next((int(it.split(":")[1]) for it in parts if it[:2] == "p:"), 64) // 8


class Module:
    """The functions, constants and metadata of a file of IR. The layout of its target says whether
    the first byte of a number is its highest, and how many bits an address has."""

    def __init__(self, text: str) -> None:
        layout = re.search(r'^target datalayout = "(.*)"$', text, re.M)
        parts = layout[1].split("-") if layout else ["e", "i64:64", "i128:128"]
        use_layout(parts)
        self.is_big, self.pointer = parts[0] == "E", 8 * POINTER
        self.functions: dict[str, Function] = {}
        self.constants: dict[str, Constant] = {}
        self.metadata: dict[str, str] = {}
        lines, aliases = iter(text.splitlines()), {}
        for line in lines:
            if line.startswith("define"):
                function = self.function(line, lines)
                self.functions[function.name] = function
            elif line.startswith("module asm"):
                raise Unsupported("functions in assembly, which may have any name")
            elif found := re.match(rf"({NAME}) = [^(]*\balias .*, ptr ({NAME})$", line):
                aliases[found[1]] = found[2]
            elif found := re.match(rf'({NAME}) = [^("]*?\bconstant (.*), align (\d+)', line):
                self.constants[found[1]] = Constant(*take_type(found[2]), int(found[3]))
            elif found := re.match(r"(!\d+) = (?:distinct )?!\{(.*)\}$", line):
                self.metadata[found[1]] = found[2]
        self.functions |= {name: self.functions[other] for name, other in aliases.items()}

    def function(self, line: str, lines: Iterator[str]) -> Function:
        found = re.search(rf"({NAME})\(", line)
        if not found:
            raise Unsupported(line)
        returns, _ = take_attributes(line[len("define ") : found.start()])
        parameters = []
        for text in split_commas(line[found.end() : closing(line, found.end() - 1) - 1]):
            type_, rest = take_type(text)
            parameters.append((type_, *take_attributes(rest)))
        return Function(found[1], returns, parameters, self.blocks(lines))

    def blocks(self, lines: Iterator[str]) -> dict[str, list[Instruction]]:
        blocks: dict[str, list[Instruction]] = {}
        for line in iter(lines.__next__, "}"):
            if found := re.match(r'("[^"]*"|[\w.$-]+):', line):
                block = blocks.setdefault("%" + found[1], [])
            elif line.strip() and not line.lstrip().startswith(";"):
                if line.lstrip().startswith("switch "):
                    while "]" not in line:
                        line += " " + next(lines).strip()
                if re.match(r"\s*(?:\S+ = )?invoke ", line):
                    line = " ".join([line, next(lines).strip()])
                if found := INVOKE.fullmatch(line.strip()):
                    block.append(instruction(f"{found[1]}call {found[2]}{found[4]}"))
                    line = f"br {found[3]}"
                block.append(instruction(line.strip()))
        return blocks
