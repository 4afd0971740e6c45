"""Values as terms over parameters and results of calls, which are tuples."""

import functools
from collections.abc import Generator, Sequence
from typing import Any

Term = tuple[Any, ...]
Terms = Sequence[Term]
Events = Generator[Term, Any, Any]  # what a run of a function yields; it may be sent an answer

# How many bits the types have that are integers here.
WIDTHS = {f"{sign}{bits}": bits for sign in "iu" for bits in (8, 16, 32, 64, 128)}
WIDTHS |= {"isize": 64, "usize": 64, "bool": 1, "char": 32}


def number(value: int, bits: int) -> Term:
    return ("int", value % (1 << bits), bits)


TRUE, FALSE = number(1, 1), number(0, 1)
UNIT = ("agg", None, ())


def is_number(*terms: Term) -> bool:
    return all(it[0] == "int" for it in terms)


def value(term: Term, signed: bool) -> int:
    _, n, bits = term
    found: int = n - (1 << bits) if signed and n >> bits - 1 else n
    return found


def negated(term: Term) -> Term:
    if is_number(term):
        return FALSE if term == TRUE else TRUE
    found: Term = term[1] if term[0] == "not" else ("not", term)
    return found


def same(a: Term, b: Term) -> Term:
    return ("eq", *sorted((a, b), key=repr))


def compared(name: str, signed: bool, bits: int, a: Term, b: Term) -> Term:
    """Returns a comparison, by `eq` and `lt` alone."""
    if name in ("Ne", "Ge", "Le"):
        swapped = (b, a) if name == "Le" else (a, b)
        return negated(compared("Eq" if name == "Ne" else "Lt", signed, bits, *swapped))
    if name == "Gt":
        a, b = b, a
    if is_number(a, b):
        left, right = value(a, signed), value(b, signed)
        return number(left == right if name == "Eq" else left < right, 1)
    if name == "Eq" and bits == 1 and (is_number(a) or is_number(b)):
        a, b = (b, a) if is_number(a) else (a, b)
        return a if b == TRUE else negated(a)
    return same(a, b) if name == "Eq" else ("lt", signed, a, b)


SIGNLESS = ("And", "Or", "Xor", "Shl", "WrapAdd", "WrapSub", "WrapMul")
PANICS = ("Add", "Sub", "Mul", "Div", "Rem")


def amount(name: str, b: Term) -> Term:
    """Returns an operand on the right; an amount of bits without the width that it has."""
    return ("int", b[1], 32) if name in ("Shl", "Shr") and is_number(b) else b


def operation(name: str, signed: bool, bits: int, a: Term, b: Term) -> Term:
    if name in ("Eq", "Ne", "Lt", "Le", "Gt", "Ge"):
        return compared(name, signed, bits, a, b)
    if name in ("Add", "Sub") and is_number(b) and b[1] == 0:
        return a
    if name == "Add" and is_number(a) and a[1] == 0:
        return b
    return ("op", name, None if name in SIGNLESS else signed, bits, a, amount(name, b))


def may_panic(name: str, signed: bool, bits: int, a: Term, b: Term) -> Term | None:
    """Returns the check of an operation that may overflow or divide by zero, or None."""
    if name in ("Shl", "Shr"):
        return None if is_number(b) and b[1] < bits else ("shift", bits, amount(name, b))
    is_safe = name in ("Div", "Rem") and is_number(b) and value(b, signed) not in (0, -1)
    return None if is_safe or name not in PANICS else (name, signed, bits, a, b)


def cast(of_signed: bool, of: int, to: int, a: Term) -> Term:
    """Returns an integer as a type of another width, which its own sign extends."""
    if of == to:
        return a
    if is_number(a):
        return number(value(a, of_signed), to)
    return ("cast", of_signed if of < to else None, of, to, a)


def project(term: Term, step: Term) -> Term:
    """Returns a part of a term: `("f", VARIANT, N)` of a struct or enum, `("e", INDEX)` of an
    array, or `("win", START, COUNT)` of it."""
    kind = term[0]
    found: Term = ("get", term, step)
    if step[0] in ("tag", "len", "first"):
        found = {"tag": tag, "len": length, "first": first}[step[0]](term)
    elif step[0] == "win":
        found = ("part", term, *step[1:])
    elif step[0] == "f" and kind == "agg":
        found = term[2][step[2]]
    elif step[0] == "e" and kind == "agg" and is_number(step[1]) and step[1][1] < len(term[2]):
        found = term[2][step[1][1]]
    elif kind == "upd" and term[2] == step:
        found = term[3]
    return found


def updated(term: Term, path: Terms, new: Term) -> Term:
    if not path:
        return new
    step, *rest = path
    inner = updated(project(term, step), rest, new)
    is_element = step[0] == "e" and is_number(step[1])
    n = step[2] if step[0] == "f" else step[1][1] if is_element else None
    if term[0] == "agg" and n is not None and n < len(term[2]):
        return (*term[:2], (*term[2][:n], inner, *term[2][n + 1 :]))
    return ("upd", term, step, inner)


def pointer(root: Term, path: Term) -> Term:
    """Returns a reference. `&*x` is `x`, and what has the length of its own is a slice."""
    found: Term = ("ptr", root, path)
    if root[0] == "mem" and not path:
        found = root[1]
    elif path and path[-1][0] == "win":
        found = ("slice", root, path[:-1], *path[-1][1:])
    return found


def place_of(term: Term) -> tuple[Term, Term]:
    """Returns where a reference points."""
    if term[0] == "ptr":
        return term[1], term[2]
    if term[0] == "slice":
        return term[1], (*term[2], ("win", *term[3:]))
    if term[0] == "elem":
        root, path = place_of(term[1])
        return root, at(path, term[2])
    if is_lost(term):
        raise ValueError(f"a reference to one of some locals: {term}")
    return ("mem", term), ()


# The content of a local is in its cell alone. So a term that may be a reference to one of some
# locals, or a variable for such terms, says nothing of what is read through it: that is an error.
@functools.cache
def is_lost(term: Any) -> bool:
    """Returns whether a term has a reference to a local, or one of which it is not known to what
    it is; what it refers to is not in the term."""
    if not isinstance(term, tuple) or not term:
        return False
    is_local = term[0] in ("ptr", "slice") and term[1][0] == "loc"
    return is_local or term[0] == "lost" or any(map(is_lost, term))


def is_picked(term: Term) -> bool:
    """Returns whether an index picks a reference from some."""
    if term[0] == "get" and term[2][0] == "e" and not is_number(term[2][1]) or term[0] == "upd":
        return True
    return term[0] in ("get", "*", "part") and is_picked(term[1])


def origins(term: Term) -> set[Term]:
    """Returns of what a reference is a part, or one of some: of which parameters and results."""
    kind = term[0]
    if kind in ("ptr", "slice"):
        return origins(term[1][1]) if term[1][0] == "mem" else {term[1]}
    if kind in ("agg", "upd"):
        return set().union(*map(origins, term[2] if kind == "agg" else term[1::2]))
    if kind == "*":
        return {("*", it) for it in origins(term[1])}
    return origins(term[1]) if kind in ("get", "part", "elem", "after") else {term}


def may_lend(term: Term) -> bool:
    """Returns whether a value that is no shared reference may be or have another to a local."""
    return term[0] in ("agg", "iter", "ptr", "slice") or is_lost(term)


def at(path: Term, index: Term) -> Term:
    """Returns the place of an element of an array, or of a slice from its start."""
    if path and path[-1][0] == "win":
        return (*path[:-1], ("e", operation("Add", False, 64, path[-1][1], index)))
    return (*path, ("e", index))


def length(term: Term) -> Term:
    found: Term = term[4] if term[0] == "slice" else ("len", term)
    return found


def referred(term: Term) -> Term:
    while term[0] == "&" and len(term) == 2:
        term = term[1]
    return term


def part(term: Term, start: Term, count: Term) -> Term:
    """Returns a part of a slice, or of an array, from an index, of a length."""
    root, path = place_of(term)
    return from_first(root, at(path, start), count)


# Rattle multiplies an index by the size of an element, unless that is one byte, and folds it if
# both are known. So the index is the other factor or the quotient, and any other distance an error.
def counted(distance: Term, size: Term) -> Term:
    """Returns the index of what is at a distance of some bytes, if an element has so many."""
    if is_number(distance, size) and size[1] and distance[1] % size[1] == 0:
        return number(distance[1] // size[1], 64)
    if distance == number(0, 64) or size == number(1, 64):
        return distance
    if distance[:2] == ("op", "Mul") and distance[5] == size:
        index: Term = distance[4]
        return index
    raise ValueError(f"the distance {distance} between elements of {size} bytes")


# A pointer to an element has the slice that it is in, and the index there; one to an array starts
# at 0. Which of the two a pointer is must be so of its term and of its type.
def element(base: Term, array: Term | None, index: Term) -> Term:
    """Returns the pointer to an element from that to another, or to an array of a length."""
    if bool(array) == (base[0] == "elem"):
        raise ValueError(f"an element of {base}, which is {'an array' if array else 'none'}")
    if array:
        base = ("elem", ("slice", *place_of(base), number(0, 64), array), number(0, 64))
    return (*base[:2], operation("Add", False, 64, base[2], index))


def slice_of(memory: "Memory", base: Term, array: Term | None, count: Term) -> Term:
    """Returns a slice from a pointer to its first element, and its length."""
    _, whole, start = element(base, array, number(0, 64))
    memory.check_part(start, count, length(whole))
    return from_first(*place_of(("elem", whole, start)), count)


def from_first(root: Term, path: Term, count: Term) -> Term:
    """Returns a slice from the place of its first element, and its length."""
    is_whole = root[0] == "mem" and path == (("e", number(0, 64)),) and count == length(root[1])
    found: Term = root[1] if is_whole else ("slice", root, path[:-1], path[-1][1], count)
    return found


def first(term: Term) -> Term:
    return ("elem", term, number(0, 64))


def tag(term: Term) -> Term:
    """Returns which variant a term is of."""
    return number(term[1], 8) if term[0] == "agg" else ("tag", term)


def text_of(data: bytes) -> Term:
    return ("slice", ("static", data), (), number(0, 64), number(len(data), 64))


class Memory:
    """What locals have, and what references of the caller, or from calls, point to."""

    def __init__(self, arguments: Terms, used: dict[Term, bool]) -> None:
        self.cells: dict[Term, Term] = {("loc", n + 1): it for n, it in enumerate(arguments)}
        self.checks: set[Term] = set()
        self.used = used

    # Two references that are other terms are to other places, since `&mut` is the only one to its
    # own. But one that an index picks from some may be any of these: if one of the two is written,
    # on any path, it is not known what the other has.
    def use(self, root: Term, is_write: bool) -> None:
        """Notes that a place is read or written. It is an error if another, of which one is
        written, may be the same."""
        known = self.used.get(root)
        if root[0] != "mem" or known or known == is_write:
            return
        self.used[root] = is_write
        one = root[1]
        for (_, other), was_written in self.used.items():
            is_known = one == other or not origins(one) & origins(other)
            if (is_write or was_written) and not is_known and (is_picked(one) or is_picked(other)):
                raise ValueError(f"a reference that may be another: {one}, {other}")

    def unset(self, root: Term) -> Term:
        return ("*" if root[0] == "mem" else "none", root[1])

    def check(self, event: Term | None) -> None:
        if event is not None:
            self.checks.add(event)

    def check_index(self, index: Term, whole: Term) -> None:
        if not (is_number(index, whole) and index[1] < whole[1]):
            self.checks.add(("index", index, whole))

    def check_part(self, start: Term, count: Term, whole: Term) -> None:
        """Notes that a part of a slice is one of it, unless that is so for all or for numbers."""
        is_known = is_number(start, count, whole) and start[1] + count[1] <= whole[1]
        if not is_known and (start, count) != (number(0, 64), whole):
            self.checks.add(("part", start, count, whole))

    def read(self, place: Term) -> Term:
        root, path = place
        self.use(root, False)
        if root[0] == "static":
            is_term = isinstance(root[1], tuple) and isinstance(root[1][0], str)
            term: Term = root[1] if is_term else root
        else:
            term = self.cells.get(root) or self.unset(root)
        for step in path:
            term = project(term, step)
        return term

    def write(self, place: Term, new: Term) -> None:
        root, path = place
        if root[0] == "static":
            raise ValueError("a store to a constant")
        self.use(root, True)
        self.cells[root] = updated(self.read((root, ())), path, new)

    def store(self, place: Term, new: Term) -> Events:
        """Writes a term; to what the caller has, that is an event."""
        (root, path), seen = place, self.seen
        self.write(place, new)
        if root[0] == "mem":
            yield ("store", seen(root), seen(path), seen(new))

    def fixed(self, term: Any) -> Any:
        """Returns a term with what it refers to as static, since the locals end."""
        if not isinstance(term, tuple) or not term:
            return term
        if term[0] in ("ptr", "slice") and term[1][0] == "loc":
            found = self.seen(self.fixed(self.read((term[1], ()))))
            return (term[0], ("static", found[1] if found[0] == "static" else found), *term[2:])
        return tuple(map(self.fixed, term))

    # What a call may change is what it can reach by a mutable reference. The same call of the same
    # leaves the same there, so that both sides may name that by the call's result.
    def lend(self, term: Term, result: Term, of: Term) -> None:
        """Forgets what a call may change: what a term points to, and what that points to in turn.
        A value that no part is known of is a pointer if it is one of some that a call is given."""
        if term[0] in ("agg", "iter"):
            for n, it in enumerate(term[2] if term[0] == "agg" else term[1:]):
                self.lend(it, result, (*of, n))
        elif term[0] not in ("int", "static", "op", "eq", "lt", "not", "cast", "fn"):
            root, path = place_of(term)
            if root[0] != "static":
                inside = self.read((root, path))
                if may_lend(inside):
                    self.lend(inside, result, (*of, "*"))
                self.write((root, path), ("after", result, *of))

    # A local may have another number on either side, so a call and a result have what references to
    # locals refer to, whole, and those to the caller's places as they are.
    def seen(self, term: Any) -> Any:
        """Returns a term as a call sees it: with what its own references point to."""
        if not isinstance(term, tuple) or not term:
            return term
        if term[0] == "lost":
            raise ValueError(f"a reference to one of some locals: {term}")
        if term[0] in ("ptr", "slice") and term[1][0] != "mem":
            found = self.seen(self.read(term[1:3]))
            found = ("agg", None, ()) if found == ("static", b"") else found
            return ("&", found, *map(self.seen, term[3:]))
        term = tuple(map(self.seen, term))
        if term[0] == "repeat" and is_number(*term[1:]) and term[1][2] == 8:
            return ("static", bytes([term[1][1]] * term[2][1]))
        return term
