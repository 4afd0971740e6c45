"""The reader of the second proof finds what is undefined in LLVM's IR, and nothing else, and its
integers are the numbers of its bits. All rows run in one process, by the Python that has the
solver."""

import json
import pathlib
import subprocess
import tomllib
import unittest
from typing import Any

TOOL = pathlib.Path(__file__).resolve().parents[1] / "smt"

# The last instruction of a function of x and y, and what comes before it, if it is undefined or
# poison for some argument; and a control, which is neither.
ROWS = """\
add nsw i32 %x, %y | add i32 %x, %y
sub nuw i32 %x, %y | sub i32 %x, %y
mul nsw i32 %x, 3 | mul i32 %x, 3
mul nuw i32 %x, %y | mul i32 %x, %y
shl i32 %x, %y | shl i32 %x, 31
shl nuw i32 %x, 1 | shl i32 %x, 1
lshr exact i32 %x, 1 | lshr i32 %x, 1
or disjoint i32 %x, 1 | or i32 %x, 1
udiv i32 %x, %y | udiv i32 %x, 7
udiv exact i32 %x, 7 | udiv i32 %x, 1
sdiv i32 %x, -1 | sdiv i32 %x, -2
srem i32 %x, -1 | srem i32 %x, 3
%a = lshr i32 %y, 2; %b = add i32 %a, 1; %q = sdiv i32 %x, %b; sub nuw i32 %x, %q | \
%a = lshr i32 %y, 2; %b = add i32 %a, 1; %c = lshr i32 %x, 1; %q = sdiv i32 %c, %b; \
sub nuw i32 %c, %q
select i1 true, i32 poison, i32 %x | select i1 false, i32 poison, i32 %x
add i32 undef, %x | freeze i32 undef
call i32 @llvm.abs.i32(i32 %x, i1 true) | call i32 @llvm.abs.i32(i32 %x, i1 false)
call range(i32 0, 5) i32 @same(i32 %x) | call range(i32 7, 8) i32 @seven(i32 %x)
call i32 @seven(i32 noundef poison) | call i32 @seven(i32 poison)
call noundef i32 @small(i32 %x) | call noundef i32 @same(i32 %x)
%p = alloca i32, align 4; store i32 0, ptr %p, align 4; call i32 @memcmp(ptr %p, ptr %p, i64 4) | \
%p = alloca i32, align 4; store i32 0, ptr %p, align 4; call i32 @bcmp(ptr %p, ptr %p, i64 4)
%a = invoke i32 @expect_failed(i32 %x) to label %go unwind label %end; go:; add i32 %a, 0 | \
%a = invoke i32 @seven(i32 %x) to label %go unwind label %end; go:; add i32 %a, 0
call i32 @expect_failed(i32 %x) | call i32 @quiet_expect_failed(i32 %x)
%a = trunc nuw i32 %x to i8; zext i8 %a to i32 | %a = trunc i32 %x to i8; zext i8 %a to i32
%a = trunc i32 %x to i8; zext nneg i8 %a to i32 | %a = trunc i32 %x to i8; sext i8 %a to i32
%p = alloca i32, align 4; load i32, ptr %p, align 4 | %p = alloca i32, align 4; \
store i32 %x, ptr %p, align 4; load i32, ptr %p, align 4
%p = alloca i32, align 2; store i32 %x, ptr %p, align 4; load i32, ptr %p, align 2 | \
%p = alloca i32, align 2; store i32 %x, ptr %p, align 2; load i32, ptr %p, align 2
%p = alloca i64, align 8; store i64 0, ptr %p, align 8; %q = getelementptr i8, ptr %p, i64 6; \
load i32, ptr %q, align 1 | %p = alloca i64, align 8; store i64 0, ptr %p, align 8; \
%q = getelementptr i8, ptr %p, i64 4; load i32, ptr %q, align 4
%p = alloca i64, align 8; store i64 0, ptr %p, align 8; %q = getelementptr i8, ptr %p, i64 2; \
load i32, ptr %q, align 4 | %p = alloca i64, align 8; store i64 0, ptr %p, align 8; \
%q = getelementptr i8, ptr %p, i64 2; load i32, ptr %q, align 2
%p = alloca i32, align 4; store i32 0, ptr %p, align 4; %q = alloca i32, align 4; \
%c = icmp ult i32 %x, %y; %s = select i1 %c, ptr %p, ptr %q; load i32, ptr %s, align 4 | \
%p = alloca i32, align 4; store i32 0, ptr %p, align 4; %q = alloca i32, align 4; \
%c = icmp ult i32 %x, %y; %s = select i1 %c, ptr %p, ptr %q; store i32 %x, ptr %q, align 4; \
load i32, ptr %s, align 4
%c = icmp samesign ult i32 %x, %y; zext i1 %c to i32 | %c = icmp ult i32 %x, %y; zext i1 %c to i32
%c = icmp ult i32 %x, %y; call void @llvm.assume(i1 %c); add i32 0, 0 | \
%c = icmp eq i32 %x, %x; call void @llvm.assume(i1 %c); add i32 0, 0
%a = zext i32 %x to i64; %b = lshr i64 %a, 1099511627776; trunc i64 %b to i32 | \
%a = zext i32 %x to i64; %b = lshr i64 %a, 63; trunc i64 %b to i32
%p = getelementptr i8, ptr %t, i64 1; %c = icmp slt ptr %t, %p; \
call void @llvm.assume(i1 %c); add i32 0, 0 | %p = getelementptr i8, ptr %t, i64 1; \
%c = icmp ult ptr %t, %p; call void @llvm.assume(i1 %c); add i32 0, 0
%p = getelementptr nusw [3 x i8], ptr %t, i64 -3074457345618258603; %i = ptrtoint ptr %p to i64; \
trunc i64 %i to i32 | %p = getelementptr nusw [3 x i8], ptr %t, i64 3074457345618258602; \
%i = ptrtoint ptr %p to i64; trunc i64 %i to i32"""

# Prints the rows of which a goal can be met, or whose result can be poison.
RUN = """
import json, sys, z3
from arithmetic import Arithmetic
from execution import Machine
from ir import Module
from memory import Slice
from state import Goals
from values import Address, Number, constant

# A text of as many bytes as there can be.
TEXT = Slice(constant((1 << 63) - 1), 1, z3.Function("t", z3.BitVecSort(64), z3.BitVecSort(8)), True)
HELPERS = '''
define i32 @same(i32 %x) {
start:
  ret i32 %x
}
define i32 @quiet_expect_failed(i32 %x) {
start:
  ret i32 %x
}
define i32 @memcmp(ptr %a, ptr %b, i64 %n) {
start:
  ret i32 poison
}
define i32 @seven(i32 %x) {
start:
  ret i32 7
}
define range(i32 0, 5) i32 @small(i32 %x) {
start:
  ret i32 %x
}
'''

def is_undefined(row):
    *before, last = row.split("; ")
    lines = "\\n".join(it if it[-1] == ":" else f"  {it}".replace(" to label", "\\n to label")
                      for it in [*before, f"%r = {last}", "ret i32 %r"])
    text = f"{HELPERS}define i32 @f(i32 %x, i32 %y, ptr %t) {{\\nstart:\\n{lines}\\n}}\\n"
    arithmetic, goals = Arithmetic(), []
    machine = Machine(Module(text), arithmetic, Goals(lambda why, it: goals.append(z3.And(it))))
    arguments = [*(Number(z3.BitVec(it, 32)) for it in "xy"), Address("t", constant(0))]
    for end in machine.run("@f", arguments, {"t": TEXT}, []):
        goals.append(z3.And([*end.conditions, end.value.poison]))
    solver = z3.Solver()
    solver.add(z3.Or(goals), *arithmetic.facts)
    return solver.check() == z3.sat

print(json.dumps([it for it in json.load(sys.stdin) if is_undefined(it)]))
"""

# Prints the terms of which the integer may be another than the number of the bits, and how many
# were read.
TERMS = """
import json, random, z3
from integers import Integers
from linear import Linear
from values import Unsupported

chance = random.Random(20261129)
number = lambda w: z3.BitVecVal(chance.getrandbits(w), w)
MADE = (
    lambda w, a, b: a + b, lambda w, a, b: a - b, lambda w, a, b: ~a, lambda w, a, b: a * number(w),
    lambda w, a, b: a & number(w), lambda w, a, b: a & (255 << chance.randrange(w)) % (1 << w),
    lambda w, a, b: z3.LShR(a, chance.randrange(w)), lambda w, a, b: a << chance.randrange(w),
    lambda w, a, b: z3.UDiv(a, number(w) | 1), lambda w, a, b: z3.URem(a, number(w) | 1),
    lambda w, a, b: z3.If(z3.ULT(a, b), a, b), lambda w, a, b: z3.If(a < b, a, b),
    lambda w, a, b: z3.Extract(w, 1, z3.ZeroExt(2, a)), lambda w, a, b: z3.Concat(
        z3.Extract(w - 1, w // 2, a), z3.Extract(w // 2 - 1, 0, b)),
    lambda w, a, b: z3.Extract(w, 1, z3.SignExt(2, a) * z3.SignExt(2, number(w))),
)

def term(w, depth):
    if depth == 0:
        return chance.choice([z3.BitVec(f"x{w}", w), z3.BitVec(f"y{w}", w), number(w)])
    return chance.choice(MADE)(w, term(w, depth - 1), term(w, depth - 1))

def is_wrong(of, it):
    integers, names = of(), [z3.BitVec(f"{name}{it.size()}", it.size()) for name in "xy"]
    n, (low, high) = integers.value(it)
    values = [(name, number(it.size())) for name in names]
    right = z3.simplify(z3.substitute(it, *values)).as_long()
    known = [z3.Int(str(name)) == value.as_long() for name, value in values]
    for name in getattr(integers, "defined", ()):
        known += integers.about(name)
    solver = z3.Solver()
    solver.add(known)
    is_met = solver.check() == z3.sat
    solver.add(n != right)
    return not is_met or solver.check() == z3.sat or not low <= right <= high

def deep(it):
    for i in range(40):
        it = z3.If(z3.Int(f"c{i}") > 0, it, z3.IntVal(i))
    return it

wrong, read = [], 0
for turn in range(300):
    it = term(chance.choice([8, 16]), chance.randrange(1, 4))
    it = z3.simplify(it) if turn % 2 else it
    for of in (Integers, Linear):
        try:
            wrong += [str(it)] if is_wrong(of, it) else []
            read += 1
        except Unsupported:
            pass
linear = Linear()
p, q = (linear.parts(deep(z3.Int(it)), (0, 1000), 7)[0] for it in "pq")
print(json.dumps([wrong + ["one quotient of two terms"] * p.eq(q), read]))
"""

# A variable whose bytes look like a constant.
VARIABLE = '@KEPT = internal global <{ [20 x i8] }> <{ [20 x i8] c" constant i8 1" }>, align 1'
CONSTANTS = """
import json, sys
from ir import Module
print(json.dumps([*Module(json.load(sys.stdin)).constants]))
"""

# Prints the types of parameters, of a slice, through which a function may store.
STORES = """
import json, z3
from arithmetic import Arithmetic
from execution import Machine
from inputs import ELEMENTS, inputs
from ir import Module
from rows.row import Case
from rows.rules import Products
from state import Goals

TEXT = '''
define i32 @f(ptr %p, i64 %n) {
start:
  store i8 1, ptr %p, align 1
  ret i32 0
}
'''

def is_right(type_):
    arithmetic, goals = Arithmetic(), []
    made = inputs(Case("", [("p", type_)], "", "", None, False, ""))
    has_room = [*made.conditions, made.variables["p_length"] > 0]
    machine = Machine(Module(TEXT), arithmetic, Goals(lambda why, it: goals.append(z3.And(it))))
    list(machine.run("@f", made.arguments, made.memory, has_room))
    solver = z3.Solver()
    solver.add(z3.Or(goals))
    return solver.check() == z3.unsat

print(json.dumps([it for it in ELEMENTS if is_right(it)]))
"""

# Prints why facts are false of arguments: those of a quotient of a slice's length, and one that is
# true of no length.
FACTS = """
import json, z3
from arithmetic import Arithmetic
from inputs import inputs
from ir import Module
from proof import Proof, Unknown
from rows.row import Case
from rows.rules import Products

case = Case("", [("p", "bytes"), ("d", "u64")], "u64", "", None, False, "")
proof = Proof(Module(""), case, None)
proof.arithmetic = Arithmetic()
proof.given = inputs(case)
length = proof.given.variables["p_length"]
proof.arithmetic.divide(length, proof.given.variables["d"])

def reason():
    try:
        proof.check_facts()
    except Unknown as error:
        return str(error).split(" at ")[0]

found = [reason()]
proof.arithmetic.facts.append(length == 11)
print(json.dumps([*found, reason()]))
"""

# Parses a text of `0.`, seven places that count, and others, of which it reads 65,536 again and
# again; and one that reads them once.
LOOP = """\
%few = icmp ule i64 %n, 9; br i1 %few, label %end, label %some; some:; \
%a = load i8, ptr %p, align 1; %other = icmp ne i8 %a, 48; \
br i1 %other, label %end, label %point; point:; %q = getelementptr i8, ptr %p, i64 1; \
%b = load i8, ptr %q, align 1; %none = icmp ne i8 %b, 46; \
br i1 %none, label %end, label %turn; turn:; %i = phi i16 [ 0, %point ], [ %next, %more ]; \
%j = zext i16 %i to i64; %k = add i64 %j, 9; %r = getelementptr i8, ptr %p, i64 %k; \
%c = load i8, ptr %r, align 1; %d = sub i8 %c, 48; %letter = icmp ugt i8 %d, 9; \
br i1 %letter, label %end, label %more; more:; %next = add i16 %i, 1; \
%l = zext i16 %next to i64; %m = add i64 %l, 9; %last = icmp uge i64 %m, %n; \
br i1 %last, label %end, label %turn; end:; ret i128 0"""
STORE = """\
%none = icmp eq i64 %n, 0; br i1 %none, label %end, label %some; some:; \
store i8 1, ptr %p, align 1; br label %end; end:; ret i128 18446744073709551616"""
ZERO = "store i8 48, ptr %p, align 1; ret i64 1"
# Functions that parse or print, and why they are not proved: of all texts or values, of one that is
# known, and of none, which the facts exclude.
WRONG = [
    ("parse all", LOOP, "a turn of a loop does not go on"),
    ("parse all", LOOP.replace("i16", "i64"), "no error for another text"),
    ("parse all", STORE, "undefined behavior: a store to a constant"),
    ("parse one", STORE, "undefined behavior: a store to a constant"),
    ("parse none", "ret i128 0", "no text is known for which it returns"),
    ("print all", ZERO, "the sign is wrong"),
    ("print all", ZERO.replace("i64 1", "i64 poison"), "a length that may be poison"),
    ("print none", ZERO, "no value is known for which it returns"),
]
REASONS = """
import json, parsing, printing, random, sys, z3
from decimals import expected
from ir import Module
from proof import Refused, Unknown
from values import Unsupported

parsing.run_library = lambda _, case, given: (expected(*given.values()), {})

def proof_of(kind, text):
    lines = "\\n".join(it if it[-1] == ":" else f"  {it}" for it in text.split("; "))
    of = printing if kind == "print" else parsing
    row = next(it for it in of.ROWS if it.f == 6)
    if kind == "print":
        head, row = "i64 @f(i32 %x, ptr %p)", row._replace(symbol="f")
    else:
        head, row = "i128 @f(ptr %p, i64 %n)", row._replace(case=row.case._replace(symbol="f"))
    module = Module(f"define {head} {{\\nstart:\\n{lines}\\n}}\\n")
    return (of.Printing if kind == "print" else of.Parsing)(module, row, None)

def reason(way, text):
    kind, of = way.split()
    proof = proof_of(kind, text)
    proof.search = lambda: None
    if of == "none":
        proof.arithmetic.facts.append(z3.BoolVal(False))
    try:
        proof.judge(random.Random(1), True) if of == "one" else proof.run()
    except (Refused, Unknown, Unsupported) as error:
        return str(error).split(": the solver")[0]

print(json.dumps([reason(*it) for it in json.load(sys.stdin)]))
"""

# Prints whether Z3 refutes a goal, by what another solver answers.
ANSWERED = """
import json, sys, z3
import state

def refutes(answer):
    state.SECOND[:] = ["echo", answer]
    try:
        return state.solved([z3.BoolVal(False)]) == z3.unsat
    except state.Disagreement:
        return False

print(json.dumps([refutes(it) for it in json.load(sys.stdin)] + [state.ANSWERS]))
"""

# Prints what the IR of an expression returns, in the build that is proved.
BUILT = """
import json, sys, tempfile
from build import build
from pathlib import Path
wrapper = f'#[unsafe(no_mangle)] pub extern "C" fn asked() -> bool {{ {json.load(sys.stdin)} }}'
with tempfile.TemporaryDirectory() as room:
    ir = build(Path("../.."), Path(room), wrapper, False).ir
print(json.dumps(ir.split("@asked()")[1].split("}")[0].split("ret ")[1].strip()))
"""


ASKED = """
import json, sys
from header import asked
print(json.dumps(sorted(asked(json.load(sys.stdin)))))
"""


def told(script: str, given: object = None) -> Any:
    """Returns what a script with the files of the second proof prints."""
    command = ["/usr/bin/python3", "-B", "-c", script]
    text = json.dumps(given)
    done = subprocess.run(command, cwd=TOOL, input=text, capture_output=True, text=True)
    if "No module named 'z3'" in done.stderr:
        raise unittest.SkipTest("/usr/bin/python3 has no z3")
    if done.returncode:
        raise AssertionError(done.stderr)
    return json.loads(done.stdout)


class Reader(unittest.TestCase):
    def test_undefined_and_controls(self) -> None:
        rows = [tuple(line.split(" | ")) for line in ROWS.splitlines()]
        self.assertEqual(told(RUN, [it for row in rows for it in row]), [row for row, _ in rows])

    def test_integers_are_the_numbers_of_bits(self) -> None:
        wrong, read = told(TERMS)
        self.assertEqual(wrong, [])
        self.assertGreater(read, 400)

    def test_a_function_in_assembly_is_refused(self) -> None:
        with self.assertRaisesRegex(AssertionError, "functions in assembly"):
            told(CONSTANTS, 'module asm ".globl memcmp"')

    def test_a_variable_is_no_constant(self) -> None:
        self.assertEqual(told(CONSTANTS, VARIABLE), [])
        self.assertEqual(told(CONSTANTS, VARIABLE.replace("global", "constant")), ["@KEPT"])

    def test_only_a_room_is_stored_to(self) -> None:
        self.assertEqual(told(STORES), ["room"])

    def test_why_parsing_and_printing_are_not_proved(self) -> None:
        rows = [(way, text) for way, text, _ in WRONG]
        for row, found in zip(WRONG, told(REASONS, rows), strict=True):
            with self.subTest(row[:2]):
                self.assertEqual(found, row[2])

    def test_facts_are_of_known_lengths(self) -> None:
        self.assertEqual(told(FACTS), [None, "a fact is false"])

    def test_another_solver_is_heard(self) -> None:
        *refuted, counts = told(ANSWERED, ["unsat", "unknown", "", "sat", "(error no)"])
        self.assertEqual(refuted, [True, True, True, False, False])
        self.assertEqual(counts, {"unsat": 1, "unknown": 1, "": 1})

    def test_code_is_that_of_users(self) -> None:
        """It may ask whether panics unwind, and for the name of its crate."""
        manifest = tomllib.loads((TOOL / "../../Cargo.toml").read_text())
        name = manifest["package"]["name"].replace("-", "_")
        named = f'module_path!().starts_with("{name}::")'
        self.assertEqual(told(BUILT, f'{named} && cfg!(panic = "unwind")'), "i1 true")
        with self.assertRaisesRegex(AssertionError, "the Rust asks for CARGO"):
            told(BUILT, 'option_env!("CARGO").is_some()')

    def test_conditions_of_the_header_are_known(self) -> None:
        text = (TOOL / "../../c/include/font_types.h").read_text()
        self.assertEqual(told(ASKED, text), [])
        self.assertEqual(told(ASKED, f"{text}#if 1 /* */ \\\n && defined NDEBUG\n"), ["NDEBUG"])
