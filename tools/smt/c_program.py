"""The code of all rows of the C header, and two programs of it."""

import re
from pathlib import Path

from rows import c_views as c_views
from rows.c_numbers import EXPORTS
from rows.c_row import ROWS as ROWS
from rows.c_row import in_c
from rows.cases import Case

HEAD = '#include "font_types.h"\n'
FUNCTION = "{0} {1}({2}) {{ {3}return {4}; }}\n"
WRAPPER = (
    FUNCTION
    + """void call_{1}(const uint64_t *numbers, uint64_t *result) {{
    result[0] = (uint64_t){1}({5});
    result[1] = 0;
}}
"""
)


POINTERS = {"bytes": "const uint8_t *", "room": "uint8_t *", "coordinates": "const int16_t *"}


def wrapper(case: Case) -> str:
    """Returns two functions of C: one of the arguments, which is proved, and one of a row of
    numbers, by which Python or a program calls it."""
    parameters, given, view = [], [], ""
    for name, type_ in case.parameters:
        if type_ in POINTERS:
            pointer = POINTERS[type_]
            parameters += [f"{pointer}{name}", f"size_t {name}_length"]
            given += [f"({pointer})(uintptr_t)", "(size_t)"]
            kind = "fty_span span" if type_ == "room" else "fty_view view"
            if type_ != "coordinates":
                view = view or f"const {kind} = {{{name}, {name}_length}}; "
        else:
            parameters.append(f"{in_c(type_)} {name}")
            given.append(f"({in_c(type_)})")
    numbers = ", ".join(f"{it}numbers[{2 * i}]" for i, it in enumerate(given))
    returns = "_Bool" if case.returns == "bool" else in_c(case.returns)
    return WRAPPER.format(returns, case.symbol, ", ".join(parameters), view, case.body, numbers)


CODE = HEAD + EXPORTS + "".join(map(wrapper, ROWS))

TABLE = """
/* What is passed: `s` is bytes, `z` a size, each other is a number. */
static const struct {
    const char *name, *given;
    void (*call)(const uint64_t *, uint64_t *);
} rows[] = {
%s};
"""


def program() -> str:
    def given(case: Case) -> str:
        letters = {"bytes": "s", "room": "s", "size": "z", "coordinates": "c"}
        return "".join(letters.get(it, "n") for _, it in case.parameters)

    table = (f'    {{"{it.name}", "{given(it)}", call_{it.symbol}}},\n' for it in ROWS)
    return CODE + TABLE % "".join(table) + Path(__file__).with_name("rows.c").read_text()


# The same row in a constant expression and when the program runs, of arguments that `k` gives.
CONSTANT = """constexpr {0}constexpr uint64_t fold_{1}() {{
    uint64_t sum = 0;
    for (uint64_t k = 0; k < 64; k++) {{
        uint8_t bytes[9] = {{1, 2, 253, 4, 5, 6, 7, 8, 9}}, *const text = bytes;
        const int16_t coordinates[] = {{-500, 1000}};
        sum = sum * 31 + static_cast<uint64_t>({1}({2}));
        for (const uint8_t byte : bytes)
            sum = sum * 31 + byte;
    }}
    return sum;
}}
constexpr uint64_t constant_{1} = fold_{1}();
"""
# What no constant expression has: a pointer as an integer, or as one to another type.
CASTS = re.compile(r"uintptr_t|\*\)&")


def constants(run_only: set[str]) -> tuple[str, set[str]]:
    """Returns a program of C++14 whose status is 0 if rows are the same when it runs as in constant
    expressions, and the functions of these rows: none of those that only run."""
    code, tests, called = HEAD + "#define _Bool bool\n", [], set()
    for it in ROWS:
        names = set(re.findall(r"fty_\w+", it.body))
        if names & run_only or CASTS.search(it.body):
            continue
        # C++ leaves an enum undefined that has more bits than its values.
        number = "k / 4" if "(fty_status)" in it.body else "k % 3 ? k / 3 : ~k / (k + 1)"
        given = (
            "coordinates, k % 3"
            if type_ == "coordinates"
            else "text, k % 10"
            if type_ in POINTERS
            else f"({in_c(type_)})({number})"
            for _, type_ in it.parameters
        )
        function = re.sub(r"(\w+_t it);", r"\1 = 0;", wrapper(it).split("void call_")[0])
        code += CONSTANT.format(function, it.symbol, ", ".join(given))
        tests.append(f"fold_{it.symbol}() != constant_{it.symbol}")
        called |= names
    return f"{code}int main() {{ return {' || '.join(tests)}; }}\n", called
