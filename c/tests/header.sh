# The header: its names, what it promises beyond values, its proof, and that each caller can include it.

# The names that it declares, the libraries export and the table calls; and those that it has in C.
# Two are both: table.c declares these exports itself.
text=$(c++ -std=c++11 -x c++ -E -P include/font_types.h | tr '\n' ' ')
typed=$(sed 's/\*fty_/fty_/g' <<<"$text" |
    grep -oE '[a-z0-9_]+ fty_[a-z0-9_]+\([^()]*\) noexcept *[;{]' | grep -v ' fty_api_.*{$')
functions=$(sed 's/^[^ ]* //' <<<"$typed")
names() { grep -o '\bfty_[a-z0-9_]*' | sort -u; }
declared=$(grep ';$' <<<"$functions" | sed 's/(.*//' | names)
inline=$(grep '{$' <<<"$functions" | sed 's/(.*//' | names)
both=$'fty_f26dot6_mul\nfty_fixed_mul'
is "$(comm -12 <(echo "$both") <(echo "$inline"))" "$both"
exports=$(sort -u <<<"$declared"$'\n'"$both")
declares='in font_types.h'
archived=$(nm -g --defined-only "$archive" 2>/dev/null | sed -n 's/^[0-9a-f]* . //p' |
    grep -vx rust_eh_personality | sort -u)
is "$archived" "$exports" 'in the archive' "$declares"
# Those that 1.n adds have the symbol version 1.n.
node="FONT_TYPES_$version\(\.[0-9]*\)\?\$"
exported=$(nm -D --defined-only "$root/lib/libfont_types.so" | grep -v " A $node")
fails grep -v "@@$node" <<<"$exported"
is "$(names <<<"$exported")" "$exports" 'in the library' "$declares"
cc -std=c99 -Iinclude -c tests/table.c -o "$work/table.o"
is "$(nm -u "$work/table.o" | names)" "$exports" 'called by table.c' "$declares"
# The head of the header lists each for callers in C, and font_types.map the exports.
listed() {
    eval "printf '%s\n' $(sed -n "/^ \* $1/,/^ \* $2/p" include/font_types.h |
        grep -o 'fty_[a-z0-9_{},]*' | tr '\n' ' ')" | sort -u
}
calling=$(printf '%s\n' fty_{fixed,f2dot14,f26dot6}_{parse,format} \
    fty_{format,format_padded,tag_format,delta_sum,delta_set_sum} | sort)
public=$(grep -v '^fty_abi_' <<<"$declared")
is "$(listed 'In C, in' 'Calls of')" "$(comm -23 <(echo "$inline") <(echo "$calling"))" \
    'at the head, "In C"' "$declares"
is "$(listed 'Calls of' 'Languages')" "$(sort <<<"$public"$'\n'"$calling")" \
    'at the head, "Calls"' "$declares"
is "$(names <font_types.map)" "$exports" 'in font_types.map' "$declares"
# Their types are those of the Rust that is compiled. An enum is returned as 32 bits.
in_c=$(grep -E ";\$|($(paste -sd '|' <<<"$both"))\(" <<<"$typed" | sed -E '
    s/ noexcept *[;{]//; s/\(void\)/()/; s/ *\*[a-z_]+/*/g; s/ [a-z_]+([,)])/\1/g
    s/\bchar\b/uint8_t/g; s/\bfty_status\b/uint32_t/; s/([(,]) +/\1/g' | sort)
in_rust=$(cat src/generated/font_c/*.rs | tr -d '\n' | grep -oE '"C" fn fty_[^{]*' | sed -E '
    s/"C" fn (.*)\) -> (\w+) *$/\2 \1)/; s/"C" fn /void /; s/[a-z_]+: //g; s/,? *\) *$/)/
    s/\*const (\w+)/const \1*/g; s/[*&]mut (\w+)/\1*/g; s/&(\w+)/const \1*/g
    s/Font(Fraction|Matrix|Pad|Point)/fty_\L\1/g; s/\bu(8|16|32|64)\b/uint\1_t/g
    s/\bi(8|16|32|64)\b/int\1_t/g; s/usize/size_t/g; s/([(,]) +/\1/g' | sort)
is "$in_c" "$in_rust" "$declares" 'in the Rust'

# Each function obeys the rules of names at the head.
broken=$(grep -oE '(const )?[a-z0-9_]+ \*?fty_[a-z0-9_]+\([^()]*\) noexcept *[;{]' <<<"$text" |
    grep -v '\bfty_api_' | sed -E 's/ *noexcept.*//; s/ +/ /g; s/ ?([(),*]) ?/\1/g; s/\*/ */g' |
    awk -f tests/names.awk)
is "$broken" '' 'breaks a rule' 'at the head'

# C++14 evaluates all that neither copies nor calls.
constants=$(c++ -std=c++14 -x c++ -E -P include/font_types.h | tr '\n' ' ' |
    grep -oE '\bconstexpr [^;{}]*\) noexcept *\{' | grep -oE '\bfty_[a-z0-9_]+\(' |
    grep -v '^fty_api_' | names)
run_only=$(echo "$calling"$'\n'fty_{put,write}_bytes | tr ' ' '\n' | sort)
is "$constants" "$(comm -23 <(echo "$inline") <(echo "$run_only"))" constexpr 'in C'

# Each function is noexcept, and each but fty_matrix_transform_points and fty_poke_* warns of a
# result that is ignored.
is "$(grep -o '\bfty_[a-z0-9_]*(' <<<"$text" | grep -v '^fty_api_' | names)" \
    "$(sort -u <<<"$declared"$'\n'"$inline")" "$declares" noexcept
# Calls of functions, each by a function of the same parameters: as they are or, wrong, with each
# two arguments of different types exchanged.
calls() {
    echo '#include "font_types.h"'
    sed -E 's/\(void\)/()/; s/^([^ ]*) (.*)\((.*)\).*/\1,\2,\3/' |
        awk -F', *' -v form="$1" -v wrong="${2-}" '
        function call(i, j, given, all) {
            for (k = 3; k <= NF; k++) {
                given = given (k > 3 ? ", " : "") name[k == i ? j : k == j ? i : k]
                all = all (k > 3 ? ", " : "") $k
            }
            printf form "\n", $1, ++n, all, $2 "(" given ")"
        } {
            for (i = 3; i <= NF; i++) {
                type[i] = name[i] = $i
                sub(/[a-z_]+$/, "", type[i])
                sub(/.*[ *]/, "", name[i])
                for (j = 3; wrong && j < i; j++)
                    if (type[i] != type[j])
                        call(i, j)
            }
            if (!wrong)
                call()
        }'
}
calls 'void /* %s */ f%d(%s) { %s; }' <<<"$typed" >"$work/calls.c"
cc -Iinclude -c -o "$work/calls.o" "$work/calls.c" 2>"$work/log"
is "$(grep -c 'unused-result' "$work/log")" "$(($(wc -l <<<"$typed") - 7))"
calls 'void /* %s */ f%d(%s) { static_assert(noexcept(%s), ""); }' <<<"$typed" >"$work/calls.cpp"
c++ -std=c++11 -w -Iinclude -fsyntax-only "$work/calls.cpp"

# With -Werror alone, compilers refuse each exchange, and no call as it is. Of one type are two
# integers only where they are of one kind, and where the result is the same in either order.
of_two=$(grep -E '((u?int[0-9]+|size)_t) [a-z_]+,.* \1 [a-z_]+[,)]' <<<"$functions" | sed 's/(.*//')
of_one_kind=$(printf '%s\n' fty_items fty_mul_div_i64 fty_{add,sub}_i32 fty_fixed_{mul,div,mul_div} \
    fty_f26dot6_{mul,div} | sort)
is "$(grep -v '^fty_abi_' <<<"$of_two" | sort)" "$of_one_kind" 'takes two integers' 'of one kind'
given=$(grep ', ' <<<"$typed" | grep -v ' fty_abi_')
calls '%s f%d(%s) { return %s; }' <<<"$given" >"$work/right.c"
calls '%s f%d(%s) { return %s; }' wrong <<<"$given" >"$work/wrong.c"
# They refuse a view for a span, a span for a view, and each of them for a pointer to it.
for other in 's/ f([0-9]+\(fty_)span/ g\1view/p' 's/ f([0-9]+\(fty_)view/ g\1span/p' \
    's/ f([0-9]+\(fty_(view|span)) \*/ h\1 /p'; do
    sed -nE "$other" "$work/right.c" >>"$work/wrong.c"
done
[[ -n ${BUILT-} ]] || for compiler in 'gcc -std=c99' 'gcc -std=c11' 'clang -ferror-limit=0' \
    'clang-22 -ferror-limit=0' 'g++ -x c++' 'clang++ -ferror-limit=0 -x c++'; do
    command -v "${compiler%% *}" >/dev/null ||
        { echo "left out: calls by $compiler, which needs ${compiler%% *}"; continue; }
    $compiler -Werror -Iinclude -fsyntax-only "$work/right.c"
    fails $compiler -Werror -Iinclude -fsyntax-only "$work/wrong.c"
    refused=$(grep -oE 'wrong\.c:[0-9]+:[0-9]+: error' "$work/log" | cut -d : -f 2 | sort -nu)
    is "$refused" "$(seq 2 "$(wc -l <"$work/wrong.c")")" "refused by $compiler" 'in wrong.c'
done

# A guard, and FTY_TAG of any expressions.
c++ -std=c++11 -Iinclude -x c++ -fsyntax-only - <<'CPP'
#include "font_types.h"
#include "font_types.h"
static_assert(FTY_TAG(true ? 1 : 2, 3, 4, 5) == 0x01030405, "");
static_assert(FTY_TAG(-1, -2, -3, -4) == 0xFFFEFDFC && FTY_TAG(1, 2, 3, 4) / 2 == 0x00810182, "");
CPP

# What each returns and writes for every argument, and that nothing is undefined.
solver=
for python in python3 /usr/bin/python3; do
    [[ -n $solver ]] || ! "$python" -c "import z3" 2>/dev/null || solver=$python
done
if [[ -z ${BUILT-} && -n $solver ]] && command -v clang-22 >/dev/null; then
    proves() { "$solver" "$tools/smt/header.py" --builds "$1" include | sed '/ proved$/d'; }
    export solver tools
    export -f proves
    "$solver" "$tools/smt/header.py" --list | xargs -P "$(nproc)" -I{} bash -o pipefail -c 'proves {}'
    # In constant expressions, each returns and writes the same.
    "$solver" "$tools/smt/header.py" --constants "$work/constants.cpp" include
    for compiler in g++ clang++; do
        if command -v "$compiler" >/dev/null; then
            "$compiler" -std=gnu++14 -w -Iinclude "$work/constants.cpp" -o "$work/constants"
            "$work/constants"
        fi
    done
    # What other compilers make of it returns and writes the same as what is proved, of the random
    # arguments of each row.
    "$solver" "$tools/smt/header.py" --program "$work/rows.c" include
    answers() {
        "${@:2}" -std=gnu11 -w -Iinclude "$work/rows.c" -o "$work/rows"
        "$work/rows" 10000 "$1"
    }
    # Of code that is not optimized, a sanitizer also sees a read of which nothing comes.
    sanitized='-O0 -fsanitize=address,undefined -fno-sanitize-recover=all'
    for bits in 64 32; do
        answers "$bits" clang-22 -O2 >"$work/rows.proved"
        for compiler in gcc clang; do
            if fails $compiler -m$bits $sanitized -Iinclude tests/header.c -o "$work/rows"; then
                needs="$compiler$([[ $bits == 64 ]] || echo ' and gcc-multilib')"
                echo "left out: the header for $bits bits by $compiler, which needs $needs"
                continue
            fi
            for options in -O3 "$sanitized" {-O2,"$sanitized"}' -U__BYTE_ORDER__'; do
                # shellcheck disable=SC2086
                diff <(answers "$bits" "$compiler" -m$bits $options) "$work/rows.proved"
            done
        done
    done
elif [[ -z ${BUILT-} ]]; then
    echo "left out: the proof of the header, which needs clang-22 and python3-z3"
fi

# Enums may be as short as those of ARM without an operating system.
cc -std=c11 -fshort-enums $strict tests/table.c "$archive" -o "$work/table"
run "$work/table"

# It compiles with a caller's warnings, and for 32 bits; and what is in C links without the library.
echo '#include "font_types.h"' >"$work/alone.c"
cat "$work/alone.c" - >"$work/linked.c" <<'C'
int main(void) { return fty_fixed_mul(fty_u16(fty_absent(), 0), 7); }
C
for compiler in gcc clang; do
    if command -v "$compiler" >/dev/null; then
        $compiler -O0 -Iinclude "$work/linked.c" -o "$work/linked"
        "$work/linked"
        $compiler -std=c99 $warnings -Wdeclaration-after-statement -Iinclude -fsyntax-only \
            "$work/alone.c"
        $compiler -std=c++11 $warnings -Wold-style-cast -Wzero-as-null-pointer-constant \
            -Iinclude -fsyntax-only -x c++ "$work/alone.c"
    fi
done
if cc -m32 -E -x c /dev/null >/dev/null 2>&1; then
    cc -std=c11 $warnings -m32 -ffreestanding -Iinclude -fsyntax-only "$work/alone.c"
else
    echo "left out: the header for 32 bits, which needs gcc-multilib"
fi

# Clang reads it for Windows and macOS.
if command -v clang >/dev/null; then
    for target in {x86_64,aarch64}-pc-windows-msvc x86_64-w64-windows-gnu arm64-apple-macos; do
        for language in 'c99 -x c' 'c++11 -nostdinc++ -x c++'; do
            # shellcheck disable=SC2086
            clang -std=$language "--target=$target" $warnings -ffreestanding -Iinclude \
                -fsyntax-only "$work/alone.c"
        done
    done
fi

# A size_t or an int of 16 bits is refused.
refuses_16_bits() {
    fails "$@" -Iinclude -fsyntax-only "$work/alone.c"
    grep 'needs a size_t and an int of at least 32 bits' "$work/log" >/dev/null
}
refuses_16_bits cc -ffreestanding -w -D__SIZE_MAX__=0xFFFF
refuses_16_bits cc -ffreestanding -w -D__INT_MAX__=0x7FFF
! command -v avr-gcc >/dev/null || refuses_16_bits avr-gcc
