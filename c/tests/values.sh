# The values of each call, with sanitizers, over the archive and over the shared library; what is
# loaded; and FreeType's values. A table with one value that is wrong has to fail, and so have a row
# that is, a header that stores when it fails, and a read out of bounds.

mkdir "$work/storing"
sed '/fty_read_/,/^}/s/return FTY_OUT_OF_BOUNDS;/return *value = 0, FTY_OUT_OF_BOUNDS;/' \
    include/font_types.h >"$work/storing/font_types.h"
cat >"$work/beyond.c" <<'C'
static const char bytes[1] = {0};
int main(int count, char **words) { return words == 0 ? 1 : bytes[count]; }
C
for compiler in "${compilers[@]}"; do
    read -r c cpp <<<"$compiler"
    command -v "$c" >/dev/null && command -v "$cpp" >/dev/null ||
        { echo "left out: checks by $c and $cpp, which needs them"; continue; }
    $c -std=c99 $strict "$work/beyond.c" -o "$work/beyond"
    fails "$work/beyond"
    for library in "$archive" "$shared"; do
        $c -std=c99 $strict tests/table.c $library -o "$work/table"
        run "$work/table"
        $cpp -std=c++11 $strict -x c++ tests/table.c -x none $library -o "$work/table"
        run "$work/table"
    done
    fails "$work/table" wrong
    has "$(<"$work/log")" ' 1 failed'
    $cpp -std=c++20 $strict -x c++ tests/header.c -o "$work/header"
    run "$work/header"
    $c -std=c99 $strict tests/header.c -o "$work/header"
    run "$work/header"
    $c -std=c99 "-I$work/storing" $strict tests/header.c -o "$work/header"
    fails "$work/header"
    fails grep ' 0 failed' "$work/log"
done

# If valgrind is installed, a trace of what is loaded and stored: what a call writes may be
# uninitialized, because nothing is loaded from there.
if command -v valgrind >/dev/null; then
    cc -std=c11 -O1 -Wall -Wextra -Werror -Iinclude tests/stores.c "$archive" -o "$work/stores"
    # Whether nothing was loaded from the places to which a program stores.
    only_stores() {
        digits=$(valgrind --tool=lackey --trace-mem=yes --log-file="$work/trace" "$@")
        (($(grep -c "^ S 0*$digits[0-9a-f]\{5\}," "$work/trace") > 300))
        fails grep "^ [LM] 0*$digits[0-9a-f]\{5\}," "$work/trace"
    }
    only_stores "$work/stores"
    fails only_stores "$work/stores" load
else
    echo "left out: the trace by valgrind, which needs valgrind"
fi

# If FreeType is installed, its functions against those that README.md names for them.
links_freetype() {
    pkg-config --exists freetype2 &&
        cc -x c - $(pkg-config --libs freetype2) -o "$work/linked" <<<'int main(void) {}'
}
if ! fails links_freetype; then
    # What the page names for a function of FreeType.
    named() { sed -n "s/^| \`$1\` | \`\([^\`]*\)\` | .*/\1/p" README.md; }
    echo "$(named 'FT_Matrix_Multiply(&a, &b)');" >"$work/multiply.inc"
    echo "return $(named 'FT_Vector_Transform(&v, &m)');" >"$work/transform.inc"
    named FT_Outline_Transform >"$work/outline.inc"
    # Other rows name one function or more, each of which is compared in a line.
    rows=$(grep -E '^\| `FT_(Mul|Div|Floor|PIX)[A-Za-z]*`?.*fty_' README.md | awk -F'|' '{
        count = split($2, theirs, "`")
        split($3, ours, "`")
        for (i = 2; i <= count; i += 2)
            print ours[i] "(.*" theirs[i] "("
    }')
    is "$(while read -r row; do grep -o "$row" tests/freetype.c | head -n 1; done <<<"$rows" | wc -l)" \
        "$(wc -l <<<"$rows")" 'compared with FreeType' 'in README.md'
    cc -O2 -Iinclude "-I$work" $(pkg-config --cflags freetype2) tests/freetype.c "$archive" \
        $(pkg-config --libs freetype2) -o "$work/freetype"
    run "$work/freetype"
    fails "$work/freetype" wrong
else
    echo "left out: the comparison with FreeType, which needs libfreetype-dev"
fi
