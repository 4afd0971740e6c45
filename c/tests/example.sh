# The examples: README.md shows them, cmake builds one, and Python runs one.
is "$(sed -n '/^```c$/,/^```$/p' README.md | sed '/^```/d')" \
    "$(sed -n '/begin/,/end/s/^    //p' examples/example.c | grep -v '^/\*')"
cc -std=c99 $strict examples/example.c "$archive" -o "$work/example"
is "$("$work/example")" "$shown"
c++ -std=c++11 $strict examples/example.cpp "$archive" -o "$work/example"
is "$("$work/example")" $'2.25 -0.375 0 120 8\n1e3: not a decimal number'
{
    echo '#include "font_types.h"'
    lines cpp 'Inside your own reader'
    cat <<'CPP'
int main() {
    const uint8_t bytes[] = {0, 1, 0, 0, 7, 0xFF, 0xFE, 0x12, 0x34, 9};
    Buffer it(bytes, sizeof bytes);
    struct { uint32_t a; uint8_t b; int16_t c; uint16_t d; } of = {};
    return it.ReadU32(&of.a) && of.a == 0x10000 && it.ReadU8(&of.b) && of.b == 7
           && it.ReadS16(&of.c) && of.c == -2 && it.ReadU16(&of.d) && !it.ReadU16(&of.d)
           && of.d == 0x1234 && !it.Skip(2) && it.Remaining() == 1 && it.Skip(1) ? 0 : 1;
}
CPP
} >"$work/buffer.cpp"
c++ -std=c++11 $strict "$work/buffer.cpp" -o "$work/buffer"
"$work/buffer"
if command -v python3 >/dev/null; then
    is "$(LD_LIBRARY_PATH=$root/lib python3 -c "$(lines python 'From other languages')")" 1.5
fi
if command -v cmake >/dev/null; then
    mkdir "$work/cmake"
    {
        echo 'cmake_minimum_required(VERSION 3.10)'
        echo 'project(reader C)'
        echo 'add_executable(reader ../c/examples/example.c)'
        lines cmake 'Build and link'
    } >"$work/cmake/CMakeLists.txt"
    with_cmake=("${empty[@]}" CC="${CC:-cc}" cmake "-DCMAKE_PREFIX_PATH=$root" -S "$work/cmake")
    "${with_cmake[@]}" -B "$work/cmake/build" >"$work/log"
    cmake --build "$work/cmake/build" >"$work/log"
    is "$("${empty[@]}" "$work/cmake/build/reader")" "$shown"
    # Another version is not found.
    sed -Ei 's/font_types [0-9.]+ /font_types 0.6 /' "$work/cmake/CMakeLists.txt"
    fails "${with_cmake[@]}" -B "$work/cmake/other"
    grep 'font_types-config.cmake, version: ' "$work/log" >/dev/null
else
    echo "left out: what cmake finds and builds, which needs cmake"
fi
