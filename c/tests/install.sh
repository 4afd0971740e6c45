# What is installed, by the Makefile's variables, and which versions a process can load.

# What is staged for a package: its folders, below a prefix that is a link; modes and links; and
# files for pkg-config and cmake that do not name DESTDIR.
mkdir "$work/real"
ln -s real "$work/link"
(umask 077 && make -s install DESTDIR="$work/stage" PREFIX="$work/link" \
    LIBDIR="$work/link/lib/x" INCLUDEDIR="$work/inc" CARGO=false)
found=$(cd "$work/stage$work" && find . \( -type f -o -type l \) -printf '%P %m %l\n' | sort)
is "$found" "inc/font_types.h 644 
link/lib/x/cmake/font_types/font_types-config-version.cmake 644 
link/lib/x/cmake/font_types/font_types-config.cmake 644 
link/lib/x/libfont_types.a 644 
link/lib/x/libfont_types.so 777 libfont_types.so.$version
link/lib/x/libfont_types.so.$version 777 libfont_types.so.$full
link/lib/x/libfont_types.so.$full 644 
link/lib/x/pkgconfig/font_types.pc 644 "
staged=$work/stage$work/link/lib/x/pkgconfig
is "$(sed 3q "$staged/font_types.pc")" \
    "prefix=$work/link"$'\nlibdir=${prefix}/lib/x\n'"includedir=$work/inc"
has "$(PKG_CONFIG_PATH=$staged pkg-config --cflags --libs font_types)" \
    "-I$work/inc -L$work/link/lib/x -lfont_types"
is "$(sed 3q "$PKG_CONFIG_PATH/font_types.pc")" \
    "prefix=$root"$'\nlibdir=${prefix}/lib\nincludedir=${prefix}/include'

# Folders, of the environment, with letters that sed replaces and pkg-config and cmake quote; and
# another version.
odd="$work/a&b|c d\\e"
PREFIX="$odd" INCLUDEDIR="$odd/inc" make -s install
is "$(sed 2q "$odd/lib/pkgconfig/font_types.pc")" "prefix=$odd"$'\nlibdir=${prefix}/lib'
eval "flags=($(PKG_CONFIG_PATH="$odd/lib/pkgconfig" pkg-config --cflags --libs font_types))"
is "${flags[0]} ${flags[1]}" "-I$odd/inc -L$odd/lib"
has "$(<"$odd/lib/cmake/font_types/font_types-config.cmake")" ' [[../../../inc]] '
has "$(<"$staged/../cmake/font_types/font_types-config.cmake")" " [[$work/inc]] "
sed -i.kept 's/^version = .*/version = "9.8.7"/' Cargo.toml
LIBDIR='/a&b|c' make -s install DESTDIR="$work/next" PREFIX=/usr
mv Cargo.toml.kept Cargo.toml
next="$work/next/a&b|c"
is "$(readlink -e "$next/libfont_types.so.9")" "$next/libfont_types.so.9.8.7"
is "$(grep 'libdir=\|Version' "$next/pkgconfig/font_types.pc")" \
    $'libdir=/a&b|c\nVersion: 9.8.7'
# Asked for a version from 1.0 on, CMake takes it and later ones with its first number.
if command -v cmake >/dev/null; then
    for asked in '9 TRUE' '9.7 TRUE' '9.8 TRUE' '9.8.7 TRUE' '9.8.8 ' '9.9 ' '8 ' '10 ' '0.9 '; do
        read -r asked answer <<<"$asked"
        IFS=. read -r major _ <<<"$asked"
        {
            echo "set(PACKAGE_FIND_VERSION $asked)"
            echo "set(PACKAGE_FIND_VERSION_MAJOR $major)"
            cat "$next/cmake/font_types/font_types-config-version.cmake"
            echo 'message("[${PACKAGE_VERSION_COMPATIBLE}]")'
        } >"$work/asked.cmake"
        is "$(cmake -P "$work/asked.cmake" 2>&1)" "[$answer]" "$asked of 9.8.7"
    done
fi

# A tree that is moved after its install, from where no folder is left: cmake finds it, by a link
# too, and links with either library.
if command -v cmake >/dev/null; then
    make -s install DESTDIR="$work/package" PREFIX=/opt/types
    mv "$work/package/opt/types" "$work/moved tree"
    ln -s "moved tree/lib" "$work/linked tree"
    mkdir "$work/both"
    cat >"$work/both/CMakeLists.txt" <<'CMAKE'
cmake_minimum_required(VERSION 3.10)
project(both C)
find_package(font_types CONFIG REQUIRED)
add_executable(shared ../c/examples/example.c)
target_link_libraries(shared PRIVATE font_types::font_types)
add_executable(static ../c/examples/example.c)
target_link_libraries(static PRIVATE font_types::font_types_static)
CMAKE
    for found in "CMAKE_PREFIX_PATH=$work/moved tree" \
        "font_types_DIR=$work/linked tree/cmake/font_types"; do
        rm -rf "$work/both/build"
        "${empty[@]}" cmake "-D$found" -S "$work/both" -B "$work/both/build" >"$work/log"
        cmake --build "$work/both/build" >"$work/log"
        has "$(ldd "$work/both/build/shared")" " $work/moved tree/lib/libfont_types.so"
        fails grep libfont_types <(ldd "$work/both/build/static")
        for library in shared static; do is "$("$work/both/build/$library")" "$shown"; done
    done
fi

# The tools that variables name, and the folders that are removed.
commands=$(CARGO=a-cargo CARGOFLAGS=--a-flag CC=a-cc LDFLAGS=--b-flag AR=an-ar BUILD=a-folder \
    make -n)
for part in 'a-cargo build --release --target-dir "a-folder" --a-flag' 'a-cc -shared' \
    '--b-flag "a-folder/libraries"' 'an-ar x' 'an-ar t' 'an-ar rcs'; do
    has "$commands" "$part"
done
is "$(make -n clean)" 'rm -rf "target" shared static'
is "$(make -n check CC=a-cc CXX=a-c++ CARGO=a-cargo | tail -n 1)" \
    'BUILT="$(realpath -- "target")" CARGO="a-cargo" CC="a-cc" CXX="a-c++" ./check'
fails make check BUILD="$work/none"
has "$(<"$work/log")" 'run make first'

# Uninstall leaves no file but those of others. Two jobs do not install what is not built yet.
mkdir -p "$work/dest/usr/include" "$work/dest/usr/lib/pkgconfig"
touch "$work"/dest/usr/{include/other.h,lib/libother.a,lib/pkgconfig/other.pc}
ln -s "$PWD/target" "$work/a build"
"${empty[@]}" make -s -j2 all install BUILD="$work/a build" CARGOFLAGS=--quiet \
    DESTDIR="$work/dest" PREFIX=/usr
make -s uninstall DESTDIR="$work/dest" PREFIX=/usr
found=$(find "$work/dest" ! -type d -printf '%f\n' | sort | tr '\n' ' ')
is "$found" 'libother.a other.h other.pc '

# Errors that write nothing: a folder that is empty, not absolute, begins with `~`, or is not one
# that the shell and pkg-config read as it is; and an install of nothing.
refused() {
    fails make install "$1=$2" DESTDIR="$work/relative"
    has "$(<"$work/log")" "$1 $3"
}
for folder in PREFIX LIBDIR INCLUDEDIR; do
    for letter in '"' "'" '`' '$$' '\\' '#' ':'; do
        refused "$folder" "/a${letter}b" 'has a letter that is read otherwise: '
    done
    for path in lib '' 'lib /abs'; do
        [[ $folder == PREFIX ]] || refused "$folder" "$path" "is not absolute: $path. "
    done
done
for path in '~/x' '~' '~root/x'; do
    refused PREFIX "$path" "begins with ~, which the shell has not replaced: $path. "
    refused BUILD "$path" "begins with ~, which the shell has not replaced: $path. "
    fails make install "DESTDIR=$path"
    has "$(<"$work/log")" "DESTDIR begins with ~, which the shell has not replaced: $path. "
done
fails env LIBDIR=lib make install DESTDIR="$work/relative"
has "$(<"$work/log")" 'LIBDIR is not absolute: lib. '
refused PREFIX '' 'is empty. '
refused BUILD '' 'is empty. '
fails make install BUILD="$work/none" DESTDIR="$work/relative"
fails ls "$work/relative"

# The archive of another target, here with debug assertions, is the one that is packed, whatever
# cargo's own target folder is, and after it that of this one again. A null pointer aborts with
# debug assertions, and faults without: the library has none.
cat >"$work/null.c" <<'C'
#include "font_types.h"
int main(void) { return (int)fty_fixed_parse(NULL, 1, NULL); }
C
status_of_null() {
    cc -Iinclude "$work/null.c" "$1" -o "$work/null"
    bash -c 'timeout 10 "$1"; echo "$?"' - "$work/null" 2>"$work/log"
}
CARGO_BUILD_TARGET_DIR=$work/elsewhere CARGO_PROFILE_RELEASE_DEBUG_ASSERTIONS=true \
    make -s CARGOFLAGS="--quiet --target $(rustc -vV | sed -n 's/^host: //p')"
fails ls "$work/elsewhere"
fails ls target/release/libfont_types.a
fails cmp -s target/libraries/libfont_types.a "$root/lib/libfont_types.a"
cc -std=c99 $strict tests/table.c target/libraries/libfont_types.a -o "$work/table"
run "$work/table"
is "$(status_of_null target/libraries/libfont_types.a)" 134
is "$(status_of_null "$root/lib/libfont_types.a")" 139
"${empty[@]}" make -s CARGOFLAGS=--quiet
cmp -s target/libraries/libfont_types.a "$root/lib/libfont_types.a"
cmp -s target/libraries/libfont_types.so "$root/lib/libfont_types.so"

# A part of what `make check` asks of what is built.
run env BUILT="$PWD/target" ./check example | sed 's/^/make check: /'

# Two versions in one process: a host with a stand-in of 9.0, and plug-ins with the shared library
# and with the archive.
sed "s/FONT_TYPES_$version/FONT_TYPES_9.0/" font_types.map >"$work/stand_in.map"
cc -shared -fPIC -Iinclude -DSTAND_IN tests/versions.c \
    "-Wl,-soname,libfont_types.so.9.0,--version-script=$work/stand_in.map" \
    -o "$work/libfont_types.so.9.0"
cc -shared -fPIC -Iinclude -DPLUG_IN tests/versions.c $shared -o "$work/shared.so"
cc -shared -fPIC -Iinclude -DPLUG_IN tests/versions.c "$root/lib/libfont_types.a" \
    -Wl,--exclude-libs,ALL -o "$work/archive.so"
cc -Iinclude tests/versions.c "$work/libfont_types.so.9.0" "-Wl,-rpath,$work" -ldl -o "$work/host"
# shellcheck disable=SC2086
ours=$(printf %02x ${full//./ })
is "$("$work/host" "$work/shared.so" "$work/archive.so")" "090000 $ours $ours"
