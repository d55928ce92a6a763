#!/usr/bin/env bash
# Installs into a scratch folder, builds and runs the papers' C programs with what is there, and takes all away again.
. "$(dirname "$0")/scratch.sh"
command -v make > /dev/null || { echo "install: no make here, so not tried"; exit 0; }

expect() { # WANTED WHAT COMMAND...: what the command prints is as wanted
    local wanted=$1 what=$2 got
    shift 2
    got=$("$@") || fail "$what ends with $?"
    [ "$got" = "$wanted" ] || fail "$what prints '$got'"
}

# The flags that the pkg-config file gives, quoted for the shell.
flags_given() {
    if command -v pkg-config > /dev/null; then
        PKG_CONFIG_PATH="$prefix/lib/pkgconfig" pkg-config --cflags --libs altairpeg
    else
        echo "install: no pkg-config here, so the flags of its file are taken by hand" >&2
        sed -n 's/^Cflags: //p; s/^Libs: //p' "$prefix/lib/pkgconfig/altairpeg.pc" |
            sed "s|\${includedir}|$prefix/include|; s|\${libdir}|$prefix/lib|" | tr '\n' ' '
    fi
}

# README's lines, with what they need around them, and the whole program of USING; and what the papers say that they print.
readme_program() {
    printf '#include <altairpeg.h>\n#include <stdio.h>\nint main(void) {\n'
    sed -n '/^    uint16_t lengths/,/altairpeg_derive/p' README.md
    printf 'printf("%%zu %%zu %%zu:", r.number, r.a, r.b);\nfor (int i = 0; i < 6; i++) printf(" %%d", codes[i]);\n}\n'
}
readme_says() {
    sed -n 's|.*/\* r.number \(.*\), r.a \(.*\) steps, r.b \(.*\) passes, codes \(.*\) \*/|\1 \2 \3: \4|p' README.md
}
using_program() {
    sed -n '/^    #include <stdio.h>/,/^    }/p' docs/USING.md
}
using_says() {
    sed -n 's/^prints `\([0-9 ]*\)`: done,.*/\1/p' docs/USING.md
}

strict=(gcc -Wall -Wextra -Wpedantic -Werror)

try() { # NAME WANTED: the program, linked with the shared object, and with the archive alone
    eval "\"\${strict[@]}\" \"\$folder/$1.c\" $flags -o \"\$folder/$1\""
    expect "$2" "$1" env LD_LIBRARY_PATH="$prefix/lib" "$folder/$1"
    "${strict[@]}" -I"$prefix/include" "$folder/$1.c" "$prefix/lib/libaltairpeg.a" -o "$folder/$1"
    expect "$2" "$1 with the archive" "$folder/$1"
}

# A path with a blank, as users have them; the second time with a prover that fails, since nothing is left to be proved.
prefix="$folder/a yard"
make --silent all
make --silent install RT=false PREFIX="$prefix"
flags=$(flags_given)
readme_program > "$folder/readme.c"
using_program > "$folder/using.c"
try readme "$(readme_says)"
try using "$(using_says)"

# The papers name the shared object as it is installed.
object=$(readlink "$prefix/lib/libaltairpeg.so")
for paper in docs/USING.md docs/DECISIONS.md; do
    grep -qF "\`$object\`" "$paper" || fail "$paper has no $object"
done

first_card > "$folder/card"
lines=$'steps 2 tracks 2 room 3 cars 6 trains 1 passes 11\ntrain 1: 1 2 3 4 5 6'
expect "$lines" nightcard "$prefix/bin/nightcard" < "$folder/card"
"$prefix/bin/nightplan" < "$folder/card" | cmp - "$folder/card" || fail "nightplan writes another card"

# Under DESTDIR the files lie elsewhere, but speak of the prefix.
make --silent install RT=false DESTDIR="$folder/staged" PREFIX=/opt/yard
expect /opt/yard "the prefix" sed -n 's/^prefix=//p' "$folder/staged/opt/yard/lib/pkgconfig/altairpeg.pc"

make --silent uninstall PREFIX="$prefix"
make --silent uninstall DESTDIR="$folder/staged" PREFIX=/opt/yard
expect "" "what is left" find "$prefix" "$folder/staged" ! -type d
