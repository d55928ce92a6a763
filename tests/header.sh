#!/usr/bin/env bash
# The header is clean in C and C++, and every call behind it does what it says.
. "$(dirname "$0")/scratch.sh"

try() { # COMPILER LANGUAGE STANDARD
    "$1" -std="$3" -Wall -Wextra -Wpedantic -Werror -Iinclude -x "$2" tests/header.c \
        -x none target/staticlib/libaltairpeg.a -o "$folder/calls"
    "$folder/calls"
}

for standard in c99 c11 c17; do try gcc c "$standard"; done
# No run of the gate measures two editions or the stack, so at least that is kept in step with the header.
gcc -Wall -Wextra -Wpedantic -Werror -Iinclude -fsyntax-only tests/beside/*.c

if command -v g++ > /dev/null; then
    for standard in c++11 c++17 c++20; do try g++ c++ "$standard"; done
else
    echo "header: no g++ here, so not tried in C++"
fi
