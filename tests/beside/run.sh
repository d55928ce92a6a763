#!/usr/bin/env bash
# Measures the library beside an earlier edition of it: run.sh CHECKOUT, where CHECKOUT is a checkout of that edition
# with its archive built (`tools/build staticlib altairpeg`) and a tests/beside/calls.c for its C interface. No part of the gate.
set -euo pipefail
before=$(cd "$1" && pwd)
cd "$(dirname "$0")/../.."
folder=$(mktemp -d)
trap 'rm -rf "$folder"' EXIT

# An edition as one object: its calls and its archive, with no name in sight but the table of its calls. Its calls are copied away from
# its own night.h, so that a call that it lacks is NULL in a table of this edition's size.
edition() { # CHECKOUT NAME
    cp "$1/tests/beside/calls.c" "$folder/own.c"
    gcc -O2 -Wall -Wextra -I "$1/include" -I tests/beside -c -o "$folder/own.o" "$folder/own.c"
    ld -r -o "$folder/$2.o" "$folder/own.o" --whole-archive "$1/target/staticlib/libaltairpeg.a"
    objcopy --keep-global-symbol=calls "$folder/$2.o"
    objcopy --redefine-sym calls="$2" "$folder/$2.o"
}

# Where an edition is placed in the program, and where the system lays the stack, moves a row by a tenth, so each row is measured in eight
# placements of the two, three times in each.
skipped() { # BYTES
    echo '.section .note.GNU-stack; .text; .balign 64; .zero 64'
    if [ "$1" -gt 0 ]; then echo ".zero $1"; fi
}

edition "$before" before_calls
edition "$PWD" calls
for skip in "0 0" "16 0" "32 0" "48 0" "0 16" "16 32" "32 48" "48 16"; do
    read -r first second <<< "$skip"
    skipped "$first" > "$folder/first.s"
    skipped "$second" > "$folder/second.s"
    gcc -O2 -Wall -Wextra -o "$folder/beside" tests/beside/beside.c \
        "$folder/first.s" "$folder/before_calls.o" "$folder/second.s" "$folder/calls.o"
    for run in 1 2 3; do
        "$folder/beside" | awk '{print NR, $0}'
    done
done | sort -n -k1,1 -k4,4 | awk '
    BEGIN { print "| call | cars | now/before | least | most |\n|---|---|---|---|---|" }
    function row() { if (n) printf "| %s | %s | %.2f | %.2f | %.2f |\n", name, cars, (all[int((n + 1) / 2)] + all[int(n / 2) + 1]) / 2, all[1], all[n] }
    $1 != last { row(); n = 0; last = $1; name = $2; cars = $3 }
    { all[++n] = $4 }
    END { row() }'
