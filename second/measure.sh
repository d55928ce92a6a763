#!/usr/bin/env bash
# Runs measure with the library in four places and the idiomatic program in three: where either is placed moves a row by a tenth.
# Prints each row in the middle of the twelve runs, with the least and the most of its ratio. No part of the gate.
set -euo pipefail
cd "$(dirname "$0")/.."
folder=$(mktemp -d)
trap 'rm -rf "$folder"' EXIT
export ALTAIRPEG_ARCHIVE="$folder/libaltairpeg.a"

# The archive with its code some bytes further on; R keeps the bytes, although nothing calls them.
moved() { # BYTES
    echo '.section .note.GNU-stack; .section .text.moved, "axR"; .balign 64; .zero 64' > "$folder/moved.s"
    if [ "$1" -gt 0 ]; then echo ".zero $1" >> "$folder/moved.s"; fi
    gcc -c -o "$folder/moved.o" "$folder/moved.s"
    ld -r -o "$folder/altairpeg.o" "$folder/moved.o" --whole-archive target/staticlib/libaltairpeg.a
    rm -f "$ALTAIRPEG_ARCHIVE"
    ar rc "$ALTAIRPEG_ARCHIVE" "$folder/altairpeg.o"
}

for bytes in 0 16 32 48; do
    moved "$bytes"
    for bits in 4 5 6; do
        # The functions of the idiomatic program begin at multiples of 16, 32 or 64 bytes.
        export CARGO_TARGET_DIR="$PWD/second/target/places/$bits" RUSTFLAGS="-C llvm-args=-align-all-functions=$bits"
        cargo build --release --quiet --features library --manifest-path second/Cargo.toml --bin measure
        "$CARGO_TARGET_DIR/release/measure" | grep -E '^\| [a-z-]+ \| [0-9]+ \|' | awk -F' *[|] *' '{print NR, $2, $3, $6, $7, $8}'
    done
done | sort -n -k1,1 -k6,6 | awk '
    BEGIN { print "| call | cars | library ns/car | idiomatic ns/car | library/idiomatic | least | most |\n|---|---|---|---|---|---|---|" }
    function row() { if (n) printf "| %s | %s | %.2f | %.2f | %.2f | %.2f | %.2f |\n", name, cars, library, idiomatic, (all[int((n + 1) / 2)] + all[int(n / 2) + 1]) / 2, all[1], all[n] }
    $1 != last { row(); n = 0; last = $1; name = $2; cars = $3; library = $4; idiomatic = $5 }
    { all[++n] = $6; if ($4 < library) library = $4; if ($5 < idiomatic) idiomatic = $5 }
    END { row() }'
