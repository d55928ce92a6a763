#!/usr/bin/env bash
# The Rust crate: its tests, its pages without a warning, and its examples, which print what docs/USING.md says.
. "$(dirname "$0")/scratch.sh"

example() { # STATUS NAME ARGUMENTS...: ends so, and every line it prints stands in the paper
    local wanted=$1 status=0 line
    shift
    (cd rust && cargo run --quiet --example "$1" -- "${@:2}") > "$folder/said" || status=$?
    [ "$status" = "$wanted" ] || fail "$1 ends with $status"
    while IFS= read -r line; do
        grep -qxF -- "    $line" docs/USING.md || fail "$1 prints a line that docs/USING.md doesn't have: $line"
    done < "$folder/said"
}

(cd rust && cargo test --quiet)
(cd rust && RUSTDOCFLAGS=-Dwarnings cargo doc --quiet)
example 0 one_night
mkdir "$folder/cards"
first_card > "$folder/cards/first.card"
example 0 folder "$folder/cards"
unsorted_card > "$folder/cards/unsorted.card"
example 1 folder "$folder/cards"
example 2 folder "$folder/none" 2> /dev/null
