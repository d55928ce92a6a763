#!/usr/bin/env bash
# Measures the stack that the calls take: stack.sh [CHECKOUT], of this edition or of another one, as run.sh has it. No part of the gate.
set -euo pipefail
here=$(cd "$(dirname "$0")/../.." && pwd)
edition=$(cd "${1:-$here}" && pwd)
cd "$here"
folder=$(mktemp -d)
trap 'rm -rf "$folder"' EXIT
cp "$edition/tests/beside/calls.c" "$folder/own.c"
# What memcpy and memset are is settled before the program runs: done at the first call of one, it would count as that call's stack.
gcc -O2 -Wall -Wextra -Wl,-z,now -I "$edition/include" -I tests/beside -o "$folder/stack" \
    tests/beside/stack.c "$folder/own.c" "$edition/target/staticlib/libaltairpeg.a"
echo '| call | cars | bytes of stack |'
echo '|---|---|---|'
"$folder/stack"
