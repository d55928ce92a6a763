# For the tests here: each stops at its first fault, stands in the repository's root and has a folder of its own.
set -euo pipefail
cd "$(dirname "$0")/.."
folder=$(mktemp -d)
trap 'rm -rf "$folder"' EXIT

fail() { echo "$(basename "$0" .sh): $*" >&2; exit 1; }

# The card of README, and one of the same night with every car's code 0.
first_card() { printf '\x12\x20\x0c\x06\x02\x03\x00\x60\x30\x02\x02\x80\x40\x20\x2d\x80'; }
unsorted_card() { printf '\x10\x20\x0c\x06\x02\x03\x00\x60\x30\x02\x02\x80\x40\x20'; }
