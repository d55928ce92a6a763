#!/usr/bin/env bash
# The words of header, Rust and Python are those of the table, and a new row of it is all that a new number needs.
. "$(dirname "$0")/scratch.sh"
python3 words/make.py --check

cp --parents -r words include rust/src/words.rs python/altairpeg/words.py "$folder"
cd "$folder"
sed -i '/^\*/i 99\tNEW_ROW\ta "new" reason\t\t1 the first; 2,0 no second; * item {a} of {b}' words/refusals.tsv
if python3 words/make.py --check 2> said; then fail "--check takes files without the new row"; fi
[ "$(wc -l < said)" = 3 ] || fail "--check doesn't name the three files: $(cat said)"
python3 words/make.py
python3 words/make.py --check

printf '#include "altairpeg.h"\nint new_row[ALTAIRPEG_NEW_ROW == 99 ? 1 : -1];\n' |
    gcc -Wall -Wextra -Wpedantic -Werror -Iinclude -fsyntax-only -x c -
PYTHONPATH=python/altairpeg python3 -c '
import words
assert (words.NAMES[99], words.WORDS[99]) == ("NEW_ROW", "a \"new\" reason")
assert words.DETAILS[99] == [(1, None, "the first"), (2, 0, "no second"), (None, None, "item {a} of {b}")]
assert all(words.DETAILS[number][-1][:2] == (None, None) for number in words.WORDS)'
cat > new_row.rs <<'R'
#[path = "rust/src/words.rs"]
mod words;
fn main() {
    assert_eq!(words::kind(99), words::Kind::NewRow);
    assert_eq!(words::words(99), "a \"new\" reason");
    assert_eq!([1, 2].map(|a| words::details(99, a, 3)), ["the first", "item 2 of 3"]);
    assert_eq!(words::details(99, 2, 0), "no second");
}
R
rustc --edition 2021 new_row.rs
./new_row
