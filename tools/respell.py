#!/usr/bin/env python3
"""Spells the names that specs/ and proofs/ declare as today's Rattle does: words in snake case, where they were in camel case.

usage: tools/respell.py            at the top of the repository, once, right after port.py

It goes through the .antt, .rt and .edit files of crates/ by whole words, and leaves quoted text alone. A part of a name behind a
dash that begins with a capital is a fact or a type and keeps it. One lemma would have met a definition and has another name now.
It stops before it writes if two names fall together.
"""

import os
import re

WORD = re.compile(r'[^\s(){}.;,@"«»\[\]`:=]+')
QUOTED = re.compile(r'"(?:[^"\\\n]|\\.)*"')
# The lemma that a list is a run of numbers where its neighbours are in order: `inOrder` becomes its name.
MOVED = {
    "crates/yard/proofs/general/Order.antt": {"in_order": "up_from-when_in_order"},
    "crates/yard/proofs/yards/Building.antt": {"in_order": "up_from-when_in_order"},
}


def respelled(word):
    if word.startswith("0x") or "/" in word:
        return word
    parts = []
    for part in word.split("-"):
        if re.match(r"[a-z]", part):
            part = re.sub(r"(?<=[a-z0-9])[A-Z]", lambda m: "_" + m[0].lower(), part)
        parts.append(part)
    return "-".join(parts)


def outside_quotes(text, turn):
    out, at = [], 0
    for m in QUOTED.finditer(text):
        out += [WORD.sub(turn, text[at : m.start()]), m[0]]
        at = m.end()
    out.append(WORD.sub(turn, text[at:]))
    return "".join(out)


def files():
    for folder, dirs, names in os.walk("crates"):
        dirs[:] = sorted(d for d in dirs if d != "out")
        for name in sorted(names):
            if name.endswith((".antt", ".rt", ".edit")):
                yield os.path.join(folder, name)


def main():
    texts = {}
    for path in files():
        with open(path, encoding="utf-8") as f:
            texts[path] = f.read()
    words = {p: set(WORD.findall(t)) for p, t in texts.items()}
    for path, seen in words.items():
        if not path.endswith(".antt"):
            continue
        moved = MOVED.get(path, {})
        for word in seen:
            new = respelled(word)
            if new == word or new not in seen or new in moved:
                continue
            # In a walk by hand it meets the name of an answer of its own, or of the function: for the hand.
            if not path.endswith("/Proof.antt"):
                raise SystemExit(f"{path}: {word} would meet {new}")
            print(f"look: {path}: {word} meets {new}")
    for path, text in texts.items():
        moved = MOVED.get(path, {})
        new = outside_quotes(text, lambda m: moved.get(m[0]) or respelled(m[0]))
        if new != text:
            with open(path, "w", encoding="utf-8") as f:
                f.write(new)


if __name__ == "__main__":
    main()
