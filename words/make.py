#!/usr/bin/env python3
"""Makes the words of the refusals for header, Rust and Python from the one table refusals.tsv.

    python3 words/make.py             writes them
    python3 words/make.py --check     fails, and names the file, where one is not current
"""

import re
import sys
import textwrap
from pathlib import Path
from typing import NamedTuple

ROOT = Path(__file__).resolve().parent.parent
TABLE = ROOT / "words" / "refusals.tsv"
MADE = "made from words/refusals.tsv by words/make.py"
WIDTH = 120
ANY = (None, None)


class Row(NamedTuple):
    """A number, its constant's name, its words, what A and B are, and the details' words by A and B (None: any other)."""

    number: int
    name: str
    words: str
    meaning: str
    details: dict

    def camel(self):
        """The name as Rust writes the case of an enum."""
        return "".join(part.capitalize() for part in self.name.split("_"))


def key(text):
    """A number, or None for the star that stands for any other."""
    return None if text == "*" else int(text)


def keys(text):
    """A and B of an entry: A alone stands for every B."""
    a, _, b = text.partition(",")
    return key(a), key(b or "*")


def details_of(text):
    """The words of the details by A and B."""
    pairs = (entry.strip().split(" ", 1) for entry in text.split(";") if entry.strip())
    return {keys(at): words for at, words in pairs}


def meaning_of(told, details):
    """What A and B are; where the table leaves it out, the words by A say it."""
    named = ", ".join(f"{a} {words}" for (a, _), words in details.items() if a is not None)
    return told or (f"A: {named}" if named else "")


def row_of(line):
    """A row of the table."""
    if line.count("\t") != 4:
        sys.exit(f"{TABLE.name}: not five columns: {line}")
    number, name, words, told, entries = line.split("\t")
    details = details_of(entries)
    return Row(key(number), name, words, meaning_of(told, details), details)


def filled(row, other):
    """A row's details, named ones first, with words for every A and B."""
    named = {at: words for at, words in row.details.items() if at != ANY}
    return {**named, ANY: row.details.get(ANY, other.details[ANY])}


def read(text):
    """The rows by number, rising, and the row that speaks for every other number."""
    lines = [line for line in text.splitlines() if line and not line.startswith("#")]
    *rows, other = map(row_of, lines[1:])
    numbers = [row.number for row in rows]
    if other.number is not None or numbers != sorted(set(numbers)):
        sys.exit(f"{TABLE.name}: numbers must rise, and the last row is *")
    return [row._replace(details=filled(row, other)) for row in rows], other


def wrapped(meaning, width):
    """What A and B are, in lines; a number stays on the line of its word."""
    bound = re.sub(r"(\d) (?=\w)", "\\1\u00a0", meaning)
    return [line.replace("\u00a0", " ") for line in textwrap.wrap(bound, width, subsequent_indent="   ")]


def table_comment(rows):
    """The table in the header's opening comment."""
    left = 52
    yield " *   No.  " + "Given when".ljust(left) + " A, B"
    for row in rows:
        words = textwrap.wrap(row.words, left)
        meaning = wrapped(row.meaning, WIDTH - left - 11)
        for i in range(max(len(words), len(meaning))):
            number = str(row.number) if i == 0 else ""
            told = words[i] if i < len(words) else ""
            yield f" *   {number:>2}   {told:<{left}} {meaning[i] if i < len(meaning) else ''}".rstrip()


def number_enum(rows):
    """The header's enum."""
    yield "enum altairpeg_number {"
    yield ",\n".join(f"    ALTAIRPEG_{row.name} = {row.number}" for row in rows)
    yield "};"


def between(text, mark, made):
    """The text with these lines between the two that carry the mark."""
    lines = text.split("\n")
    first = next(i for i, line in enumerate(lines) if f"[{mark}, {MADE}]" in line)
    last = next(i for i, line in enumerate(lines) if f"[end of {mark}]" in line)
    return "\n".join([*lines[: first + 1], *made, *lines[last:]])


def header(rows, _other, old):
    """The header, with its table and its enum."""
    return between(between(old, "table", table_comment(rows)), "numbers", number_enum(rows))


def quoted(words):
    """A string as Rust and Python write it."""
    return '"' + words.replace("\\", "\\\\").replace('"', '\\"') + '"'


def rust_text(words):
    """A string of its own in Rust; a template takes a and b from its surroundings."""
    return f"format!({quoted(words)})" if "{" in words else f"{quoted(words)}.to_string()"


def refusals(rows):
    """The rows that refuse: all but done."""
    return [row for row in rows if row.number != 0]


def rust_enum(rows, other):
    """The kinds of refusal."""
    yield "/// Why a call refused, by document 01's numbers."
    yield "///"
    yield "/// Later papers add numbers, so a `match` needs an arm for all others."
    yield "#[non_exhaustive]"
    yield "#[derive(Clone, Copy, Debug, PartialEq, Eq, Hash)]"
    yield "pub enum Kind {"
    for row in refusals(rows):
        told = " ".join(f"{part}." for part in (row.words, row.meaning) if part)
        yield f"    /// {row.number}: {told}"
        yield f"    {row.camel()},"
    yield f"    /// Any other: {other.words}."
    yield f"    {other.camel()},"
    yield "}"


def rust_match(title, head, on, arms):
    """A function that is one match."""
    yield ""
    yield f"/// {title}"
    yield f"pub(crate) fn {head} {{"
    yield f"    match {on} {{"
    yield from (f"        {arm}," for arm in arms)
    yield "    }"
    yield "}"


def rust_details(row, other):
    """The arms of a row's details; what no row tells is left to the last arm."""
    for at, told in row.details.items():
        if told != other.details[ANY]:
            pattern = ", ".join("_" if number is None else str(number) for number in (row.number, *at))
            yield f"({pattern}) => {rust_text(told)}"


def rust(rows, other, _old):
    """The module of the Rust crate."""
    lines = [f"//! The numbers of document 01 and their words, {MADE}.", ""]
    lines += rust_enum(rows, other)
    kinds = [f"{row.number} => Kind::{row.camel()}" for row in refusals(rows)] + [f"_ => Kind::{other.camel()}"]
    lines += rust_match("The kind of a number.", "kind(number: usize) -> Kind", "number", kinds)
    words = [f"{row.number} => {quoted(row.words)}" for row in rows] + [f"_ => {quoted(other.words)}"]
    lines += rust_match("The words of a number.", "words(number: usize) -> &'static str", "number", words)
    details = [arm for row in rows for arm in rust_details(row, other)] + [f"_ => {rust_text(other.details[ANY])}"]
    head = "details(number: usize, a: usize, b: usize) -> String"
    lines += rust_match("The words of the details.", head, "(number, a, b)", details)
    return "\n".join(lines) + "\n"


def python_dict(name, kind, rows, told):
    """A table of the Python module: what is told of each row, by number."""
    return [f"{name}: {kind} = {{", *(f"    {row.number}: {told(row)}," for row in rows), "}"]


def python_details(row):
    """A row's details as Python writes them."""
    return "[" + ", ".join(f"({a}, {b}, {quoted(words)})" for (a, b), words in row.details.items()) + "]"


def python(rows, other, _old):
    """The module of the Python package."""
    lines = [f'"""The numbers of document 01 and their words, {MADE}."""', "", "from __future__ import annotations", ""]
    lines += [f"UNKNOWN = {quoted(other.words)}", ""]
    lines += python_dict("NAMES", "dict[int, str]", rows, lambda row: quoted(row.name)) + [""]
    lines += python_dict("WORDS", "dict[int, str]", rows, lambda row: quoted(row.words)) + [""]
    lines += ["# The words of the details by A and B, None for every other; {a} and {b} are the details themselves."]
    lines += python_dict("DETAILS", "dict[int, list[tuple[int | None, int | None, str]]]", rows, python_details)
    return "\n".join(lines) + "\n"


FILES = {"include/altairpeg.h": header, "rust/src/words.rs": rust, "python/altairpeg/words.py": python}


def main():
    """Writes every file, or only says which are not current."""
    rows, other = read(TABLE.read_text())
    stale = 0
    for name, made in FILES.items():
        file = ROOT / name
        old = file.read_text() if file.is_file() else ""
        new = made(rows, other, old)
        if new == old:
            continue
        if "--check" in sys.argv[1:]:
            stale = 1
            print(f"{name} is not current: run `python3 words/make.py`", file=sys.stderr)
        else:
            file.write_text(new)
    return stale


if __name__ == "__main__":
    sys.exit(main())
