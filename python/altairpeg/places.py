"""What was given at the place that a refusal speaks of, for its message."""

from __future__ import annotations

from collections.abc import Iterable
from itertools import islice
from operator import index
from typing import Any

from .errors import shown

# By the refusal's number: the list whose item A counts from 1.
ITEMS = {2: "lengths", 3: "inbound", 7: "codes", 14: "codes"}
# By the refusal's number and A: the list whose length it speaks of, and the number it speaks of.
SIZES = {(1, 1): "inbound", (1, 2): "lengths", (4, 3): "codes"}
VALUES = {
    (1, 3): ("tracks",),
    (1, 4): ("room",),
    (1, 5): ("steps", "limit"),
    (1, 6): ("stage",),
    (1, 7): ("passes",),
    (13, 1): ("pull",),
    (13, 2): ("push",),
}


def place(number: int, a: int, b: int, given: dict[str, Any]) -> str | None:
    """Names what was given there, `inbound[3] is -1`, or None where the refusal speaks of no one place."""
    try:
        if number == 3 and b > 0:
            return f"inbound[{b - 1}] and inbound[{a - 1}] are both {_item(given['inbound'], a - 1)}"
        if number in ITEMS and a > 0:
            name = ITEMS[number]
            return f"{name}[{a - 1}] is {shown(_item(given[name], a - 1))}"
        if (number, a) == (2, 0):
            return f"sum(lengths) is {shown(sum(map(index, given['lengths'])))}, len(inbound) is {len(given['inbound'])}"
        if (number, a) in SIZES:
            name = SIZES[number, a]
            return f"len({name}) is {len(given[name])}"
        for name in VALUES.get((number, a), ()):
            if name in given:
                return f"{name} is {shown(given[name])}"
    except (LookupError, TypeError, ValueError, OverflowError, NotImplementedError):
        pass  # the refusal stands, whatever its message can tell
    return None


def _item(items: Iterable[Any], place: int) -> int:
    """The item at a place, by iteration: what stands in brackets may count by labels."""
    (item,) = islice(items, place, place + 1)
    return index(item)
