"""Lists, numbers and marks as the library takes them.

Python's whole numbers are wider than C's. ctypes would cut off what does not fit, and the library would answer for another
night. So a number that does not fit goes over as a stand-in that does, of which document 01 says the same at that place:

- an inbound number: a negative one as 0, a large one as 65535, neither of which is a car (refusal 3);
- a length: a negative one as 0, a train without cars (2, that train); a large one as 65535, more than all cars (2, the sum);
- a code: as 65535, which is not below 2^h for any h of 0 to 15 (7); for h of 16 there is no such code, so the first car
  with a stand-in is told as well;
- a count, 64 bits wide: as the largest, which is above each range (1);
- seconds: what a double does not hold exactly as not-a-number (13).

The order of the tests stays the library's own. What isn't a whole number, or a mark, at all raises `InputError`.
"""

from __future__ import annotations

import math
from array import array
from collections.abc import Iterable, Mapping, Sequence
from ctypes import c_double
from itertools import islice
from operator import index
from typing import Any, SupportsFloat, SupportsIndex

from .errors import InputError, shown
from .library import CLOSED, OPEN
from .nights import Mark, Numbers

LARGEST = 2**16 - 1
LARGEST_COUNT = 2**64 - 1
# No list of document 01 has as many items, so what follows behind them never decides.
MOST = 2**16
_MARKS = {Mark.OPEN: OPEN, Mark.CLOSED: CLOSED}
# The formats of items that memoryview turns into Python's numbers.
_READABLE = frozenset("bBhHiIlLqQnN?fd")


def whole(name: str, given: SupportsIndex) -> int:
    """A whole number of any size."""
    try:
        return index(given)
    except TypeError:
        raise InputError(f"{name} is {shown(given)}, not a whole number") from None


def count(name: str, given: SupportsIndex) -> int:
    """A count, or its stand-in."""
    number = whole(name, given)
    return number if 0 <= number <= LARGEST_COUNT else LARGEST_COUNT


def mark(given: object) -> int:
    """The number of a mark, from a `Mark` or its word. True or 1 is refused: neither says which of the two it means."""
    if not isinstance(given, str) or given not in _MARKS:
        raise InputError(f"mark is {shown(given)}, not 'open' or 'closed'")
    return _MARKS[given]  # type: ignore[index]  # a word finds its mark, which it equals


def seconds(name: str, given: SupportsFloat | SupportsIndex) -> float:
    """Seconds as a double, or their stand-in."""
    try:
        held = c_double(given).value  # type: ignore[arg-type]
    except TypeError:
        raise InputError(f"{name} is {shown(given)}, not a number of seconds") from None
    except (OverflowError, ValueError):
        return math.nan
    return held if held == given else math.nan


def numbers(name: str, given: Numbers) -> array[int]:
    """A list, or its stand-in."""
    items = _items(name, given)
    try:
        return array("H", items)
    except (TypeError, OverflowError):
        return array("H", [min(max(number, 0), LARGEST) for number in _wholes(name, items)])


def codes(given: Numbers) -> tuple[array[int], int]:
    """A list of codes, or its stand-in, and the first car whose code has a stand-in there, 0 where none has."""
    items = _items("codes", given)
    try:
        return array("H", items), 0
    except (TypeError, OverflowError):
        held = [number if 0 <= number <= LARGEST else None for number in _wholes("codes", items)]
        first = held.index(None) + 1 if None in held else 0
        return array("H", [LARGEST if number is None else number for number in held]), first


def zeros(size: int) -> array[int]:
    """A list to be written."""
    return array("H", bytes(2 * size))


def card(given: bytes | bytearray | memoryview) -> array[int]:
    """The bytes of a card. A list or a number is refused: bytes(5) would be a card of five zero bytes."""
    try:
        view = memoryview(given)
    except (TypeError, ValueError):
        raise InputError(f"card is {shown(given)}, not bytes") from None
    if view.itemsize != 1 or view.ndim != 1:
        raise InputError(f"card is {shown(given)}, not a row of bytes")
    return array("B", view.tobytes())


def _wholes(name: str, items: Iterable[Any]) -> list[int]:
    """Whole numbers of any size, item by item, so that a message names the place."""
    return [whole(f"{name}[{place}]", item) for place, item in enumerate(items)]


def _items(name: str, given: Any) -> Sequence[Any] | bytes:
    """The items of a list in whatever form; those of a buffer of C's own type as they lie in memory."""
    if type(given) in (list, tuple):
        return given  # type: ignore[no-any-return]
    try:
        return _buffered(given) if _is_buffer(given) else _listed(given)
    except (TypeError, ValueError, NotImplementedError):
        raise InputError(f"{name} is {shown(given)}, not a list of whole numbers") from None


def _is_buffer(given: Any) -> bool:
    """Whether the items lie in memory in a way that Python reads by itself."""
    try:
        view = memoryview(given)
    except TypeError:
        return False
    return view.ndim == 1 and view.format in _READABLE


def _buffered(given: Any) -> list[Any] | bytes:
    """The items of a buffer, as numpy has them, without a loop in Python."""
    view = memoryview(given)[:MOST]
    return view.tobytes() if view.format == "H" else view.tolist()


def _listed(given: Any) -> list[Any]:
    """The items of a range, a deque and the like. A set has no order, a mapping gives keys, a generator can be read only once."""
    if not (hasattr(given, "__len__") and hasattr(given, "__getitem__")) or isinstance(given, Mapping):
        raise TypeError
    return list(islice(given, MOST))
