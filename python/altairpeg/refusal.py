"""Refusals, in the paper's words."""

from __future__ import annotations

from .errors import AltairpegError
from .words import DETAILS, NAMES, UNKNOWN, WORDS

_UNKNOWN_DETAILS: list[tuple[int | None, int | None, str]] = [(None, None, "A {a}, B {b}")]


def _details(number: int, a: int, b: int) -> str:
    """What the two details of a refusal say."""
    told = DETAILS.get(number, _UNKNOWN_DETAILS)
    words = next(words for of_a, of_b, words in told if of_a in (None, a) and of_b in (None, b))
    return words.format(a=a, b=b)


class Refusal(AltairpegError):
    """A call refused: the paper's number, its details a and b, and its words for them.

    `place` says what was given there, where the call knows it: `inbound[3] is -1`, an item by Python's index, which
    counts from 0 where the paper's details count from 1. A number that the paper does not have gets words too.
    """

    def __init__(self, number: int, a: int = 0, b: int = 0, place: str | None = None) -> None:
        self.number = number
        self.a = a
        self.b = b
        self.place = place
        self.name = NAMES.get(number, "UNKNOWN")
        self.words = WORDS.get(number, UNKNOWN)
        self.details = _details(number, a, b)
        told = f"refused {number} {a} {b}: {self.words} ({self.details})"
        super().__init__(told if place is None else f"{told}: {place}")

    def __reduce__(self) -> tuple[type[Refusal], tuple[int, int, int, str | None]]:
        return (Refusal, (self.number, self.a, self.b, self.place))
