"""The colours of the picture: those of the trains, and the contrast of numbers on them."""

from __future__ import annotations

from functools import cache
from itertools import permutations

# Okabe and Ito's colours, chosen so that colour-blind people tell them apart too, with white in place of black.
COLOURS = ("#56b4e9", "#e69f00", "#009e73", "#f0e442", "#0072b2", "#d55e00", "#cc79a7", "#ffffff")
INK, PALE, PULLED, WRONG = "#1a1a1a", "#efefef", "#fff2cc", "#b00020"


def _brightness(colour: str) -> float:
    """The relative luminance of a colour, as the contrast rule of WCAG 2 has it."""
    parts = [int(colour[at : at + 2], 16) / 255 for at in (1, 3, 5)]
    red, green, blue = (part / 12.92 if part <= 0.04045 else ((part + 0.055) / 1.055) ** 2.4 for part in parts)
    return 0.2126 * red + 0.7152 * green + 0.0722 * blue


def contrast(one: str, other: str) -> float:
    """The contrast of two colours, from 1 to 21."""
    dark, light = sorted((_brightness(one), _brightness(other)))
    return (light + 0.05) / (dark + 0.05)


def fill(train: int) -> str:
    """The colour of a train's boxes."""
    return COLOURS[(train - 1) % len(COLOURS)]


@cache
def bands(train: int) -> tuple[str, ...]:
    """The colours of the band at the foot of a train's boxes: none up to train 8, one up to 64, and then two side by side.

    With them each of 256 trains has a look of its own.
    """
    turn, at = divmod(train - 1, len(COLOURS))
    others = COLOURS[at + 1 :] + COLOURS[:at]
    looks = [(), *((colour,) for colour in others), *permutations(others, 2)]
    return looks[turn]


@cache
def number_colour(train: int) -> str:
    """The colour of the numbers in a train's boxes: whichever of dark and white is easier to read there."""
    return max((INK, "#ffffff"), key=lambda colour: contrast(colour, fill(train)))
