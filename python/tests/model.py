"""The order of document 01's first tests, for whole numbers of any size: what the library would answer were C's types wide enough."""

import math
from typing import NamedTuple


class Limits(NamedTuple):
    """The most that each count may be."""

    cars: int
    trains: int
    tracks: int
    room: int
    steps: int


# Those of bigger nights, and document 01's, which the fewest passes keep.
BIGGER, FIRST = Limits(4096, 256, 16, 4096, 16), Limits(512, 64, 8, 512, 8)
PASSES, SECONDS = 69632, 4096


def first(tests):
    """The first test that does not hold, as number and details, or None where all hold."""
    return next((refusal for holds, refusal in tests if not holds), None)


def counts(night, steps, stage, limits=BIGGER):
    """Tests of 1, the lowest A first."""
    yield 1 <= len(night.inbound) <= limits.cars, (1, 1, 0)
    yield 1 <= len(night.lengths) <= limits.trains, (1, 2, 0)
    yield 1 <= night.tracks <= limits.tracks, (1, 3, 0)
    yield 1 <= night.room <= limits.room, (1, 4, 0)
    yield 0 <= steps <= limits.steps, (1, 5, 0)
    yield 0 <= stage <= steps, (1, 6, 0)


def night_tests(night):
    """Tests of 2 and 3."""
    for train, length in enumerate(night.lengths, 1):
        yield length >= 1, (2, train, 0)
    yield sum(night.lengths) == len(night.inbound), (2, 0, 0)
    met = {}
    for place, car in enumerate(night.inbound, 1):
        yield 1 <= car <= len(night.inbound), (3, place, 0)
        yield car not in met, (3, place, met.get(car))
        met[car] = place


def code_tests(night, steps, codes):
    """Tests of 4 and 7."""
    yield len(codes) == len(night.inbound), (4, 3, 0)
    for car, code in enumerate(codes, 1):
        yield 0 <= code < 2**steps, (7, car, 0)


def zero_tests(night, codes):
    """Tests of 14."""
    for car, code in enumerate(codes, 1):
        yield code != 0 or night.mark == "open", (14, car, 0)


def derive(night, limit):
    """What derive tests before it looks at the order of the cars."""
    return first(counts(night, limit, 0)) or first(night_tests(night))


def fewest_passes(night, steps):
    """The same of fewest_passes."""
    return first(counts(night, steps, 0, FIRST)) or first(night_tests(night))


def card(night, steps, codes, stage=0):
    """What the writer tests."""
    return first(counts(night, steps, stage)) or first(night_tests(night)) or first(code_tests(night, steps, codes))


def plan(night, steps, codes, stage=0):
    """What check and replay test before the plan is replayed."""
    return card(night, steps, codes, stage) or first(zero_tests(night, codes))


def allowed(seconds):
    """Whether a timing is allowed."""
    if not 0 <= seconds <= SECONDS or (seconds == 0 and math.copysign(1, seconds) < 0):
        return False
    return seconds * 16 == int(seconds * 16)


def price(steps, passes, pull, push):
    """What price tests."""
    return first([
        (0 <= steps <= BIGGER.steps, (1, 5, 0)),
        (0 <= passes <= PASSES, (1, 7, 0)),
        (allowed(pull), (13, 1, 0)),
        (allowed(push), (13, 2, 0)),
    ])
