"""Nights, plans, and what the calls answer."""

from __future__ import annotations

from enum import Enum
from typing import Any, Iterator, Literal, NamedTuple, Protocol

from .errors import InputError


class Numbers(Protocol):
    """A list of whole numbers: a list or tuple, an array, a memoryview or bytes, a numpy array, a range."""

    def __len__(self) -> int: ...

    def __iter__(self) -> Iterator[Any]: ...

    def __getitem__(self, place: Any, /) -> Any: ...


class Mark(str, Enum):
    """Whether the destination tracks are open from the first roll-in on, or closed until the first pull.

    It is a string, so it equals its word and goes into JSON as that word.
    """

    OPEN = "open"
    CLOSED = "closed"

    __str__ = str.__str__


class Night(NamedTuple):
    """The lengths of the outbound trains, the inbound order of the cars, the sorting tracks, the room on each, and the mark.

    The mark, a `Mark` or its word, has no default: closed is the usual case in yards, and what was planned for open
    destinations would send cars to busy tracks there.
    """

    lengths: Numbers
    inbound: Numbers
    tracks: int
    room: int
    mark: Mark | Literal["open", "closed"]


class Plan(NamedTuple):
    """A night, its steps, and one code for each car, in car order."""

    night: Night
    steps: int
    codes: Numbers


class _Derived(NamedTuple):
    steps: int
    passes: int
    codes: list[int]


class Derived(_Derived):
    """The steps of a derived plan, its hump passes, and the code of each car; `plan` is the plan as a whole."""

    # Beside the tuple, not in it: three names unpack as they always did.
    night: Night | None = None

    @property
    def plan(self) -> Plan:
        """The derived plan, of the night that `derive` or `fewest_passes` was given."""
        if self.night is None:
            raise InputError("this Derived does not come from derive or fewest_passes, so it has no night")
        return Plan(self.night, self.steps, self.codes)


class Checked(NamedTuple):
    """The hump passes of an accepted plan, and the cars of its fullest pull."""

    passes: int
    fullest_pull: int


class Stage(NamedTuple):
    """The yard at a stage: the passes so far, and each car's track and place there, in car order.

    The destination of train t is track `tracks + t - 1` of the night; the place at the front is 0.
    """

    passes: int
    tracks: list[int]
    places: list[int]

    def cars_on(self, track: int) -> list[int]:
        """The cars on a track, front first."""
        standing = sorted((place, car) for car, (on, place) in enumerate(zip(self.tracks, self.places), 1) if on == track)
        return [car for _, car in standing]
