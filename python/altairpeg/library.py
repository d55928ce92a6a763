"""The library's C interface: every struct and call of include/altairpeg.h, declared here and nowhere else."""

from __future__ import annotations

import ctypes
from array import array
from ctypes import c_double, c_size_t, c_uint16, c_void_p
from functools import lru_cache
from pathlib import Path
from typing import Any

from . import building
from .errors import LibraryError

CARS = 4096
TRAINS = 256
STEPS = 16
CARD_BYTES = 15271
# Document 01's own limits, which the fewest passes keep.
FIRST_CARS, FIRST_TRAINS, FIRST_TRACKS, FIRST_ROOM, FIRST_STEPS = 512, 64, 8, 512, 8
# The numbers of the marks; every other number is taken for closed, too.
OPEN, CLOSED = 0, 1


class Answer(ctypes.Structure):
    """A number and its two details."""

    _fields_ = [("number", c_size_t), ("a", c_size_t), ("b", c_size_t)]


class Counts(ctypes.Structure):
    """The counts that no list sets; steps is the step limit for derive, and for every other call the steps themselves."""

    _fields_ = [("tracks", c_size_t), ("room", c_size_t), ("steps", c_size_t)]


class CardAnswer(ctypes.Structure):
    """What the card reader tells."""

    _fields_ = [*Answer._fields_, *((name, c_size_t) for name in ("mark", "steps", "tracks", "room", "cars", "trains"))]


class Timings(ctypes.Structure):
    """Seconds for a pull-out, and seconds to push one car."""

    _fields_ = [("pull", c_double), ("push", c_double)]


class PriceAnswer(ctypes.Structure):
    """What the price tells."""

    _fields_ = [*Answer._fields_, ("price", c_double)]


class Items:
    """A pointer to the items of an array; the call's arguments hold the array until the call is over."""

    @classmethod
    def from_param(cls, items: array[int]) -> c_void_p:
        return c_void_p(items.buffer_info()[0])


LIST: list[Any] = [Items, c_size_t]
NIGHT = LIST + LIST
MARKED: list[Any] = [c_size_t, Counts]
PLAN = NIGHT + LIST + MARKED

CALLS: dict[str, tuple[list[Any], Any]] = {
    "altairpeg_derive": (NIGHT + MARKED + LIST, Answer),
    "altairpeg_fewest_passes": (NIGHT + MARKED + LIST, Answer),
    "altairpeg_check": (PLAN, Answer),
    "altairpeg_replay": (PLAN + [c_size_t] + LIST + LIST, Answer),
    "altairpeg_read": (LIST * 4, CardAnswer),
    "altairpeg_write": (PLAN + LIST, Answer),
    "altairpeg_price": ([c_size_t, c_size_t, Timings], PriceAnswer),
    "altairpeg_fewest_tracks": ([c_uint16], c_size_t),
}
# The call that came last, with 2.1.0: a library that lacks it alone is of an earlier version.
NEWEST = "altairpeg_fewest_passes"


def opened(path: Path, told: Path) -> ctypes.CDLL:
    """The library in a shared object, with the type of each call; an error tells of the file it was made of."""
    try:
        library = ctypes.CDLL(str(path))
    except OSError as trouble:
        raise LibraryError(f"{told} gives a shared object that can't be loaded: {trouble}") from None
    _has_every_call(library, told)
    for name, (taken, given) in CALLS.items():
        call = getattr(library, name)
        call.argtypes = taken
        call.restype = given
    if not _prices_every_step(library):
        raise _earlier(told)
    return library


def _has_every_call(library: ctypes.CDLL, told: Path) -> None:
    """Tells of a library that is too old, or none of Altairpeg's, before any of it is called."""
    missing = [name for name in CALLS if not hasattr(library, name)]
    if missing == [NEWEST]:
        raise _earlier(told)
    if missing:
        raise LibraryError(f"{told} is broken or not of Altairpeg's library: it has no {missing[0]}")


def _prices_every_step(library: ctypes.CDLL) -> bool:
    """Whether a library prices as many steps as there are now, which none before 3.0.0 does.

    No name tells it from one of version 2, whose writer takes no mark and would write where it should not. The price has
    taken the same in every version.
    """
    return bool(library.altairpeg_price(STEPS, 0, Timings(0, 0)).number == 0)


def _earlier(told: Path) -> LibraryError:
    """The error that tells of a library of an earlier version."""
    return LibraryError(f"{told} is of an Altairpeg before 3.0.0, whose calls take other arguments: run `tools/build staticlib altairpeg` anew")


def _of_archive(source: Path) -> ctypes.CDLL:
    """The library of an archive, from the cache where its shared object is there and whole."""
    made = building.cached(source)
    if made.is_file():
        try:
            return opened(made, made)
        except LibraryError:
            pass  # cut off by a full disk, say: it is made anew
    building.build(source, made)
    return opened(made, source)


@lru_cache(maxsize=None)
def library() -> ctypes.CDLL:
    """The library, loaded once."""
    source = building.archive()
    if source is not None:
        return _of_archive(source)
    if building.PACKAGED.is_file():
        return opened(building.PACKAGED, building.PACKAGED)
    raise LibraryError(f"there is no libaltairpeg.a: run `tools/build staticlib altairpeg` in the checkout, or let {building.VARIABLE} name one")
