"""The library's calls, each with what it takes and answers in Python's words."""

from __future__ import annotations

import os
from array import array
from typing import Any, NamedTuple, SupportsFloat, SupportsIndex

from . import lists
from .errors import FileError, InputError, shown
from .library import CARD_BYTES, CARS, FIRST_CARS, FIRST_ROOM, FIRST_STEPS, FIRST_TRACKS, FIRST_TRAINS
from .library import OPEN, STEPS, TRAINS, Answer, Counts, Timings, library
from .nights import Checked, Derived, Mark, Night, Plan, Stage
from .places import place
from .refusal import Refusal

_COUNT_OUT_OF_RANGE, _CODE_TOO_LARGE = 1, 7
# What a plan is refused for before its codes are looked at, and where one is too large.
_UP_TO_CODES = (1, 2, 3, 4, _CODE_TOO_LARGE)
# By the A of refusal 1: the most that fewest_passes takes.
_FIRST = {1: FIRST_CARS, 2: FIRST_TRAINS, 3: FIRST_TRACKS, 4: FIRST_ROOM, 5: FIRST_STEPS}


def derive(night: Night, limit: SupportsIndex = STEPS) -> Derived:
    """Derives the plan of a night with the fewest steps, as `Derived`.

    Refuses 1, 2, 3, 5 or 6. 5 says that no plan that builds the trains keeps to the limit, with the
    destinations closed until the first pull where the night is closed; 6 speaks of the derived plan alone.
    """
    return _derived("altairpeg_derive", night, "limit", limit)


def fewest_passes(night: Night, steps: SupportsIndex) -> Derived:
    """Finds the plan of a night with the fewest hump passes for just so many steps, as `Derived`.

    Of the plans with as few passes it is the one whose codes are smallest at the first differing car. Refuses 1, 2, 3, 5
    or 6. 1 keeps document 01's limits: 512 cars, 64 trains, 8 tracks, room for 512 and 8 steps. 5 says that no codes of
    these steps build the trains, with the destinations closed until the first pull where the night is closed, and `a` is
    the fewest steps of which some do; 6 speaks of the found codes alone.
    """
    try:
        return _derived("altairpeg_fewest_passes", night, "steps", steps)
    except Refusal as refusal:
        raise _with_first_limit(refusal) from None


def check(plan: Plan) -> Checked:
    """Checks a plan offered by anyone, by its replay, as `Checked`.

    Refuses 1, 2, 3, 4, 7, 14 (a zero code in a closed night), 8, 6 or 9.
    """
    answer = _told("altairpeg_check", plan, _plan(plan))
    return Checked(answer.a, answer.b)


def replay(plan: Plan, stage: SupportsIndex) -> Stage:
    """Replays a plan to a stage, as `Stage`: 0 is the yard after the first roll-in, s after s steps.

    Refuses as `check` does, but not 9, and a stage above the steps with 1.
    """
    taken = _plan(plan)
    _, _, _, cars, *_ = taken.arguments
    tracks, places = lists.zeros(cars), lists.zeros(cars)
    answer = _told("altairpeg_replay", plan, taken, lists.count("stage", stage), tracks, cars, places, cars, stage=stage)
    return Stage(answer.a, tracks.tolist(), places.tolist())


def read_card(card: bytes | bytearray | memoryview) -> Plan:
    """Reads a night card of edition 1, which means an open night, or 2 from bytes, as `Plan`.

    Refuses 10, 11, 1, 2, 3, 12 or 17. It accepts plans that `check` would refuse.
    """
    data = lists.card(card)
    lengths, inbound, codes = lists.zeros(TRAINS), lists.zeros(CARS), lists.zeros(CARS)
    told = library().altairpeg_read(data, len(data), lengths, TRAINS, inbound, CARS, codes, CARS)
    if told.number:
        raise _refusal(told)
    mark = Mark.OPEN if told.mark == OPEN else Mark.CLOSED
    night = Night(lengths[: told.trains].tolist(), inbound[: told.cars].tolist(), told.tracks, told.room, mark)
    return Plan(night, told.steps, codes[: told.cars].tolist())


def read_card_file(path: str | os.PathLike[str]) -> Plan:
    """Reads a night card from its file, as `read_card` does; a file that can't be read raises `FileError`."""
    return read_card(card_bytes(path))


def card_bytes(path: str | os.PathLike[str]) -> bytes:
    """The bytes of a card's file. One byte more than the longest card has tells that the file is too long."""
    try:
        with open(os.fspath(path), "rb") as file:  # a number would be taken for an open file
            return file.read(CARD_BYTES + 1)
    except OSError as trouble:
        raise FileError(trouble.errno, trouble.strerror, os.fspath(path)) from None
    except (TypeError, ValueError):
        raise InputError(f"path is {shown(path)}, not the name of a file") from None


def write_card(plan: Plan) -> bytes:
    """Writes the night card of a plan, as `bytes`. Refuses 1, 2, 3, 4 or 7.

    It is of edition 1 where the night is open and every count keeps document 01's limits, else of edition 2.
    """
    card = array("B", bytes(CARD_BYTES))
    answer = _told("altairpeg_write", plan, _plan(plan), card, CARD_BYTES)
    return card[: answer.a].tobytes()


def price(steps: SupportsIndex, passes: SupportsIndex, pull: SupportsFloat, push: SupportsFloat) -> float:
    """Prices a night, exactly: steps times pull plus passes times push, in seconds. Refuses 1 or 13.

    Each timing is 0 to 4096 and a multiple of 1/16.
    """
    timings = Timings(lists.seconds("pull", pull), lists.seconds("push", push))
    answer = library().altairpeg_price(lists.count("steps", steps), lists.count("passes", passes), timings)
    if answer.number:
        raise _refusal(answer, steps=steps, passes=passes, pull=pull, push=push)
    return float(answer.price)


def fewest_tracks(code: SupportsIndex) -> int:
    """The fewest tracks on which a car with this code, 0 to 65535, is never pulled early."""
    number = lists.whole("code", code)
    if not 0 <= number <= lists.LARGEST:
        raise InputError(f"code is {shown(number)}, not 0 to {lists.LARGEST}")
    return int(library().altairpeg_fewest_tracks(number))


def _derived(call: str, night: Night, name: str, steps: SupportsIndex) -> Derived:
    """What a call answers that finds codes for a night; the name is what it takes the steps for, the limit or all of them."""
    lengths, inbound, tracks, room, mark = _night(night)
    cars = len(inbound)
    codes = lists.zeros(cars)
    counts = Counts(tracks, room, lists.count(name, steps))
    answer = getattr(library(), call)(lengths, len(lengths), inbound, cars, mark, counts, codes, cars)
    if answer.number:
        raise _refusal(answer, **{name: steps}, **night._asdict())
    derived = Derived(answer.a, answer.b, codes.tolist())
    derived.night = night
    return derived


def _night(night: Night) -> tuple[array[int], array[int], int, int, int]:
    """The lists, the counts and the mark of a night as the library takes them."""
    if not isinstance(night, Night):
        raise InputError(f"night is {shown(night)}, not a Night")
    return (
        lists.numbers("lengths", night.lengths),
        lists.numbers("inbound", night.inbound),
        lists.count("tracks", night.tracks),
        lists.count("room", night.room),
        lists.mark(night.mark),
    )


class _Taken(NamedTuple):
    """A plan as the library takes it, and the first car whose code goes over as a stand-in, 0 where none does."""

    arguments: tuple[Any, ...]
    too_wide: int


def _plan(plan: Plan) -> _Taken:
    """A plan as the library takes it."""
    if not isinstance(plan, Plan):
        raise InputError(f"plan is {shown(plan)}, not a Plan")
    lengths, inbound, tracks, room, mark = _night(plan.night)
    codes, too_wide = lists.codes(plan.codes)
    counts = Counts(tracks, room, lists.count("steps", plan.steps))
    return _Taken((lengths, len(lengths), inbound, len(inbound), codes, len(codes), mark, counts), too_wide)


def _told(call: str, plan: Plan, taken: _Taken, *further: Any, **given: Any) -> Any:
    """What a call answers for a plan; a refusal is raised."""
    answer = getattr(library(), call)(*taken.arguments, *further)
    if taken.too_wide and answer.number not in _UP_TO_CODES:
        # With 16 steps the stand-in is a code like any other, and only here it is known that it stands for none.
        answer = Answer(_CODE_TOO_LARGE, taken.too_wide, 0)
    if answer.number:
        raise _refusal(answer, steps=plan.steps, codes=plan.codes, **plan.night._asdict(), **given)
    return answer


def _refusal(answer: Any, **given: Any) -> Refusal:
    """The refusal in an answer, which names what was given there."""
    return Refusal(answer.number, answer.a, answer.b, place(answer.number, answer.a, answer.b, given))


def _with_first_limit(refusal: Refusal) -> Refusal:
    """A refusal of fewest_passes; where a count is out of its range, it tells document 01's limit, since other calls take more."""
    if refusal.number != _COUNT_OUT_OF_RANGE:
        return refusal
    limit = f"the fewest passes are found for at most {_FIRST[refusal.a]}"
    return Refusal(refusal.number, refusal.a, refusal.b, "; ".join(filter(None, [refusal.place, limit])))
