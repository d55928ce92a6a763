"""What the command line reads and keeps: cards and JSON files.

A card is a file or - for standard input. A JSON file, whose name ends in .json, has one object with the names of a night, its
mark among them, and with steps and codes where it has a plan.
"""

from __future__ import annotations

import errno
import json
import os
import re
import sys
from pathlib import Path
from typing import Any

from .calls import card_bytes, read_card, write_card
from .errors import FileError, InputError, shown
from .library import CARD_BYTES
from .nights import Mark, Night, Plan
from .refusal import Refusal

CARD_HELP = "a file with the card's bytes, or - for standard input; or a JSON file, whose name ends in .json"
JSON_HELP = (
    "A JSON file has one object with the names lengths, inbound, tracks, room and mark, which is open or closed, and with steps and "
    "codes where it has a plan."
)
NIGHT = Night._fields
CODES = ("steps", "codes")
# What nightplan writes in place of a card; its first letter would begin one of edition 7.
_REFUSED = re.compile(rb"refused ([0-9]{1,20}) ([0-9]{1,20}) ([0-9]{1,20})\n?")


def is_json(name: str) -> bool:
    """Whether a file's name says that it is JSON, and no card."""
    return name.endswith(".json")


def read_night(name: str) -> Night:
    """The night of a card or a JSON file; its steps and codes do not count."""
    return night_of(read_object(name)) if is_json(name) else _card_plan(name).night


def read_plan(name: str) -> Plan:
    """The plan of a card or a JSON file."""
    if not is_json(name):
        return _card_plan(name)
    plan = plan_of(read_object(name))
    if plan is None:
        raise InputError(f"{name} has a night and no plan: altairpeg derive, with -o PLAN.json, adds steps and codes")
    return plan


def _card_plan(name: str) -> Plan:
    """The plan of a card; a refusal line that comes in its place is raised as that refusal."""
    data = standard_input(CARD_BYTES + 1) if name == "-" else card_bytes(name)
    line = _REFUSED.fullmatch(data)
    if line:
        number, a, b = map(int, line.groups())
        raise Refusal(number, a, b)
    if data.lstrip(b"\t\r\n").startswith(b"{"):  # a card of edition 0 or 7; but a blank may begin one of edition 2
        raise InputError(f"{name} looks like JSON, not like a card: the name of a JSON file ends in .json")
    return read_card(data)


def standard_input(most: int = -1) -> bytes:
    """What comes from standard input, up to so many bytes."""
    if sys.stdin is None:
        raise FileError(errno.EBADF, os.strerror(errno.EBADF), "-")
    return sys.stdin.buffer.read(most)


def read_object(name: str) -> dict[str, Any]:
    """The object in a JSON file, or in what comes from standard input for -."""
    try:
        read = json.loads(standard_input() if name == "-" else Path(name).read_bytes(), object_pairs_hook=_once)
    except OSError as trouble:
        raise FileError(trouble.errno, trouble.strerror, name) from None
    except InputError as trouble:
        raise InputError(f"{name}: {trouble}") from None
    except (ValueError, RecursionError) as trouble:
        raise InputError(f"{name} is not JSON: {trouble}") from None
    if not isinstance(read, dict):
        raise InputError(f"{name} has {shown(read)}, not an object with {', '.join(NIGHT)}")
    return read


def _once(pairs: list[tuple[str, Any]]) -> dict[str, Any]:
    """An object in which each name stands once: of two marks Python would keep the last without a word."""
    names = [name for name, _ in pairs]
    twice = [name for at, name in enumerate(names) if name in names[:at]]
    if twice:
        raise InputError(f"{shown(twice[0])} stands twice in one object")
    return dict(pairs)


def night_of(named: dict[str, Any]) -> Night:
    """The night whose parts are named; every one of them must be, and nothing else but steps and codes may be."""
    missing = [name for name in NIGHT if name not in named]
    foreign = [name for name in named if name not in (*NIGHT, *CODES)]
    if missing:
        advice = ": a night must say whether it is open or closed" if missing[0] == "mark" else ""
        raise InputError(f"{missing[0]} is missing{advice}")
    if foreign:
        raise InputError(f"{shown(foreign[0])} is none of {', '.join((*NIGHT, *CODES))}")
    return Night(**{name: named[name] for name in NIGHT})


def plan_of(named: dict[str, Any]) -> Plan | None:
    """The plan whose parts are named, or None where they are those of a night alone."""
    night = night_of(named)
    missing = [name for name in CODES if name not in named]
    if len(missing) == 1:
        raise InputError(f"{missing[0]} is missing: a plan has both steps and codes")
    return None if missing else Plan(night, *(named[name] for name in CODES))


def kept(name: str, plan: Plan) -> bytes:
    """The bytes by which a file of this name keeps a plan: JSON or a card."""
    return _json(plan) if is_json(name) else write_card(plan)


def _json(plan: Plan) -> bytes:
    """A plan as JSON, a line for each name."""
    named = {**plan.night._asdict(), "steps": plan.steps, "codes": plan.codes}
    return ("{\n" + ",\n".join(f"  {json.dumps(name)}: {json.dumps(value)}" for name, value in named.items()) + "\n}\n").encode()


def headline(plan: Plan) -> str:
    """Steps, tracks, room, cars and trains, as nightcard prints them."""
    return f"steps {plan.steps} {night_line(plan.night)}"


def night_line(night: Night) -> str:
    """The headline of a night alone; a closed one says so, which nightcard does not."""
    closed = " mark closed" if night.mark == Mark.CLOSED else ""
    return f"tracks {night.tracks} room {night.room} cars {len(night.inbound)} trains {len(night.lengths)}{closed}"
