"""The command `card`: a card from numbers or from a JSON file, so that nobody writes bytes by hand."""

from __future__ import annotations

import argparse
import sys
from typing import Any

from .calls import derive, write_card
from .errors import InputError
from .files import CODES, NIGHT, headline, is_json, night_of, plan_of, read_object
from .library import STEPS
from .nights import Mark, Plan
from .output import write_whole


def register(commands: Any) -> None:
    """card NIGHT.json, or card --lengths --inbound --tracks --room --mark"""
    parser = commands.add_parser(
        "card",
        allow_abbrev=False,
        help="make a card from numbers or a JSON file",
        description="Makes a night card. Without steps and codes it derives the plan with the fewest steps. The mark must be said.",
        epilog="Lists are numbers with commas or blanks between them. The JSON file has one object with the same names: "
        "lengths, inbound, tracks, room, mark, and steps and codes where they are given.",
    )
    parser.add_argument("json", metavar="NIGHT.json", nargs="?", help="the night as JSON, or - for standard input")
    parser.add_argument("--lengths", type=_numbers, nargs="+", metavar="N", help="the cars of each outbound train")
    parser.add_argument("--inbound", type=_numbers, nargs="+", metavar="CAR", help="the cars in the order in which they come in")
    parser.add_argument("--tracks", type=int, metavar="W", help="the sorting tracks")
    parser.add_argument("--room", type=int, metavar="C", help="the room on each track, in cars")
    parser.add_argument("--mark", choices=[mark.value for mark in Mark], help="whether the destination tracks are open from the start")
    parser.add_argument("--steps", type=int, metavar="H", help="the steps of a plan of your own")
    parser.add_argument("--codes", type=_numbers, nargs="+", metavar="CODE", help="its codes, in car order")
    parser.add_argument("--limit", type=int, metavar="STEPS", help="the most steps that a derived plan may have, 0 to 16 (16)")
    parser.add_argument("-o", "--output", metavar="FILE", help="the card's file; standard output where it isn't given, or is -")
    parser.set_defaults(run=run)


def run(given: argparse.Namespace) -> int:
    """Writes the card, and tells of it where standard output is free."""
    if given.output is not None and is_json(given.output):
        raise InputError(f"{given.output} would be a card by the name of a JSON file: altairpeg derive keeps a plan as JSON")
    plan = _plan(_named(given), given.limit)
    card = write_card(plan)
    if given.output is None and sys.stdout.isatty():
        raise InputError("a card is bytes: give -o FILE, or send standard output to a file")
    write_whole("-" if given.output is None else given.output, card)
    if given.output not in (None, "-"):
        print(f"{given.output}: {len(card)} bytes,", headline(plan))
    return 0


def _numbers(text: str) -> list[int]:
    """The numbers in one argument, with commas or blanks between them."""
    return [int(number) for number in text.replace(",", " ").split()]


def _named(given: argparse.Namespace) -> dict[str, Any]:
    """What is given, by its name: from the options or from the JSON file, not from both."""
    options = {name: value for name, value in vars(given).items() if name in (*NIGHT, *CODES) and value is not None}
    if given.json is not None and options:
        raise InputError(f"--{next(iter(options))} and a JSON file don't go together")
    if given.json is not None:
        return read_object(given.json)
    return {name: sum(value, []) if isinstance(value, list) else value for name, value in options.items()}


def _plan(named: dict[str, Any], limit: int | None) -> Plan:
    """The plan that is given, or the derived one where no codes are given."""
    given = plan_of(named)
    if given is None:
        return derive(night_of(named), STEPS if limit is None else limit).plan
    if limit is not None:
        raise InputError("a plan of your own has its steps, and no limit")
    return given
