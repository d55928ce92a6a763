"""The two timings as options of a command."""

from __future__ import annotations

import argparse
from decimal import Decimal, InvalidOperation


def add_timings(parser: argparse.ArgumentParser) -> None:
    """--pull and --push"""
    parser.add_argument("--pull", type=_seconds, required=True, metavar="S", help="seconds for a pull-out, 0 to 4096 in sixteenths")
    parser.add_argument("--push", type=_seconds, required=True, metavar="S", help="seconds to push one car, 0 to 4096 in sixteenths")


def _seconds(text: str) -> Decimal:
    """Seconds to the last digit: a double might round a timing that isn't allowed to one that is."""
    try:
        return Decimal(text)
    except InvalidOperation:
        raise argparse.ArgumentTypeError(f"{text!r} is not a number of seconds") from None
