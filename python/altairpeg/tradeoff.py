"""The command `tradeoff`: what more steps cost and save, and which number of steps is the cheapest."""

from __future__ import annotations

import argparse
from typing import Any

from .chart import picture
from .choices import weigh
from .files import CARD_HELP, JSON_HELP, night_line, read_night
from .output import write_whole
from .timings import add_timings


def register(commands: Any) -> None:
    """tradeoff CARD --pull --push"""
    parser = commands.add_parser(
        "tradeoff",
        allow_abbrev=False,
        help="weigh steps against hump passes: the price of each number of steps",
        description="For each number of steps, from the fewest that will do to 8, prints the fewest passes, the fullest pull and the price, "
        "and marks the cheapest. The steps and codes of the card do not count. Steps whose codes overfill a track are shown as refused; "
        "the exit status is 1 where all are. The fewest passes are found for up to 512 cars, 64 trains, 8 tracks and room for 512.",
        epilog=JSON_HELP,
    )
    parser.add_argument("card", metavar="CARD", help=CARD_HELP)
    add_timings(parser)
    parser.add_argument("--svg", metavar="FILE", help="draw a picture into this file, or - for standard output, in place of the lines")
    parser.set_defaults(run=run)


def run(given: argparse.Namespace) -> int:
    """Prints or draws the tradeoff; where no number of steps has room, that is told too."""
    tradeoff = weigh(read_night(given.card), given.pull, given.push)
    if given.svg is not None:
        write_whole(given.svg, picture(tradeoff).encode())
    else:
        print(night_line(tradeoff.night), *tradeoff.lines(), sep="\n")
    if tradeoff.refusal is not None:
        raise tradeoff.refusal
    return 0
