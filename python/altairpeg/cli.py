"""The command line: `altairpeg` and `python3 -m altairpeg`.

Exit status: 0 done, 1 refused, 2 wrong usage or a file that can't be read or written. What is asked for goes to standard
output; refusals, in numbers and words, and errors go to standard error.
"""

from __future__ import annotations

import argparse
import os
import sys
import traceback
from typing import Any, Sequence

from . import __version__, batch, make, show, tradeoff
from .calls import check, derive, price
from .errors import AltairpegError, InputError
from .files import CARD_HELP, JSON_HELP, headline, kept, read_night, read_plan
from .library import STEPS
from .nights import Plan
from .output import write_whole
from .refusal import Refusal
from .timings import add_timings

DONE, REFUSED, WRONG = 0, 1, 2
INTERRUPTED = 130


def main(arguments: Sequence[str] | None = None) -> int:
    """Runs a command and gives its exit status."""
    if sys.stdout is None:
        return _told("altairpeg: standard output is closed", WRONG)
    sys.stdout.reconfigure(errors="surrogateescape")  # type: ignore[attr-defined]  # a file's name may be any bytes
    status = _status(arguments)
    return status if _flushed() else WRONG


def _status(arguments: Sequence[str] | None) -> int:
    """Runs a command; a refusal or an error is said in a line."""
    try:
        given = _parser().parse_args(arguments)
        return int(given.run(given))
    except SystemExit as ended:  # the parser has said what there is to say: help, version or usage
        return ended.code if isinstance(ended.code, int) else DONE
    except Refusal as refusal:
        return _told(refusal, REFUSED)
    except BrokenPipeError:
        return WRONG  # whoever read standard output is gone, and wants no word
    except (AltairpegError, OSError, UnicodeError) as trouble:
        return _told(f"altairpeg: {_sentence(trouble)}", WRONG)
    except KeyboardInterrupt:
        return INTERRUPTED
    except Exception:
        traceback.print_exc()  # a fault of this program; Python's own status for it, 1, is kept for refusals
        return WRONG


def _sentence(trouble: Exception) -> str:
    """What is wrong; of a file, its name and the system's words without its number."""
    if isinstance(trouble, OSError) and trouble.filename is not None:
        return f"{os.fsdecode(trouble.filename)}: {trouble.strerror}"
    return str(trouble)


def _told(trouble: object, status: int) -> int:
    """Says what is wrong, and gives the exit status for it."""
    if sys.stderr is not None:  # print would take standard output in its place
        print(trouble, file=sys.stderr)
    return status


def _flushed() -> bool:
    """Whether all of standard output went out; what didn't goes nowhere, or Python would try once more at its end."""
    try:
        sys.stdout.flush()
        return True
    except OSError as trouble:
        if not isinstance(trouble, BrokenPipeError):
            _told(f"altairpeg: standard output: {trouble.strerror}", WRONG)
        os.dup2(os.open(os.devnull, os.O_WRONLY), sys.stdout.fileno())
        return False


def _parser() -> argparse.ArgumentParser:
    """Every command with its options."""
    parser = argparse.ArgumentParser(prog="altairpeg", description="Multistage sorting plans.", allow_abbrev=False)
    parser.add_argument("--version", action="version", version=f"altairpeg {__version__}")
    commands = parser.add_subparsers(dest="command", metavar="COMMAND", required=True)
    make.register(commands)
    _register_derive(commands)
    _register_check(commands)
    _register_price(commands)
    tradeoff.register(commands)
    show.register(commands)
    batch.register(commands)
    return parser


def _register_derive(commands: Any) -> None:
    """derive CARD"""
    words = "derive the night of a card or a JSON file anew, with the fewest steps"
    parser = commands.add_parser("derive", allow_abbrev=False, help=words, epilog=JSON_HELP)
    parser.add_argument("card", metavar="CARD", help=CARD_HELP)
    parser.add_argument("--limit", type=int, default=STEPS, metavar="STEPS", help="the most steps allowed, 0 to 16 (16)")
    kept_help = "keep the new plan here, as JSON where the name ends in .json, else as a card; - is standard output, for a card alone"
    parser.add_argument("-o", "--output", metavar="FILE", help=kept_help)
    parser.set_defaults(run=_derive)


def _derive(given: argparse.Namespace) -> int:
    """Prints the derived plan, and keeps it where that is asked for."""
    derived = derive(read_night(given.card), given.limit)
    if given.output is not None:
        write_whole(given.output, kept(given.output, derived.plan))
    if given.output != "-":
        print(headline(derived.plan), "passes", derived.passes)
        print("codes", *derived.codes)
    return DONE


def _register_check(commands: Any) -> None:
    """check CARD"""
    words = "check the plan of a card or a JSON file by its replay"
    parser = commands.add_parser("check", allow_abbrev=False, help=words, epilog=JSON_HELP)
    parser.add_argument("card", metavar="CARD", help=CARD_HELP)
    parser.set_defaults(run=_check)


def _check(given: argparse.Namespace) -> int:
    """Prints what an accepted plan costs."""
    plan = read_plan(given.card)
    checked = check(plan)
    print(headline(plan), "passes", checked.passes, "fullest pull", checked.fullest_pull)
    return DONE


def _register_price(commands: Any) -> None:
    """price CARD, or price --steps --passes"""
    words = "price the plan of a card or a JSON file, or steps and passes"
    parser = commands.add_parser("price", allow_abbrev=False, help=words, epilog=JSON_HELP)
    parser.add_argument("card", metavar="CARD", nargs="?", help=CARD_HELP)
    parser.add_argument("--steps", type=int, metavar="H", help="in place of a card: its steps")
    parser.add_argument("--passes", type=int, metavar="P", help="in place of a card: its hump passes")
    add_timings(parser)
    parser.set_defaults(run=_price)


def _price(given: argparse.Namespace) -> int:
    """Prints steps, passes and the price in seconds."""
    filled = [value is not None for value in (given.card, given.steps, given.passes)]
    if filled not in ([True, False, False], [False, True, True]):
        raise InputError("price takes either a CARD, or both --steps and --passes")
    steps, passes = _cost(read_plan(given.card)) if filled[0] else (given.steps, given.passes)
    print("steps", steps, "passes", passes, "price", price(steps, passes, given.pull, given.push))
    return DONE


def _cost(plan: Plan) -> tuple[int, int]:
    """The steps of a plan that check accepts, and its passes."""
    return plan.steps, check(plan).passes


if __name__ == "__main__":
    sys.exit(main())
