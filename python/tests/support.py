"""What the tests share: night N, open and closed, and its cards, a scratch folder, and the command line as a process of its own."""

import json
import os
import subprocess
import sys
import tempfile
import unittest
from pathlib import Path

from altairpeg import Mark, Night, Plan, Refusal

OPEN, CLOSED = Mark.OPEN, Mark.CLOSED
PYTHON = Path(__file__).resolve().parent.parent
INBOUND = [3, 6, 1, 5, 2, 4]
CODES = [0, 0, 1, 1, 2, 3]
# The codes of night N where it is closed: three steps.
CLOSED_CODES = [1, 1, 2, 2, 3, 5]
CARD = bytes.fromhex("12200C060203006030020280 40202D80")
# The card of that night with room for 4, which is of edition 2: the mark, 3 steps, 2 tracks, room 4, 6 cars, 1 train.
CLOSED_CARD = bytes.fromhex("28C40040030040 0C003003000400A002002129 3A")
# The plan of case 6, which check refuses with 9, car 3; and a card that the reader refuses with 10, 16 bytes.
DISORDERED = [0, 0, 0, 1, 2, 3]
SHORT = CARD[:15]


def n(tracks=2, room=512, mark=OPEN):
    """Night N, one train; open as document 01 has it."""
    return Night([6], INBOUND, tracks, room, mark)


def blocks(room=3, mark=OPEN):
    """One train of five blocks without a break, 1 | 2 | 3 | 4 5 | 6, on four tracks: with a step to spare it has fewer passes."""
    return Night([6], [6, 4, 5, 3, 2, 1], 4, room, mark)


def one_car(mark):
    """A night of one car."""
    return Night([1], [1], 2, 512, mark)


def turned(cars, tracks, mark=OPEN, room=512):
    """One train of cars that come in the wrong way round."""
    return Night([cars], list(range(cars, 0, -1)), tracks, room, mark)


def as_json(plan):
    """A plan, or a night alone, as the bytes of a JSON file."""
    named = {**plan.night._asdict(), "steps": plan.steps, "codes": plan.codes} if isinstance(plan, Plan) else plan._asdict()
    return json.dumps(named).encode()


def told(refusal):
    """The number and the details of a refusal."""
    return (refusal.number, refusal.a, refusal.b)


def python(*arguments, **options):
    """Runs Python with this package, in a process of its own and from another folder; `set` adds to the environment."""
    environment = {**os.environ, "PYTHONPATH": str(PYTHON), **options.pop("set", {})}
    command = [sys.executable, *map(os.fspath, arguments)]
    return subprocess.run(command, env=environment, **{"capture_output": True, "cwd": os.sep, **options})


def altairpeg(*arguments, **options):
    """Runs the command line, in a process of its own."""
    return python("-m", "altairpeg", *arguments, **options)


def skipped(missing, word):
    """Skips what can't be tried here, and says so even where unittest shows but a letter for it."""
    if missing:
        print(f"skipped: {word}", file=sys.stderr)
    return unittest.skipIf(missing, word)


class Scratch(unittest.TestCase):
    """Tests with a folder of their own, whose name has a blank."""

    def setUp(self):
        kept = tempfile.TemporaryDirectory(prefix="altairpeg test ")
        self.addCleanup(kept.cleanup)
        self.folder = Path(kept.name)

    def file(self, name, data):
        """A file in the folder."""
        path = self.folder / name
        path.write_bytes(data)
        return path

    def refused(self, number, a, b, call, *given):
        """The refusal of a call, whose number and details are these."""
        with self.assertRaises(Refusal) as caught:
            call(*given)
        self.assertEqual(told(caught.exception), (number, a, b))
        return caught.exception

    def ran(self, run, status, out="", err=""):
        """A process ended with this status and said this; bytes that are no text are compared by themselves."""
        self.assertEqual((run.stdout.decode(), run.stderr.decode(), run.returncode), (out, err, status))
