"""Multistage sorting plans: derived, checked, replayed, priced and stored on night cards.

Lists in, named tuples out, and a `Refusal` with the paper's number, details and words where a call refuses.

>>> import altairpeg
>>> night = altairpeg.Night(lengths=[6], inbound=[3, 6, 1, 5, 2, 4], tracks=2, room=3, mark="open")
>>> altairpeg.derive(night)
Derived(steps=2, passes=11, codes=[0, 0, 1, 1, 2, 3])
>>> altairpeg.derive(night, limit=1)
Traceback (most recent call last):
    ...
altairpeg.refusal.Refusal: refused 5 2 0: fewest steps above the limit (fewest steps 2)

Where the destination tracks serve other work until the first pull, the night is closed, and no car gets code 0:

>>> altairpeg.derive(night._replace(room=4, mark="closed"))
Derived(steps=3, passes=14, codes=[1, 1, 2, 2, 3, 5])

Where there are steps to spare, fewer cars need to be pushed:

>>> night = altairpeg.Night(lengths=[6], inbound=[6, 4, 5, 3, 2, 1], tracks=4, room=3, mark="open")
>>> altairpeg.derive(night)
Derived(steps=3, passes=13, codes=[0, 1, 2, 3, 3, 4])
>>> altairpeg.fewest_passes(night, steps=3)
Derived(steps=3, passes=12, codes=[0, 1, 2, 4, 4, 5])
>>> altairpeg.fewest_passes(night, steps=4)
Derived(steps=4, passes=11, codes=[0, 1, 2, 4, 4, 8])

Every error is an `AltairpegError`: a `Refusal`; an `InputError`, which is a `ValueError`, where something is no number, list,
mark or card at all; a `FileError`, which is an `OSError`; a `LibraryError` where the library can't be loaded.

`python3 -m altairpeg --help`, or `altairpeg --help` where it is installed, tells of the command line.
"""

from .calls import check, derive, fewest_passes, fewest_tracks, price, read_card, read_card_file, replay, write_card
from .errors import AltairpegError, FileError, InputError, LibraryError
from .nights import Checked, Derived, Mark, Night, Numbers, Plan, Stage
from .refusal import Refusal

__version__ = "3.0.0"

__all__ = [
    "Night", "Mark", "Plan", "Derived", "Checked", "Stage", "Numbers",
    "AltairpegError", "Refusal", "InputError", "FileError", "LibraryError",
    "derive", "fewest_passes", "check", "replay", "read_card", "read_card_file", "write_card", "price", "fewest_tracks",
]
