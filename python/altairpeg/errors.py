"""What this package raises: one base class, so that a batch needs one `except`."""

from __future__ import annotations

from reprlib import Repr

_SHORT = Repr()
_SHORT.maxlist = _SHORT.maxtuple = 4


class AltairpegError(Exception):
    """The base of every error that this package raises of itself."""


class InputError(AltairpegError, ValueError):
    """What was given is not a number, a list, a mark or a card at all, so document 01 has no number for it.

    The message names it, an item of a list by Python's index: `inbound[3] is None, not a whole number`.
    """


class FileError(AltairpegError, OSError):
    """A card's file can't be read."""


class LibraryError(AltairpegError):
    """The library can't be loaded; the message says in one sentence why."""


def shown(value: object) -> str:
    """A value for a message, cut short; one that can't even be shown is told by its type."""
    try:
        return _SHORT.repr(value)
    except Exception:  # Python shows no number of more than 4,300 digits, and a __repr__ may fail
        return f"a number of {value.bit_length()} bits" if isinstance(value, int) else f"a {type(value).__name__}"
