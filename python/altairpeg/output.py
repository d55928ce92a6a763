"""What is written, written whole or not at all: files, or standard output.

`python3 -m altairpeg.output FILE` keeps standard input in a file, for ./plan.
"""

from __future__ import annotations

import errno
import os
import stat
import sys
import tempfile

from .errors import FileError


def _usual_mode() -> int:
    """The mode that a new file has here."""
    mask = os.umask(0)
    os.umask(mask)
    return 0o666 & ~mask


def _replace(path: str, data: bytes, mode: int) -> None:
    """Writes beside the file first and then moves that over it, so that nobody ever sees half of it."""
    handle, beside = tempfile.mkstemp(prefix=".altairpeg-", dir=os.path.dirname(path))
    try:
        with os.fdopen(handle, "wb") as file:
            file.write(data)
        os.chmod(beside, mode)
        os.replace(beside, path)
    except BaseException:
        os.unlink(beside)
        raise


def write_whole(name: str, data: bytes) -> None:
    """Writes a file, or standard output for -. A device or a pipe is written to; it is not replaced by a file."""
    try:
        if name == "-":
            write_out(data)
        else:
            _write_file(name, data)
    except BrokenPipeError:
        raise
    except OSError as trouble:
        raise FileError(trouble.errno, trouble.strerror, name) from None


def _write_file(name: str, data: bytes) -> None:
    """Writes a file that may be new, be there already, or be no plain file."""
    try:
        mode = os.stat(name).st_mode
    except FileNotFoundError:
        _replace(os.path.realpath(name), data, _usual_mode())
        return
    plain = stat.S_ISREG(mode)
    # Opened even where it is to be replaced: a file that is write-protected, and a folder, are refused here.
    with open(name, "r+b" if plain else "wb") as file:
        if not plain:
            file.write(data)
    if plain:
        _replace(os.path.realpath(name), data, stat.S_IMODE(mode))


def write_out(data: bytes) -> None:
    """Writes to standard output and sees to it that all of it went out."""
    if sys.stdout is None:
        raise OSError(errno.EBADF, os.strerror(errno.EBADF), "standard output")
    try:
        sys.stdout.buffer.write(data)
        sys.stdout.buffer.flush()
    except OSError:
        # What could not be written would be tried again, and fail again, when Python ends.
        os.dup2(os.open(os.devnull, os.O_WRONLY), sys.stdout.fileno())
        raise


def main() -> int:
    """Keeps standard input in the file named: 0, or 2 and a word where that fails."""
    try:
        write_whole(sys.argv[1], sys.stdin.buffer.read())
    except OSError as fault:
        print(f"{sys.argv[1]}: {fault.strerror}", file=sys.stderr)
        return 2
    return 0


if __name__ == "__main__":
    sys.exit(main())
