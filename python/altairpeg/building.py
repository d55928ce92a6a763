"""Where the shared object of the library comes from.

The archive's code is position independent, so one command makes a shared object of it:

    gcc -shared -o libaltairpeg.so -Wl,--whole-archive libaltairpeg.a -Wl,--no-whole-archive

The archive is the one that the variable ALTAIRPEG_ARCHIVE names, whatever its age, or else that of the checkout around
this file, `target/staticlib/libaltairpeg.a`, which `tools/build staticlib altairpeg` makes. Its shared object is made on first
use into the user's cache, under a name that follows from the archive's bytes, so an old one is never taken for a new
one. Where there is no archive, the shared object inside the package serves, which `pip install` has put there.
"""

from __future__ import annotations

import hashlib
import os
import shutil
import subprocess
import tempfile
from pathlib import Path

from .errors import LibraryError

HERE = Path(__file__).resolve().parent
VARIABLE = "ALTAIRPEG_ARCHIVE"
PACKAGED = HERE / "libaltairpeg.so"
COMMAND = ("gcc", "-shared", "-Wl,--whole-archive", "{archive}", "-Wl,--no-whole-archive", "-o", "{made}")


def archive() -> Path | None:
    """The archive of which the shared object is to be made, or None where there is none."""
    named = os.environ.get(VARIABLE)
    if named:
        return Path(named).absolute()
    beside = HERE.parent.parent / "target" / "staticlib" / "libaltairpeg.a"
    return beside if beside.is_file() else None


def cache() -> Path:
    """The folder for shared objects: the user's cache, where a name that isn't absolute does not count."""
    named = os.environ.get("XDG_CACHE_HOME", "")
    try:
        base = Path(named) if os.path.isabs(named) else Path.home() / ".cache"
    except RuntimeError:
        raise LibraryError("the user has no home folder for the shared object: set XDG_CACHE_HOME to a folder") from None
    return base / "altairpeg"


def cached(source: Path) -> Path:
    """The place of an archive's shared object in the cache, by the archive's bytes and the command."""
    try:
        data = source.read_bytes()
    except OSError as trouble:
        advice = f"run `tools/build staticlib altairpeg`, or let {VARIABLE} name libaltairpeg.a"
        raise LibraryError(f"{source} can't be read ({trouble.strerror}): {advice}") from None
    digest = hashlib.sha256(" ".join(COMMAND).encode() + data).hexdigest()
    return cache() / f"libaltairpeg-{digest[:32]}.so"


def link(source: Path, made: Path) -> None:
    """Makes the shared object of an archive with gcc."""
    gcc = shutil.which(COMMAND[0])
    if gcc is None:
        advice = "install gcc, or an altairpeg that has its shared object"
        raise LibraryError(f"gcc is missing, which makes a shared object of {source}: {advice}")
    command = [gcc, *(part.format(archive=source, made=made) for part in COMMAND[1:])]
    run = subprocess.run(command, stdin=subprocess.DEVNULL, capture_output=True, text=True, errors="replace")
    if run.returncode != 0:
        said = (run.stderr.strip().splitlines() or ["nothing"])[0]
        raise LibraryError(f"gcc can't make a shared object of {source}, which seems to be broken; it says: {said}")


def build(source: Path, made: Path) -> None:
    """Makes the shared object in its place; a process that looks there meanwhile finds a whole one or none."""
    try:
        made.parent.mkdir(parents=True, exist_ok=True)
        with tempfile.TemporaryDirectory(dir=made.parent) as folder:
            fresh = Path(folder) / made.name
            link(source, fresh)
            os.replace(fresh, made)
    except OSError as trouble:
        raise LibraryError(f"{made.parent} can't be written ({trouble.strerror}): let XDG_CACHE_HOME name a folder that can") from None
