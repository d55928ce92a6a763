"""The command `batch`: every card of a folder derived or checked, on all cores."""

from __future__ import annotations

import argparse
import csv
import os
import signal
import sys
from concurrent.futures import ProcessPoolExecutor
from concurrent.futures.process import BrokenProcessPool
from contextlib import contextmanager
from functools import partial
from typing import Any, Callable, Iterable, Iterator, NamedTuple

from .calls import check, derive, write_card
from .errors import AltairpegError, FileError, InputError
from .files import read_plan
from .library import STEPS, library
from .nights import Plan
from .output import write_whole
from .refusal import Refusal

# As many cards go to a process at once; fewer are not worth a process.
CHUNK = 64


class Row(NamedTuple):
    """A line of the table: what is known of a card, number 0 where it is done and none where its file fails."""

    card: str
    number: int | None = None
    a: int | None = None
    b: int | None = None
    steps: int | None = None
    tracks: int | None = None
    room: int | None = None
    cars: int | None = None
    trains: int | None = None
    passes: int | None = None
    fullest_pull: int | None = None
    words: str = ""


class Task(NamedTuple):
    """What is to be done with each card."""

    folder: str
    check: bool
    limit: int
    output: str | None


def register(commands: Any) -> None:
    """batch FOLDER"""
    parser = commands.add_parser(
        "batch",
        allow_abbrev=False,
        help="derive or check every card of a folder",
        description="Derives every card of a folder anew, on all cores, and prints a table: a line of names, then one line for "
        "each card in the order of the files' names.",
        epilog="Exit status 1 if any card is refused, 2 if any file can't be read or written.",
    )
    parser.add_argument("folder", metavar="FOLDER", help="its cards are the files whose names end in .card")
    parser.add_argument("--check", action="store_true", help="check the plans as they are, in place of deriving them")
    parser.add_argument("--limit", type=int, default=STEPS, metavar="STEPS", help="the most steps that a derived plan may have, 0 to 16 (16)")
    parser.add_argument("--jobs", type=_jobs, metavar="N", help="processes to use (one for each core)")
    parser.add_argument("-o", "--output", metavar="FOLDER", help="keep the derived cards here, under the same names")
    parser.set_defaults(run=run)


def run(given: argparse.Namespace) -> int:
    """Prints the table and gives the exit status."""
    task = Task(given.folder, given.check, given.limit, given.output)
    names = _names(task.folder)
    if task.output is not None:
        _prepare(task, task.output)
    library()  # once, before there are many processes that would each make the shared object
    jobs = given.jobs or len(os.sched_getaffinity(0))
    with _mapped(min(jobs, -(-len(names) // CHUNK))) as mapped:
        return _table(mapped(partial(row, task), names), len(names))


def row(task: Task, name: str) -> Row:
    """The line of one card."""
    try:
        plan = read_plan(os.path.join(task.folder, name))
    except Refusal as refusal:
        return _refused(Row(name), refusal)
    except FileError as trouble:
        return Row(name, words=trouble.strerror or str(trouble))
    night = plan.night
    known = Row(name, tracks=night.tracks, room=night.room, cars=len(night.inbound), trains=len(night.lengths))
    try:
        return _done(known, plan if task.check else _derived(task, name, plan))
    except Refusal as refusal:
        return _refused(known._replace(steps=plan.steps if task.check else None), refusal)
    except FileError as trouble:
        return known._replace(words=f"the new card: {trouble.strerror}")


def _derived(task: Task, name: str, plan: Plan) -> Plan:
    """The plan derived anew, and kept where that is asked for."""
    derived = derive(plan.night, task.limit).plan
    if task.output is not None:
        write_whole(os.path.join(task.output, name), write_card(derived))
    return derived


def _done(known: Row, plan: Plan) -> Row:
    """The line of a plan that check accepts."""
    checked = check(plan)
    return known._replace(number=0, a=0, b=0, steps=plan.steps, passes=checked.passes, fullest_pull=checked.fullest_pull, words="done")


def _refused(known: Row, refusal: Refusal) -> Row:
    """The line of a refused card."""
    return known._replace(number=refusal.number, a=refusal.a, b=refusal.b, words=f"{refusal.words} ({refusal.details})")


def _names(folder: str) -> list[str]:
    """The names of the cards, in order; a link that leads nowhere counts, so that it is told."""
    try:
        with os.scandir(folder) as entries:
            names = sorted(entry.name for entry in entries if entry.name.endswith(".card") and (entry.is_file() or entry.is_symlink()))
    except OSError as trouble:
        raise FileError(trouble.errno, trouble.strerror, folder) from None
    if not names:
        raise InputError(f"{folder} has no file whose name ends in .card")
    return names


def _prepare(task: Task, output: str) -> None:
    """The folder for the new cards, which is not that of the old ones."""
    if task.check:
        raise InputError("--check makes no new cards, so it has no use for --output")
    try:
        os.makedirs(output, exist_ok=True)
        same = os.path.samefile(task.folder, output)
    except OSError as trouble:
        raise FileError(trouble.errno, trouble.strerror, output) from None
    if same:
        raise InputError("the new cards would take the place of the old ones: name another folder")


def _jobs(text: str) -> int:
    """How many processes: at least one."""
    if int(text) < 1:
        raise argparse.ArgumentTypeError(f"{text} is not at least 1")
    return int(text)


@contextmanager
def _mapped(jobs: int) -> Iterator[Callable[..., Iterable[Row]]]:
    """A map that keeps the order, over processes where one is not enough."""
    if jobs <= 1:
        yield map
        return
    # An interrupt ends the table here; the processes would each add a trace of their own.
    executor = ProcessPoolExecutor(jobs, initializer=signal.signal, initargs=(signal.SIGINT, signal.SIG_IGN))
    try:
        yield lambda call, names: executor.map(call, names, chunksize=CHUNK)
    except BrokenProcessPool:
        raise AltairpegError("a process of the batch has ended too early, so the table isn't whole") from None
    finally:
        executor.shutdown(cancel_futures=True)


def _table(rows: Iterable[Row], cards: int) -> int:
    """Prints the lines as they come, and gives the exit status."""
    table = csv.writer(sys.stdout, lineterminator="\n")
    table.writerow(Row._fields)
    status = 0
    bar = _Bar(cards)
    for done, line in enumerate(rows, 1):
        bar.clear()
        table.writerow(line)
        bar.draw(done)
        status = max(status, 2 if line.number is None else int(line.number > 0))
    bar.clear()
    return status


class _Bar:
    """A progress bar on standard error, where that is a terminal."""

    WIDTH = 40

    def __init__(self, cards: int) -> None:
        self.cards = cards
        self.filled = -1
        self.wanted = sys.stderr is not None and sys.stderr.isatty()
        # The table on the same terminal would otherwise be written into the bar.
        self.shared = self.wanted and sys.stdout.isatty()

    def draw(self, done: int) -> None:
        """Draws the bar anew where it has grown."""
        filled = self.WIDTH * done // self.cards
        if self.wanted and (self.shared or filled > self.filled):
            self.filled = filled
            self._write(f"\r[{'#' * filled:<{self.WIDTH}}] {done}/{self.cards} cards")

    def clear(self) -> None:
        """Takes the bar away before a line of the table, and at the end."""
        if self.shared or (self.wanted and self.filled == self.WIDTH):
            self._write("\r\x1b[K")

    def _write(self, text: str) -> None:
        if self.shared:
            sys.stdout.flush()
        sys.stderr.write(text)
        sys.stderr.flush()
