"""A night drawn as text, stage by stage, to the width of the terminal: python3 -m altairpeg show CARD."""

from __future__ import annotations

import argparse
import shutil
import sys
import textwrap
from typing import Any, Collection, Sequence

from .files import CARD_HELP, JSON_HELP, headline, read_plan
from .output import write_out, write_whole
from .story import BARRED, FEW_TRAINS, Story, barrier, disorder, signed, tell, trouble
from .svg import picture

NARROWEST = 40
WIDEST = 160
ROLL_IN = "first roll-in:"


def _cells(cars: Sequence[int], marked: Collection[int]) -> list[str]:
    """Cars in words, with a sign behind each that is marked."""
    return [f"{car}!" if car in marked else str(car) for car in cars]


def _lines(words: Sequence[str], width: int, gap: str = " ") -> list[str]:
    """Words one behind the other, as many to a line as fit."""
    lines: list[str] = []
    for word in words:
        if lines and len(lines[-1]) + len(gap) + len(word) <= width:
            lines[-1] += gap + word
        else:
            lines.append(word)
    return lines or [""]


def _columns(words: Sequence[str], width: int) -> list[str]:
    """Words in one line where they fit, and otherwise in columns."""
    lines = _lines(words, width)
    if len(lines) == 1:
        return lines
    widest = max(map(len, words))
    return _lines([word.rjust(widest) for word in words], width)


def _prose(words: str, width: int, indent: str = "") -> list[str]:
    """A sentence, its further lines set in."""
    return textwrap.wrap(words, width, initial_indent=indent, subsequent_indent=indent + "    ")


def _listed(head: str, words: Sequence[str], width: int) -> list[str]:
    """A list behind its head where it fits in the line, and otherwise below it."""
    if len(head) + 1 + len(" ".join(words)) <= width:
        return [f"{head} {' '.join(words)}"]
    return [head, *(f"    {line}" for line in _columns(words, width - 4))]


def _row(name: str, words: Sequence[str], width: int) -> list[str]:
    """A row of the drawing: what stands on a track, front first."""
    first, *further = _columns(words, width - len(name) - 5)
    return [f"  {name} | {first}".rstrip(), *(f"  {' ' * len(name)} | {line}" for line in further)]


def _rows(story: Story, stage: int, width: int) -> list[str]:
    """A row for each sorting track and, where they are few, for each train; many trains stand side by side."""
    many = len(story.plan.night.lengths) > FEW_TRAINS
    rows = range(story.plan.night.tracks if many else len(story.yards[stage].tracks))
    widest = max(len(story.name(track)) for track in rows)
    lines = [line for track in rows for line in _row(story.name(track).ljust(widest), _standing(story, stage, track), width)]
    return lines + _trains_reached(story, stage, width) if many else lines


def _standing(story: Story, stage: int, track: int) -> list[str]:
    """What stands on a track, in words; a destination that is barred says so."""
    if story.bars(stage) and track >= story.plan.night.tracks:
        return BARRED.split()
    return _cells(story.yards[stage].tracks[track], _marked(story, stage))


def _trains_reached(story: Story, stage: int, width: int) -> list[str]:
    """The trains that cars have just rolled to, side by side, and how many others there are."""
    reached = sorted({cut.track for cut in story.cuts(stage) if cut.track >= story.plan.night.tracks})
    left_out = len(story.plan.night.lengths) - len(reached)
    others = [f"  {story.left_out(stage, left_out)}"] if left_out else []
    return _flow([f"{story.name(track)}: {' '.join(_standing(story, stage, track))}" for track in reached], width) + others


def _marked(story: Story, stage: int) -> list[int]:
    """The cars that stand wrong at a stage: those that make the next step fail, or the trains at the end."""
    return story.wrong(stage) if stage in story.pulls else story.out_of_order()


def _flow(cells: Sequence[str], width: int) -> list[str]:
    """Cells one behind the other, as many to a line as fit; one that is longer than a line is broken."""
    whole = [part for cell in cells for part in textwrap.wrap(cell, width - 2)]
    return [f"  {line}" for line in _lines(whole, width - 2, "   ")] if whole else []


def _rolls(story: Story, stage: int, width: int) -> list[str]:
    """Where the cars roll, in the order in which they go over the hump: those that go to one track together."""
    marked = () if stage else story.stopped()
    return _flow([f"{' '.join(_cells(cut.cars, marked))} -> {story.name(cut.track)}" for cut in story.cuts(stage)], width)


def _counted(head: str, words: Sequence[str], width: int) -> str:
    """A list behind its head where it fits in the line, and otherwise its length: the cuts below have it all."""
    line = f"{head} {' '.join(words)}"
    return line if len(line) <= width else f"{head} {len(words)} cars"


def _roll_in(story: Story, width: int) -> list[str]:
    """The first roll-in: where the cars roll, and what is wrong with that."""
    head = _counted(ROLL_IN, _cells(story.plan.night.inbound, story.stopped()), width)
    return [head, *_rolls(story, 0, width), *_warning(barrier(story), width)]


def _stop(story: Story, width: int) -> list[str]:
    """The first roll-in where the story ends there, and what is wrong with it."""
    stopped = story.stopped()
    return _listed(ROLL_IN, _cells(story.plan.night.inbound, stopped), width) + _warning(barrier(story), width) if stopped else []


def _warning(words: str, width: int) -> list[str]:
    """What is wrong, set in; no line where all is well."""
    return _prose(signed(words), width, "  ")


def _pull(story: Story, step: int, width: int, in_full: bool) -> list[str]:
    """A step: what it pulls, and what is wrong with that."""
    track, cars = step % story.plan.night.tracks, story.pulled(step)
    if not cars:
        return [f"step {step} finds track {track} empty"]
    head, words = f"step {step} pulls track {track}:", _cells(cars, story.wrong(step))
    lines = _listed(head, words, width) if in_full else [_counted(head, words, width)]
    return lines + _warning(trouble(story, step), width)


def _step(story: Story, step: int, width: int) -> list[str]:
    """A step: what it pulls, and where that rolls unless the story ends there."""
    rolls = story.pulled(step) and not story.fails_at(step)
    return _pull(story, step, width, False) + (_rolls(story, step + 1, width) if rolls else [])


def _trains(story: Story, width: int) -> list[str]:
    """The trains as built, front first; none where the story ends before."""
    if len(story.yards) <= story.plan.steps:
        return []
    marked = story.out_of_order()
    numbers = range(1, len(story.plan.night.lengths) + 1)
    lines = [line for number in numbers for line in _listed(f"train {number}:", _cells(story.train(number), marked), width)]
    return lines + _warning(disorder(story) if marked else "", width)


def _verdict(story: Story, width: int) -> list[str]:
    """What check says of the plan."""
    if story.refusal:
        return _prose(f"check: {story.refusal}", width)
    return _prose(f"check: accepted, {story.verdict.passes} passes, fullest pull {story.verdict.fullest_pull}", width)


def _text(parts: Sequence[Sequence[str]], between: str) -> str:
    """Parts of lines as one text; an empty part leaves no trace."""
    return between.join("\n".join(part) for part in parts if part) + "\n"


def brief(story: Story, width: int = 80) -> str:
    """What each step pulls, and the trains as built."""
    passes = f" passes {story.verdict.passes}" if story.refusal is None else ""
    pulls = [_pull(story, step, width, True) for step in story.pulls]
    head = _prose(headline(story.plan) + passes, width)
    return _text([head, _stop(story, width), *pulls, _trains(story, width), _verdict(story, width)], "\n")


def draw(story: Story, width: int = 80) -> str:
    """The whole drawing: each stage of the yard, and between them what is pulled and where it rolls."""
    parts = [_prose(headline(story.plan), width), _roll_in(story, width)]
    for stage, yard in enumerate(story.yards):
        parts.append([f"stage {stage}, {yard.passes} passes", *_rows(story, stage, width)])
        if stage in story.pulls:
            parts.append(_step(story, stage, width))
    built = _trains(story, width - 2)
    parts += [["trains as built", *(f"  {line}" for line in built)]] if built else []
    return _text([*parts, _verdict(story, width)], "\n\n")


def _width() -> int:
    """The width of the terminal, or 80 where there is none."""
    return max(NARROWEST, min(WIDEST, shutil.get_terminal_size().columns))


def run(given: argparse.Namespace) -> int:
    """Draws the night of a card or a JSON file: 0 if its plan is accepted, 1 if it is refused."""
    story = tell(read_plan(given.card))
    if given.svg is not None:
        write_whole(given.svg, picture(story).encode())
        if story.refusal:
            print(f"check: {story.refusal}", file=sys.stderr)
    else:
        write_out((brief if given.brief else draw)(story, _width()).encode())
    return 1 if story.refusal else 0


def register(commands: Any) -> None:
    """Adds `show` to the commands."""
    parser = commands.add_parser(
        "show",
        allow_abbrev=False,
        help="draw the yard of a card or a JSON file, stage by stage",
        description="Draws the yard of a night, stage by stage, to the width of the terminal. A plan that check refuses for room, an early "
        "pull, order, or a zero code in a closed night is drawn as far as it goes, with the place where it fails marked; the exit "
        "status is then 1.",
        epilog=JSON_HELP,
    )
    parser.add_argument("card", metavar="CARD", help=CARD_HELP)
    how = parser.add_mutually_exclusive_group()
    how.add_argument("--brief", action="store_true", help="only what each step pulls, and the trains as built")
    how.add_argument("--svg", metavar="FILE", help="draw a picture into this file, or - for standard output")
    parser.set_defaults(run=run)
