"""A night drawn as a picture, stage by stage: tracks as rows, cars as boxes in the colour of their train."""

from __future__ import annotations

from typing import Collection, NamedTuple, Sequence

from .colours import INK, PALE, PULLED, WRONG, bands, fill, number_colour
from .files import headline
from .page import LABEL, LETTER, MARGIN, Page, counted, night_in_words
from .story import BARRED, FEW_TRAINS, Story, barrier, disorder, signed, trouble

BAND = 4
# The least height of a row: its label has two lines.
LOWEST = 30
# The free space below the boxes of a line: with names of tracks there, and without.
NAMED, BARE = 22, 6

# Up to so many cars the boxes are wide enough for a track's whole name below them; and up to so many, narrow ones have room for a number.
FEW_CARS, SHORT_NUMBERS = 60, 999


class Scale(NamedTuple):
    """The size of a box, of the number in it, how many boxes make a line, whether tracks are named in full below them, and the width of a label."""

    width: int
    height: int
    font: int
    line: int
    in_full: bool
    label: int


def _scale(cars: int) -> Scale:
    """Large boxes for few cars, small ones for many, and wider ones again for numbers of four digits."""
    if cars <= FEW_CARS:
        return Scale(46, 26, 14, min(20, max(cars, 10)), True, LABEL)
    return Scale(32, 20, 12, 34, False, LABEL) if cars <= SHORT_NUMBERS else Scale(40, 20, 12, 34, False, LABEL + 24)


class Sheet(Page):
    """The picture of a story."""

    def __init__(self, story: Story) -> None:
        self.story = story
        self.scale = _scale(len(story.plan.night.inbound))
        super().__init__(2 * MARGIN + self.scale.label + self.scale.line * self.scale.width)
        lengths = story.plan.night.lengths
        self.train_of: dict[int, int] = dict(enumerate((train for train, length in enumerate(lengths, 1) for _ in range(length)), 1))

    def box(self, x: int, y: int, train: int, words: str, frame: str = "") -> None:
        """A car."""
        width, height = self.scale.width - 2, self.scale.height
        self.rect(x, y, width, height, f'fill="{fill(train)}" ' + (f'stroke="{frame}" stroke-width="3"' if frame else 'stroke="#777"'))
        colours = bands(train)
        for at, colour in enumerate(colours):
            part = (width - 4) // len(colours)
            self.rect(x + 2 + at * part, y + height - BAND - 1, part, BAND - 1, f'fill="{colour}"')
        foot = y + (height + self.scale.font * 0.7) / 2 - (1 if colours else 0)
        self.text(x + width // 2, round(foot), words, f'fill="{number_colour(train)}" text-anchor="middle" font-size="{self.scale.font}"')


def _place(sheet: Sheet, x: int, at: int, below: int) -> tuple[int, int]:
    """Where the box number `at` of a row stands, with so much free space below each line."""
    line, column = divmod(at, sheet.scale.line)
    return x + column * sheet.scale.width, sheet.y + line * (sheet.scale.height + below)


def _cars(sheet: Sheet, x: int, cars: Sequence[int], below: int, moved: Collection[int] = (), wrong: Collection[int] = ()) -> None:
    """The cars of a row, in lines."""
    for at, car in enumerate(cars):
        frame = WRONG if car in wrong else INK if car in moved else ""
        sheet.box(*_place(sheet, x, at, below), sheet.train_of[car], f"{car}!" if car in wrong else str(car), frame)


def _depth(sheet: Sheet, cars: int, below: int) -> int:
    """The height of a row with so many cars."""
    lines = max(1, -(-cars // sheet.scale.line))
    return lines * (sheet.scale.height + below)


def _short(sheet: Sheet, track: int) -> str:
    """A track's name below a cut."""
    tracks = sheet.story.plan.night.tracks
    if sheet.scale.in_full:
        return sheet.story.name(track)
    return f"S{track}" if track < tracks else f"T{track - tracks + 1}"


def _targets(sheet: Sheet, x: int, stage: int, below: int) -> None:
    """Where the cars of a row roll next: a bracket and a name below each cut, and again where the cut goes on in the next line."""
    scale, at = sheet.scale, 0
    for cut in sheet.story.cuts(stage):
        end = at + len(cut.cars)
        while at < end:
            stop = min(end, (at // scale.line + 1) * scale.line)
            left, top = _place(sheet, x, at, below)
            _bracket(sheet, left + 2, top + scale.height + 3, (stop - at) * scale.width - 6, _short(sheet, cut.track))
            at = stop


def _bracket(sheet: Sheet, x: int, y: int, width: int, name: str) -> None:
    """A bracket open to the boxes above it, and a name below it."""
    sheet.drawn.append(f'<path d="M{x} {y}v3h{width}v-3" fill="none" stroke="#555"/>')
    sheet.text(x + width // 2, y + 14, name, 'text-anchor="middle" font-size="10"')


def _label(sheet: Sheet, x: int, name: str, count: str) -> None:
    """The name of a row, and below it its count of cars."""
    sheet.text(x, sheet.y + 12, name, 'font-size="13"')
    sheet.text(x, sheet.y + 24, count, 'font-size="10" fill="#555"')


def _inbound(sheet: Sheet) -> None:
    """The first roll-in: the cars as they come, where each cut rolls, and what is wrong with that."""
    cars, x = sheet.story.plan.night.inbound, MARGIN + sheet.scale.label
    sheet.heading(f"First roll-in, {counted(len(cars), 'car')} over the hump")
    _label(sheet, MARGIN, "inbound", counted(len(cars), "car"))
    _cars(sheet, x, cars, NAMED, wrong=sheet.story.stopped())
    _targets(sheet, x, 0, NAMED)
    sheet.y += _depth(sheet, len(cars), NAMED)
    sheet.warning(signed(barrier(sheet.story)), x)


def _sorting_track(sheet: Sheet, stage: int, track: int, moved: Collection[int]) -> None:
    """A sorting track with its room and its cars."""
    night, cars, x = sheet.story.plan.night, sheet.story.yards[stage].tracks[track], MARGIN + sheet.scale.label
    sheet.rect(x - 1, sheet.y, min(night.room, sheet.scale.line) * sheet.scale.width, sheet.scale.height, f'fill="{PALE}"')
    _label(sheet, MARGIN, f"track {track}", f"{len(cars)} of {night.room}")
    _cars(sheet, x, cars, BARE, moved)
    sheet.y += max(_depth(sheet, len(cars), BARE), LOWEST) + 4


def _pulled_track(sheet: Sheet, stage: int, moved: Collection[int]) -> None:
    """The track that the next step pulls: its cars, and below them where they roll, or what is wrong with them."""
    story, x = sheet.story, MARGIN + sheet.scale.label
    cars, words = story.pulled(stage), signed(trouble(story, stage))
    below = BARE if story.fails_at(stage) or not cars else NAMED
    depth = max(_depth(sheet, len(cars), below), LOWEST)
    sheet.rect(MARGIN - 6, sheet.y - 4, sheet.width - 2 * MARGIN + 12, depth + 2 + 19 * len(sheet.wrapped(words, 13, x)), f'fill="{PULLED}"')
    _label(sheet, MARGIN, f"track {stage % story.plan.night.tracks}", f"{len(cars)} of {story.plan.night.room}, pulled")
    _cars(sheet, x, cars, below, moved, story.wrong(stage))
    if not story.fails_at(stage):
        _targets(sheet, x, stage + 1, below)
    sheet.y += depth - 8
    sheet.warning(words, x)
    sheet.y += 12


def _shown_trains(story: Story, stage: int) -> list[int]:
    """The trains that a stage shows: all of them at the end or where they are few, else those that cars have just rolled to."""
    night = story.plan.night
    trains = range(1, len(night.lengths) + 1)
    if stage == story.plan.steps or len(trains) <= FEW_TRAINS:
        return list(trains)
    reached = {cut.track for cut in story.cuts(stage)}
    return [train for train in trains if night.tracks + train - 1 in reached]


def _trains(sheet: Sheet, stage: int, moved: Collection[int]) -> None:
    """The destination tracks, side by side where several fit."""
    story, step = sheet.story, sheet.scale.width
    shown, lengths = _shown_trains(story, stage), story.plan.night.lengths
    across = sheet.scale.label + (max(lengths) + 1) * step
    beside = max(1, (sheet.width - 2 * MARGIN + step) // across)
    for first in range(0, len(shown), beside):
        row = shown[first : first + beside]
        sheet.y += 2 + max([_train(sheet, MARGIN + column * across, stage, train, moved) for column, train in enumerate(row)])
    if len(shown) < len(lengths):
        sheet.paragraph(story.left_out(stage, len(lengths) - len(shown)), 12, 'fill="#555"')


def _train(sheet: Sheet, x: int, stage: int, train: int, moved: Collection[int]) -> int:
    """The destination track of a train; the height of its row is given back."""
    story = sheet.story
    night, cars = story.plan.night, story.yards[stage].tracks[story.plan.night.tracks + train - 1]
    if story.bars(stage):
        _barred(sheet, x + sheet.scale.label)
    _label(sheet, x, f"train {train}", f"{len(cars)} of {night.lengths[train - 1]}")
    _cars(sheet, x + sheet.scale.label, cars, BARE, moved, story.out_of_order() if stage == story.plan.steps else ())
    return max(_depth(sheet, len(cars), BARE), LOWEST)


def _barred(sheet: Sheet, x: int) -> None:
    """A destination track that serves other work: a box of bars, as wide as the longest train, where the word has room."""
    height, middle = sheet.scale.height, sheet.y + sheet.scale.height // 2
    width = min(max(sheet.story.plan.night.lengths), sheet.scale.line) * sheet.scale.width - 2
    sheet.drawn.append(f'<path d="M{x} {middle}h{width}" stroke="#ccc" stroke-width="{height}" stroke-dasharray="2 6"/>')
    sheet.rect(x, sheet.y, width, height, 'fill="none" stroke="#777"')
    sheet.text(x + width // 2, middle + 4, "barred", 'text-anchor="middle" font-size="12"')


def _stage(sheet: Sheet, stage: int) -> None:
    """The yard at a stage, and what the next step pulls."""
    story = sheet.story
    # At stage 0 every car has just rolled in, so that is no news.
    moved = {car for cut in story.cuts(stage) for car in cut.cars} if stage else set()
    pulled = stage % story.plan.night.tracks if stage in story.pulls else None
    next_step = "" if pulled is None else f"; step {stage} pulls track {pulled}"
    sheet.heading(f"Stage {stage}, {story.yards[stage].passes} passes{next_step}")
    for track in range(story.plan.night.tracks):
        if track == pulled:
            _pulled_track(sheet, stage, moved)
        else:
            _sorting_track(sheet, stage, track, moved)
    sheet.line(MARGIN, 'stroke="#999" stroke-dasharray="2 4"')
    sheet.y += 6
    _trains(sheet, stage, moved)


def _colours(sheet: Sheet) -> None:
    """Each train with its colour and its cars."""
    names = _train_names(sheet.story.plan.night.lengths)
    across = sheet.scale.width + 16 + int(max(map(len, names)) * 11 * LETTER)
    beside = max(1, (sheet.width - 2 * MARGIN) // across)
    for at, name in enumerate(names):
        x, y = MARGIN + at % beside * across, sheet.y + at // beside * (sheet.scale.height + 4)
        sheet.box(x, y, at + 1, "")
        sheet.text(x + sheet.scale.width + 4, y + 14, name, 'font-size="11"')
    sheet.y += -(-len(names) // beside) * (sheet.scale.height + 4)


def _train_names(lengths: Sequence[int]) -> list[str]:
    """Each train by its number and its cars."""
    names, first = [], 1
    for number, length in enumerate(lengths, 1):
        cars = f"car {first}" if length == 1 else f"cars {first}-{first + length - 1}"
        names.append(f"train {number}: {cars}")
        first += length
    return names


def _legend(sheet: Sheet) -> None:
    """The colours, and what the signs mean."""
    sheet.y += 12
    _colours(sheet)
    story, names = sheet.story, "" if sheet.scale.in_full else " (S0 is track 0, T1 is train 1)"
    wrong = f"would roll to a track that is {BARRED}" if story.stopped() else "stands wrong"
    stages = [
        "The front of each track is on the left; grey is its room.",
        f"Yellow: the track that the next step pulls, and below its cars where they roll{names}.",
        "Thick frame: has just rolled in.",
        f"Bars: a destination track, {BARRED}." if story.bars(0) and _shown_trains(story, 0) else "",
    ]
    signs = [*(stages if story.yards else []), f"Red frame and !: {wrong}." if story.refusal else ""]
    sheet.paragraph(" ".join(filter(None, signs)), 12, 'fill="#555"')


def _verdict(sheet: Sheet) -> None:
    """What check says of the plan."""
    story = sheet.story
    if story.refusal is None:
        sheet.heading(f"Accepted: {story.verdict.passes} passes, fullest pull {story.verdict.fullest_pull}")
        return
    sheet.heading(f"Check: {story.refusal}")
    if story.out_of_order():
        sheet.warning(signed(disorder(story)))


def picture(story: Story) -> str:
    """The picture of a story, as the text of an SVG file."""
    sheet = Sheet(story)
    sheet.begin(f"{night_in_words(story.plan.night)}, stage by stage", headline(story.plan))
    _legend(sheet)
    _inbound(sheet)
    for stage in range(len(story.yards)):
        _stage(sheet, stage)
    _verdict(sheet)
    return sheet.svg()
