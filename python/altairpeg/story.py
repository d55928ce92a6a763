"""What becomes of a plan: the yard at each stage, as far as it goes, and what check says of it.

The yard comes from the library's replay wherever that answers. It answers nothing for a plan that pulls a car early,
overfills a track or sends a car to a barred destination, so such a plan is replayed here, in the plain steps of document 01,
up to the step that fails. Where that is the first roll-in, there is no stage to tell of.
"""

from __future__ import annotations

from itertools import groupby, islice
from typing import Collection, Iterator, NamedTuple

from .calls import check, replay
from .nights import Checked, Mark, Plan
from .refusal import Refusal

OVERFILLED = 6
EARLY = 8
OUT_OF_ORDER = 9
ZERO_CODE = 14

# What is said of a closed night's destination tracks at stage 0.
BARRED = "barred until the first pull"

# Up to so many trains, a drawing shows them all at each stage; of more, only those that cars have just rolled to.
FEW_TRAINS = 8


class Yard(NamedTuple):
    """The yard at a stage: the passes so far, and the cars on each track, front first, destinations last."""

    passes: int
    tracks: list[list[int]]


class Cut(NamedTuple):
    """Cars that roll to one track one after the other."""

    cars: list[int]
    track: int


class Story(NamedTuple):
    """A plan, its yard at each stage up to the step that fails, none if that is the first roll-in, and what check says of it."""

    plan: Plan
    yards: list[Yard]
    verdict: Checked | Refusal

    @property
    def refusal(self) -> Refusal | None:
        """Why check refuses the plan, where it does."""
        return self.verdict if isinstance(self.verdict, Refusal) else None

    @property
    def pulls(self) -> range:
        """The steps that are told: all of them, or those up to the one that fails, which is the last."""
        return range(min(len(self.yards), self.plan.steps))

    def fails_at(self, step: int) -> bool:
        """Whether the story ends at this step."""
        return step + 1 == len(self.yards)

    def pulled(self, step: int) -> list[int]:
        """The cars that a step pulls, front first."""
        return self.yards[step].tracks[step % self.plan.night.tracks]

    def cuts(self, stage: int) -> list[Cut]:
        """The cars that rolled in last before a stage, in order, cut by cut."""
        cars = self.pulled(stage - 1) if stage else self.plan.night.inbound
        # Where the first roll-in fails, the cuts are those that it would make.
        yard = self.yards[stage] if self.yards else next(plain_yards(self.plan))
        track_of = {car: track for track, standing in enumerate(yard.tracks) for car in standing}
        return [Cut(list(together), track) for track, together in groupby(cars, track_of.__getitem__)]

    def train(self, number: int) -> list[int]:
        """The cars on a train's destination track at the last stage told, front first."""
        return self.yards[-1].tracks[self.plan.night.tracks + number - 1]

    def name(self, track: int) -> str:
        """A track's name: a sorting track by its number, a destination by its train."""
        tracks = self.plan.night.tracks
        return f"track {track}" if track < tracks else f"train {track - tracks + 1}"

    def bars(self, stage: int) -> bool:
        """Whether the destination tracks are barred at a stage: in a closed night, before the first pull."""
        return stage == 0 and self.plan.night.mark == Mark.CLOSED

    def left_out(self, stage: int, trains: int) -> str:
        """What is said of so many trains that a stage does not show."""
        if self.bars(stage):
            return f"{trains} trains {BARRED}"
        first = stage == 0 or self.bars(stage - 1)
        other = "" if trains == len(self.plan.night.lengths) else "other "
        return f"{trains} {other}trains {'empty' if first else 'as before'}"

    def stopped(self) -> list[int]:
        """The cars that the first roll-in would send to a barred destination, in its order."""
        if self.refusal is None or self.refusal.number != ZERO_CODE:
            return []
        return [car for car in self.plan.night.inbound if self.plan.codes[car - 1] == 0]

    def wrong(self, step: int) -> list[int]:
        """The cars that a step should not find where it does: those taken early, or those beyond the track's room."""
        cars = self.pulled(step)
        return [car for car in cars if _early(self.plan, car, step)] or cars[self.plan.night.room :]

    def out_of_order(self) -> list[int]:
        """The cars that stand before the car that should be before them, in trains that are built."""
        return [] if self.refusal is None or self.refusal.number != OUT_OF_ORDER else _turned(self)


def _early(plan: Plan, car: int, step: int) -> bool:
    """Whether a step that takes the car takes it early: its code has 0 there."""
    return not plan.codes[car - 1] >> step & 1


def _turned(story: Story) -> list[int]:
    """Each car j+1 that stands before car j of its train."""
    found = []
    for number in range(1, len(story.plan.night.lengths) + 1):
        place = {car: at for at, car in enumerate(story.train(number))}
        found += [car for car in place if place.get(car - 1, -1) > place[car]]
    return found


def _destinations(plan: Plan) -> list[int]:
    """Each car's destination track, in car order."""
    return [plan.night.tracks + train for train, length in enumerate(plan.night.lengths) for _ in range(length)]


def _next_step(code: int, step: int) -> int | None:
    """The first step from this one on that is to pull a car with this code."""
    rest = code >> step
    return step + (rest & -rest).bit_length() - 1 if rest else None


def plain_yards(plan: Plan) -> Iterator[Yard]:
    """The yard at each stage, in the plain steps of document 01; a car pulled early ends it."""
    width = plan.night.tracks
    destinations = _destinations(plan)
    tracks: list[list[int]] = [[] for _ in range(width + len(plan.night.lengths))]
    rolling, passes = plan.night.inbound, 0
    for stage in range(plan.steps + 1):
        for car in rolling:
            step = _next_step(plan.codes[car - 1], stage)
            tracks[destinations[car - 1] if step is None else step % width].append(car)
        passes += len(rolling)
        yield Yard(passes, [list(cars) for cars in tracks])
        rolling, tracks[stage % width] = tracks[stage % width], []
        if any(_early(plan, car, stage) for car in rolling):
            return


def _library_yard(plan: Plan, stage: int) -> Yard:
    """The yard at a stage as the library replays it."""
    told = replay(plan, stage)
    tracks: list[list[int]] = [[] for _ in range(plan.night.tracks + len(plan.night.lengths))]
    for _, track, car in sorted(zip(told.places, told.tracks, range(1, len(told.tracks) + 1))):
        tracks[track].append(car)
    return Yard(told.passes, tracks)


def _verdict(plan: Plan) -> Checked | Refusal:
    """What check says; a plan that cannot be replayed at all has no story, and its `Refusal` is raised."""
    try:
        return check(plan)
    except Refusal as refusal:
        if refusal.number not in (OVERFILLED, EARLY, OUT_OF_ORDER, ZERO_CODE):
            raise
        return refusal


def _in_lists(plan: Plan) -> Plan:
    """The same plan in plain lists: arrays of any kind may be given."""
    lengths, inbound, codes = ([int(number) for number in numbers] for numbers in (plan.night.lengths, plan.night.inbound, plan.codes))
    return Plan(plan.night._replace(lengths=lengths, inbound=inbound), plan.steps, codes)


def tell(plan: Plan) -> Story:
    """The story of a plan. A plan that is no plan of a night (refusals 1, 2, 3, 4, 7) has none: its `Refusal` is raised."""
    verdict = _verdict(plan)
    plan = _in_lists(plan)
    reached = _stages_reached(verdict)
    if reached is None:
        yards = [_library_yard(plan, stage) for stage in range(plan.steps + 1)]
    else:
        yards = list(islice(plain_yards(plan), reached))
    return Story(plan, yards, verdict)


def _stages_reached(verdict: Checked | Refusal) -> int | None:
    """How many stages a plan reaches that the library does not replay; None for one that it does."""
    if not isinstance(verdict, Refusal) or verdict.number == OUT_OF_ORDER:
        return None
    return {OVERFILLED: verdict.a + 1, EARLY: verdict.b + 1, ZERO_CODE: 0}[verdict.number]


def trouble(story: Story, step: int) -> str:
    """What is wrong with a pull, in words; nothing where all is well."""
    wrong = story.wrong(step)
    if not wrong:
        return ""
    if story.fails_at(step) and story.refusal.number == EARLY:
        return f"too early for {_some(wrong)}: a code with 0 at step {step}"
    return f"overfilled: {len(story.pulled(step))} cars, and track {step % story.plan.night.tracks} has room for {story.plan.night.room}"


def barrier(story: Story) -> str:
    """What is wrong with the first roll-in, in words; nothing where all is well."""
    cars = story.stopped()
    if not cars:
        return ""
    destinations = _destinations(story.plan)
    trains = {destinations[car - 1] - story.plan.night.tracks + 1 for car in cars}
    return f"{_some(cars)} would roll to {_some(trains, 'train')}, {BARRED}"


def signed(words: str) -> str:
    """What is wrong, behind its sign; nothing where all is well."""
    return f"! {words}" if words else ""


def _some(numbers: Collection[int], name: str = "car") -> str:
    """Cars or trains by their numbers, the first few of many."""
    named = " ".join(map(str, sorted(numbers)[:8]))
    more = f" and {len(numbers) - 8} more" if len(numbers) > 8 else ""
    return f"{name if len(numbers) == 1 else name + 's'} {named}{more}"


def disorder(story: Story) -> str:
    """Where the trains are out of order, in words."""
    car = story.refusal.a
    return f"out of order: car {car} stands before car {car - 1}"
