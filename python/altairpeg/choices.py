"""What more steps save: for each number of steps that will do, the fewest passes, the fullest pull and the price."""

from __future__ import annotations

from typing import NamedTuple, SupportsFloat

from .calls import check, fewest_passes, price
from .library import FIRST_STEPS
from .nights import Night
from .refusal import Refusal


class Cost(NamedTuple):
    """The hump passes of a plan, the cars of its fullest pull, and its price in seconds."""

    passes: int
    fullest_pull: int
    price: float


class Choice(NamedTuple):
    """A number of steps, and what its plan with the fewest passes costs, or why a track has no room for it."""

    steps: int
    told: Cost | Refusal


class Tradeoff(NamedTuple):
    """A night, its timings, and a choice for each number of steps, from the fewest that will do to the most that fewest_passes takes."""

    night: Night
    pull: SupportsFloat
    push: SupportsFloat
    choices: list[Choice]

    @property
    def costs(self) -> dict[int, Cost]:
        """What each number of steps costs that is not refused."""
        return {choice.steps: choice.told for choice in self.choices if isinstance(choice.told, Cost)}

    @property
    def cheapest(self) -> int | None:
        """The steps with the least price, the first of equals; None where every choice is refused."""
        return min(self.costs, key=lambda steps: self.costs[steps].price, default=None)

    @property
    def refusal(self) -> Refusal | None:
        """Why there is nothing to choose, where every choice is refused: what is said of the fewest steps."""
        first = self.choices[0].told
        return first if self.cheapest is None and isinstance(first, Refusal) else None

    def lines(self) -> list[str]:
        """A line for each choice, its numbers below those of the line before."""
        widths = [max(len(str(number)) for number in column) for column in zip(*self.costs.values())]
        return [f"steps {steps} {_words(told, widths)}{' cheapest' if steps == self.cheapest else ''}" for steps, told in self.choices]


def _words(told: Cost | Refusal, widths: list[int]) -> str:
    """What a choice costs, in columns of these widths, or why it is refused."""
    if isinstance(told, Refusal):
        return str(told)
    return " ".join(f"{name.replace('_', ' ')} {number!s:>{width}}" for name, number, width in zip(Cost._fields, told, widths))


def weigh(night: Night, pull: SupportsFloat, push: SupportsFloat) -> Tradeoff:
    """The tradeoff of a night within document 01's limits.

    Refuses 1, 2, 3, 5 where eight steps won't do, or 13; a choice refused with 6 is a part of it.
    """
    fewest = _fewest_steps(night)
    price(fewest, 0, pull, push)  # a timing that isn't allowed is told even where no plan has room
    return Tradeoff(night, pull, push, [Choice(steps, _told(night, steps, pull, push)) for steps in range(fewest, FIRST_STEPS + 1)])


def _fewest_steps(night: Night) -> int:
    """The fewest steps of which codes build the trains, as the refusal of no steps at all tells them."""
    try:
        return fewest_passes(night, 0).steps
    except Refusal as refusal:
        if refusal.name != "LIMIT_TOO_LOW" or refusal.a > FIRST_STEPS:
            raise
        return refusal.a


def _told(night: Night, steps: int, pull: SupportsFloat, push: SupportsFloat) -> Cost | Refusal:
    """What the plan of so many steps with the fewest passes costs, or that a track has no room for it."""
    try:
        passes, fullest_pull = check(fewest_passes(night, steps).plan)
    except Refusal as refusal:
        if refusal.name != "TRACK_OVERFILLED":
            raise
        return refusal
    return Cost(passes, fullest_pull, price(steps, passes, pull, push))
