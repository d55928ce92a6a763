"""A tradeoff drawn as a picture: a bar of passes for each number of steps, and below it the fullest pull and the price."""

from __future__ import annotations

from typing import SupportsFloat

from .choices import Choice, Cost, Tradeoff
from .colours import COLOURS, INK, PULLED, WRONG
from .files import night_line
from .page import LABEL, MARGIN, Page, night_in_words
from .refusal import Refusal

# The width of a column, which the longest price fits, and of the bar in it; the height of the highest bar, and of a line of words.
COLUMN, BAR, HIGHEST, LINE = 92, 48, 200, 20
# So many columns are as wide as the title.
FEWEST = 6
# What stands below the bars, line by line; one more line says which is the cheapest.
NAMES = ("steps", "fullest pull", "price")
BELOW = (len(NAMES) + 1) * LINE


class Chart(Page):
    """The picture of a tradeoff; the bars stand on its foot."""

    def __init__(self, tradeoff: Tradeoff) -> None:
        super().__init__(2 * MARGIN + LABEL + COLUMN * max(FEWEST, len(tradeoff.choices)))
        self.tradeoff = tradeoff
        self.most = max((cost.passes for cost in tradeoff.costs.values()), default=0)
        self.foot = 0

    def middle(self, x: int, y: int, words: str, look: str = "") -> None:
        """A line of text whose middle is x."""
        self.text(x, y, words, f'text-anchor="middle" font-size="12"{look and " " + look}')


def _legend(chart: Chart) -> None:
    """What the bars and signs mean."""
    tradeoff = chart.tradeoff
    refused = next((choice.told for choice in tradeoff.choices if isinstance(choice.told, Refusal)), None)
    signs = [
        "Bars: the fewest hump passes with so many steps.",
        f"Price, in seconds: steps times {_seconds(tradeoff.pull)} plus passes times {_seconds(tradeoff.push)}.",
        "Yellow and a thick frame: the cheapest." if tradeoff.costs else "",
        f"Red: {refused.words}, by its step and cars." if refused else "",
    ]
    chart.paragraph(" ".join(filter(None, signs)), 12, 'fill="#555"')


def _seconds(timing: SupportsFloat) -> str:
    """A timing to its last sixteenth."""
    return f"{float(timing):.10g}"


def _names(chart: Chart) -> None:
    """The names on the left, and the line on which the bars stand."""
    chart.text(MARGIN, chart.foot - 6, "passes", 'font-size="12"')
    for at, name in enumerate(NAMES, 1):
        chart.text(MARGIN, chart.foot + at * LINE, name, 'font-size="12"')
    chart.y = chart.foot
    chart.line(MARGIN, 'stroke="#555"')


def _column(chart: Chart, x: int, choice: Choice) -> None:
    """A choice: its bar, or why it has none, and what stands below."""
    cheapest = choice.steps == chart.tradeoff.cheapest
    if cheapest:
        chart.rect(x - COLUMN // 2, chart.foot - HIGHEST - LINE, COLUMN, LINE + HIGHEST + BELOW + LINE // 2, f'fill="{PULLED}"')
        chart.middle(x, chart.foot + BELOW, "cheapest", 'font-weight="bold"')
    chart.middle(x, chart.foot + LINE, str(choice.steps), 'font-weight="bold"')
    if isinstance(choice.told, Refusal):
        _refused(chart, x, choice.told)
    else:
        _bar(chart, x, choice.told, cheapest)


def _bar(chart: Chart, x: int, cost: Cost, cheapest: bool) -> None:
    """A bar as high as its passes, with their number above it, and the other numbers below."""
    height = round(HIGHEST * cost.passes / chart.most)
    frame = f'stroke="{INK}" stroke-width="3"' if cheapest else 'stroke="#777"'
    chart.rect(x - BAR // 2, chart.foot - height, BAR, height, f'fill="{COLOURS[0]}" {frame}')
    chart.middle(x, chart.foot - height - 6, str(cost.passes))
    chart.middle(x, chart.foot + 2 * LINE, str(cost.fullest_pull))
    chart.middle(x, chart.foot + 3 * LINE, str(cost.price))


def _refused(chart: Chart, x: int, refusal: Refusal) -> None:
    """Why there is no bar: the number of the refusal, and its details."""
    lines = [f"refused {refusal.number}", *refusal.details.split(", ")]
    for above, words in enumerate(reversed(lines)):
        chart.middle(x, chart.foot - 6 - above * LINE, words, f'fill="{WRONG}" font-weight="bold"')


def _described(tradeoff: Tradeoff) -> str:
    """The picture in words: what the command prints."""
    return "; ".join(" ".join(line.split()) for line in tradeoff.lines())


def picture(tradeoff: Tradeoff) -> str:
    """The picture of a tradeoff, as the text of an SVG file."""
    chart = Chart(tradeoff)
    chart.begin(f"{night_in_words(tradeoff.night)}: steps and passes", night_line(tradeoff.night))
    _legend(chart)
    chart.foot = chart.y + 2 * LINE + HIGHEST
    for at, choice in enumerate(tradeoff.choices):
        _column(chart, MARGIN + LABEL + at * COLUMN + COLUMN // 2, choice)
    _names(chart)
    chart.y += BELOW
    return chart.svg(_described(tradeoff))
