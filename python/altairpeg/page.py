"""What every picture is drawn on: plain SVG of edition 1.1 with no reference to anything outside it."""

from __future__ import annotations

import textwrap
from xml.sax.saxutils import escape

from .colours import INK, WRONG
from .nights import Night

MARGIN = 20
# The width of the names on the left.
LABEL = 96
# The width of a letter, as a part of the size of its font.
LETTER = 0.58


class Page:
    """A picture that grows downward: what was drawn, and how far down the next part begins."""

    def __init__(self, width: int) -> None:
        self.width = width
        self.title = ""
        self.drawn: list[str] = []
        self.y = MARGIN

    def begin(self, title: str, line: str) -> None:
        """The title, and a line below it."""
        self.title = title
        self.paragraph(title, 20, 'font-weight="bold"')
        self.paragraph(line, 13)

    def rect(self, x: int, y: int, width: int, height: int, look: str) -> None:
        """A rectangle."""
        self.drawn.append(f'<rect x="{x}" y="{y}" width="{width}" height="{height}" {look}/>')

    def line(self, x: int, look: str) -> None:
        """A line from x to the margin on the right."""
        self.drawn.append(f'<path d="M{x} {self.y}H{self.width - MARGIN}" {look}/>')

    def text(self, x: int, y: int, words: str, look: str = "") -> None:
        """A line of text; y is its foot."""
        self.drawn.append(f'<text x="{x}" y="{y}"{look and " " + look}>{escape(words)}</text>')

    def wrapped(self, words: str, size: int, x: int) -> list[str]:
        """A text that begins at x, in as many lines as it needs; no common font is wider than this takes it to be."""
        return textwrap.wrap(words, int((self.width - MARGIN - x) / (size * LETTER)))

    def paragraph(self, words: str, size: int, look: str = "", x: int = MARGIN) -> None:
        """Text below what was drawn, in as many lines as it needs."""
        for line in self.wrapped(words, size, x):
            self.y += size + 6
            self.text(x, self.y, line, f'font-size="{size}"{look and " " + look}')

    def warning(self, words: str, x: int = MARGIN) -> None:
        """What is wrong."""
        self.paragraph(words, 13, f'fill="{WRONG}" font-weight="bold"', x)

    def heading(self, words: str) -> None:
        """The heading of a part, set off from the part above it."""
        self.y += 20
        self.line(MARGIN, 'stroke="#999"')
        self.paragraph(words, 15, 'font-weight="bold"')
        self.y += 12

    def svg(self, described: str = "") -> str:
        """The text of the SVG file; what it shows is described for those who can't see it."""
        height = self.y + MARGIN
        head = [
            f'<svg xmlns="http://www.w3.org/2000/svg" width="{self.width}" height="{height}" viewBox="0 0 {self.width} {height}" '
            f'font-family="sans-serif" fill="{INK}" role="img">',
            f"<title>{escape(self.title)}</title>",
            *([f"<desc>{escape(described)}</desc>"] if described else []),
            f'<rect width="{self.width}" height="{height}" fill="#fff"/>',
        ]
        return "\n".join([*head, *self.drawn, "</svg>"]) + "\n"


def counted(number: int, name: str) -> str:
    """So many of something."""
    return f"{number} {name}" if number == 1 else f"{number} {name}s"


def night_in_words(night: Night) -> str:
    """A night as a title names it."""
    return f"A night of {counted(len(night.inbound), 'car')} and {counted(len(night.lengths), 'train')}"
