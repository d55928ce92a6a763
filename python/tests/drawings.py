"""What the tests of drawings share: plans to draw, the command that draws them, and what holds for every picture."""

import re
import unittest
from xml.etree import ElementTree

from altairpeg import Night, Plan, derive, write_card
from altairpeg.page import LETTER

from support import CLOSED, CLOSED_CODES, CODES, DISORDERED, OPEN, altairpeg, n

NAME = "{http://www.w3.org/2000/svg}"
# Plans that check refuses: with 6, step 0, 3 cars; with 8, car 4, step 0; with 9, car 3; with 14, car 2.
OVERFILLED = Plan(n(room=2), 2, CODES)
EARLY = Plan(n(room=3), 3, [0, 0, 1, 4, 2, 3])
OUT_OF_ORDER = Plan(n(room=3), 2, DISORDERED)
BARRED = Plan(n(room=4, mark=CLOSED), 3, [1, 0, 2, 2, 3, 5])
# The plan of night N where it is closed; and nine trains of one car, of which step 0 reaches one, step 1 one, and step 2 the rest.
SHUT = Plan(n(room=4, mark=CLOSED), 3, CLOSED_CODES)
NINE = Plan(Night([1] * 9, list(range(1, 10)), 3, 9, CLOSED), 3, [1, 2] + [4] * 7)


def many(trains, length, tracks=4, mark=OPEN):
    """A derived plan of many cars, those of each train far apart in the inbound order."""
    cars = range(1, trains * length + 1)
    return derive(Night([length] * trains, sorted(cars, key=lambda car: car * 37 % 101), tracks, len(cars), mark)).plan


def zeroed(plan):
    """A plan with code 0 for every fifth car, which check refuses if its night is closed."""
    return plan._replace(codes=[code if car % 5 else 0 for car, code in enumerate(plan.codes, 1)])


def show(given, *words, columns=80, **options):
    """Runs `show` on a card, or on that of a plan."""
    options["set"] = {"COLUMNS": str(columns)}
    card = write_card(given) if isinstance(given, Plan) else given
    return altairpeg("show", *words, "-", input=card, **options)


def words(drawn):
    """Every text of a picture, in order."""
    return [text.text or "" for text in ElementTree.fromstring(drawn).iter(f"{NAME}text")]


class Drawing(unittest.TestCase):
    """Tests of pictures."""

    def stays_inside(self, drawn):
        """No box leaves the picture, and no text."""
        root = ElementTree.fromstring(drawn)
        width, height = int(root.get("width")), int(root.get("height"))
        for box in root.iter(f"{NAME}rect"):
            right, foot = int(box.get("x", 0)) + int(box.get("width")), int(box.get("y", 0)) + int(box.get("height"))
            self.assertTrue(right <= width and foot <= height, box.attrib)
        for text in root.iter(f"{NAME}text"):
            if text.get("text-anchor") is None:
                right = int(text.get("x")) + len(text.text) * int(text.get("font-size")) * LETTER
                self.assertTrue(right <= width and int(text.get("y")) <= height, text.text)

    def stands_alone(self, drawn):
        """The picture takes nothing from outside."""
        self.assertNotRegex(drawn, r"href|url\(|<script|<style|@import")
        self.assertEqual(re.findall(r"https?://[^\"]*", drawn), ["http://www.w3.org/2000/svg"])
