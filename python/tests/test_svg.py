"""The picture: well-formed, complete, and readable by its numbers; the README's is current."""

import re
import unittest
from pathlib import Path
from xml.etree import ElementTree

from altairpeg import Night, Plan, read_card
from altairpeg.colours import COLOURS, bands, contrast, fill, number_colour
from altairpeg.story import tell
from altairpeg.page import LETTER
from altairpeg.svg import Sheet, picture

from drawings import BARRED, EARLY, NAME, NINE, OUT_OF_ORDER, OVERFILLED, SHUT, Drawing, many, show, words, zeroed
from support import CARD, CLOSED, OPEN, PYTHON, Scratch

ALL_EARLY = Plan(Night([12], list(range(1, 13)), 1, 12, OPEN), 2, [2] * 12)
KEPT = PYTHON.parent / "docs" / "first-card.svg"
TRAINS = range(1, 257)


class Picture(Drawing):
    def test_kept_picture_is_current(self):
        self.assertEqual(KEPT.read_text(), picture(tell(read_card(CARD))), "make it anew: python3 -m altairpeg show --svg ../docs/first-card.svg CARD, in python/")

    def test_case_1_in_words(self):
        told = words(picture(tell(read_card(CARD))))
        self.assertEqual(told[0], "A night of 6 cars and 1 train, stage by stage")
        self.assertIn("train 1: cars 1-6", told)
        for line in ("Stage 0, 6 passes; step 0 pulls track 0", "Stage 1, 9 passes; step 1 pulls track 1", "Stage 2, 11 passes", "Accepted: 11 passes, fullest pull 3"):
            self.assertIn(line, told)

    def test_each_stage_has_each_car(self):
        for plan in (read_card(CARD), many(4, 15), many(8, 64), many(8, 64, mark=CLOSED)):
            told = words(picture(tell(plan)))
            for car in plan.night.inbound:
                self.assertEqual(told.count(str(car)), plan.steps + 2, "once inbound, and once at each stage")

    def test_where_it_fails(self):
        for plan, line, car in (
            (OVERFILLED, "! overfilled: 3 cars, and track 0 has room for 2", "4!"),
            (EARLY, "! too early for car 4: a code with 0 at step 0", "4!"),
            (OUT_OF_ORDER, "! out of order: car 3 stands before car 2", "3!"),
            (BARRED, "! car 2 would roll to train 1, barred until the first pull", "2!"),
        ):
            told = words(picture(tell(plan)))
            self.assertIn(line, told)
            self.assertEqual(told.count(car), 1)

    def test_barred_destinations(self):
        for plan, boxes in ((SHUT, 1), (many(8, 8, mark=CLOSED), 8), (many(64, 8, mark=CLOSED), 0), (many(8, 8), 0), (BARRED, 0)):
            drawn = picture(tell(plan))
            told = words(drawn)
            self.assertEqual(told.count("barred"), boxes)
            for part in ('stroke-dasharray="2 6"', 'fill="none" stroke="#777"'):
                self.assertEqual(drawn.count(part), boxes)
            self.assertEqual("Bars:" in " ".join(told), boxes > 0)
        told = words(picture(tell(SHUT)))
        self.assertLess(told.index("Stage 0, 6 passes; step 0 pulls track 0"), told.index("barred"))
        self.assertLess(told.index("barred"), told.index("Stage 1, 10 passes; step 1 pulls track 1"))
        self.assertIn("steps 3 tracks 2 room 4 cars 6 trains 1 mark closed", told)

    def test_many_barred_destinations(self):
        told = [line for line in words(picture(tell(NINE))) if " trains " in line]
        self.assertEqual(told[1:], ["9 trains barred until the first pull", "8 other trains empty", "8 other trains as before"])

    def test_a_story_that_ends_at_the_first_roll_in(self):
        told = words(picture(tell(BARRED)))
        self.assertTrue(" ".join(told).endswith("Check: refused 14 2 0: a zero code in a closed night (car 2): codes[1] is 0"))
        self.assertFalse([line for line in told if line.startswith("Stage")])
        self.assertIn("Red frame and !: would roll to a track that is barred until the first pull.", " ".join(told))
        self.assertNotIn("Yellow", " ".join(told), "there is no stage whose signs need words")
        self.assertEqual(told.count("6"), 1, "a car that may roll is drawn once, and not marked")

    def test_nothing_leaves_the_picture(self):
        plans = (Plan(Night([1], [1], 1, 1, OPEN), 0, [0]), many(4, 15), many(64, 8), many(1, 512, 8), OVERFILLED, ALL_EARLY)
        closed = (SHUT, BARRED, many(4, 15, mark=CLOSED), many(5, 1, mark=CLOSED), many(1, 512, 8, CLOSED), zeroed(many(64, 8, mark=CLOSED)))
        bigger = (many(256, 16, 16), many(1, 4096, 16, CLOSED), zeroed(many(256, 16, 16, CLOSED)))
        for plan in (*plans, *closed, *bigger):
            self.stays_inside(picture(tell(plan)))

    def test_numbers_of_four_digits_have_room(self):
        """Those of cars in their boxes, and those of a row before its boxes."""
        for plan in (many(256, 16, 16), zeroed(many(256, 16, 16, CLOSED))):
            scale = Sheet(tell(plan)).scale
            for text in ElementTree.fromstring(picture(tell(plan))).iter(f"{NAME}text"):
                wide = len(text.text or "") * float(text.get("font-size")) * LETTER
                if re.fullmatch("[0-9]+!?", text.text or ""):
                    self.assertLessEqual(wide, scale.width - 2, text.text)
                elif re.fullmatch("[0-9]+ of [0-9]+(, pulled)?", text.text or ""):
                    self.assertLessEqual(wide, scale.label, text.text)

    def test_nothing_from_outside(self):
        for plan in (many(64, 8), SHUT):
            self.stands_alone(picture(tell(plan)))


class Colours(unittest.TestCase):
    def test_each_train_has_a_look_of_its_own(self):
        self.assertEqual(len({(fill(train), *bands(train)) for train in TRAINS}), 256)
        self.assertTrue(all(fill(train) not in bands(train) for train in TRAINS))
        self.assertEqual([len(bands(train)) for train in (8, 9, 64, 65, 256)], [0, 1, 1, 2, 2])

    def test_numbers_can_be_read(self):
        self.assertEqual(len(set(COLOURS)), 8)
        for train in TRAINS:
            self.assertGreaterEqual(contrast(number_colour(train), fill(train)), 4.5)


class Command(Scratch):
    def drawn(self, name, given=CARD):
        return show(given, "--svg", name)

    def test_file_and_standard_output(self):
        self.ran(self.drawn(self.folder / "a picture.svg"), 0)
        self.assertEqual(self.drawn("-").stdout, (self.folder / "a picture.svg").read_bytes())
        self.assertEqual([file.name for file in self.folder.iterdir()], ["a picture.svg"])

    def test_refused_plan_is_drawn_and_told(self):
        self.ran(self.drawn(self.folder / "x.svg", OVERFILLED), 1, err="check: refused 6 0 3: a track overfilled (step 0, 3 cars)\n")
        ElementTree.parse(self.folder / "x.svg")
        line = "check: refused 14 2 0: a zero code in a closed night (car 2): codes[1] is 0\n"
        self.ran(self.drawn(self.folder / "y.svg", BARRED), 1, err=line)
        self.assertEqual((self.folder / "y.svg").read_text(), picture(tell(BARRED)))

    def test_refused_card_leaves_the_old_picture(self):
        old = self.file("x.svg", b"old")
        self.assertEqual(self.drawn(old, b"").returncode, 1)
        self.assertEqual(old.read_bytes(), b"old")

    def test_link_is_followed_and_mode_kept(self):
        old, link = self.file("x.svg", b"old"), self.folder / "link"
        old.chmod(0o640)
        link.symlink_to(old.name)
        self.ran(self.drawn(link), 0)
        self.assertTrue(link.is_symlink())
        self.assertEqual(old.stat().st_mode & 0o777, 0o640)
        ElementTree.parse(old)

    def test_places_that_take_no_picture(self):
        for name in (self.folder, self.folder / "none" / "x.svg", "/dev/full"):
            run = self.drawn(name)
            self.assertEqual((run.returncode, run.stdout, len(run.stderr.splitlines())), (2, b"", 1), run.stderr)
            self.assertIn(str(name).encode(), run.stderr)
        self.assertEqual(list(self.folder.iterdir()), [])
        self.assertTrue(Path("/dev/full").is_char_device())


if __name__ == "__main__":
    unittest.main()
