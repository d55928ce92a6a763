"""The command `tradeoff`: its lines, the cheapest of them, each way in which it is refused, and its picture."""

import json
import unittest
from xml.etree import ElementTree

from altairpeg import Night, Plan, derive, write_card
from altairpeg.chart import COLUMN, picture
from altairpeg.choices import weigh
from altairpeg.page import LETTER

from drawings import NAME, Drawing, words
from support import CLOSED, DISORDERED, OPEN, Scratch, altairpeg, as_json, blocks, n, one_car, turned

HEAD = "tracks 4 room 3 cars 6 trains 1\n"
# The night of five blocks, where a step costs less than a push.
LINES = """\
steps 3 passes 12 fullest pull 3 price 840.0
steps 4 passes 11 fullest pull 2 price 820.0 cheapest
steps 5 passes 11 fullest pull 2 price 860.0
steps 6 passes 11 fullest pull 2 price 900.0
steps 7 passes 11 fullest pull 2 price 940.0
steps 8 passes 11 fullest pull 2 price 980.0
"""
TIMINGS = ("--pull", "40", "--push", "60")
OVERFILLED = "refused 6 0 2: a track overfilled (step 0, 2 cars)"


class Command(Scratch):
    """Tests of the command."""

    def tradeoff(self, given, *options):
        """Runs the command on a night or a plan in a JSON file, or on the bytes of one."""
        data = given if isinstance(given, bytes) else as_json(given)
        return altairpeg("tradeoff", self.file("night.json", data), *(options or TIMINGS))

    def cheapest(self, night, pull, push):
        """The lines that are marked."""
        lines = self.tradeoff(night, "--pull", pull, "--push", push).stdout.decode().splitlines()
        return [line for line in lines if line.endswith(" cheapest")]


class Lines(Command):
    def test_lines(self):
        self.ran(self.tradeoff(blocks()), 0, HEAD + LINES)

    def test_a_card(self):
        card = write_card(Plan(blocks(), 0, [0] * 6))
        self.ran(altairpeg("tradeoff", self.file("a.card", card), *TIMINGS), 0, HEAD + LINES)
        self.ran(altairpeg("tradeoff", "-", *TIMINGS, input=card), 0, HEAD + LINES)

    def test_codes_do_not_count(self):
        for steps, codes in ((2, DISORDERED), (9, [600]), (None, "none")):
            self.ran(self.tradeoff(Plan(blocks(), steps, codes)), 0, HEAD + LINES)

    def test_a_closed_night(self):
        self.ran(self.tradeoff(n(room=4, mark=CLOSED), "--pull", "1.5", "--push", "0.0625"), 0, (
            "tracks 2 room 4 cars 6 trains 1 mark closed\n"
            "steps 3 passes 14 fullest pull 4 price  5.375 cheapest\n"
            "steps 4 passes 14 fullest pull 4 price  6.875\n"
            "steps 5 passes 14 fullest pull 4 price  8.375\n"
            "steps 6 passes 14 fullest pull 4 price  9.875\n"
            "steps 7 passes 14 fullest pull 4 price 11.375\n"
            "steps 8 passes 14 fullest pull 4 price 12.875\n"
        ))

    def test_from_no_steps_to_the_most(self):
        lines = self.tradeoff(one_car(OPEN)).stdout.decode().splitlines()
        self.assertEqual(lines[1:3], ["steps 0 passes 1 fullest pull 0 price  60.0 cheapest", "steps 1 passes 1 fullest pull 0 price 100.0"])
        self.assertEqual(len(lines), 10)
        self.assertRegex(self.tradeoff(turned(256, 8)).stdout, rb"\A[^\n]*\nsteps 8 passes 1280 [^\n]* cheapest\n\Z")

    def test_the_first_of_equal_prices(self):
        self.assertEqual(self.cheapest(blocks(), "1", "1"), ["steps 3 passes 12 fullest pull 3 price 15.0 cheapest"])
        self.assertEqual(self.cheapest(blocks(), "0", "0"), ["steps 3 passes 12 fullest pull 3 price 0.0 cheapest"])
        self.assertEqual(self.cheapest(blocks(), "0", "1"), ["steps 4 passes 11 fullest pull 2 price 11.0 cheapest"])

    def test_one_choice_without_room(self):
        lines = self.tradeoff(blocks(room=2), "--pull", "600", "--push", "4.5").stdout.decode().splitlines()
        self.assertEqual(lines[1:4], [
            "steps 3 refused 6 2 3: a track overfilled (step 2, 3 cars)",
            "steps 4 passes 11 fullest pull 2 price 2449.5 cheapest",
            "steps 5 passes 11 fullest pull 2 price 3049.5",
        ])
        self.assertEqual(self.cheapest(blocks(), "600", "4.5"), ["steps 3 passes 12 fullest pull 3 price 1854.0 cheapest"])

    def test_no_choice_with_room(self):
        lines = [f"steps {steps} refused 6 2 2: a track overfilled (step 2, 2 cars)" for steps in range(4, 9)]
        said = "\n".join(["tracks 4 room 1 cars 6 trains 1", f"steps 3 {OVERFILLED}", *lines, ""])
        self.ran(self.tradeoff(blocks(room=1)), 1, said, f"{OVERFILLED}\n")


class Refused(Command):
    def says(self, given, line, *options):
        """The refusal alone, and no line of a table."""
        self.ran(self.tradeoff(given, *options), 1, "", f"{line}\n")

    def test_nights(self):
        self.says(blocks()._replace(tracks=9), "refused 1 3 0: a count out of its range (tracks): tracks is 9; the fewest passes are found for at most 8")
        self.says(blocks()._replace(lengths=[6, 0]), "refused 2 2 0: a train of length 0, or lengths not adding up to n (train 2): lengths[1] is 0")
        self.says(blocks()._replace(inbound=[1, 1, 2, 3, 4, 5]), (
            "refused 3 2 1: inbound list not each car once (place 2, met before, first listed at place 1): inbound[0] and inbound[1] are both 1"
        ))

    def test_no_steps_will_do(self):
        self.says(turned(257, 8), "refused 5 9 0: fewest steps above the limit (fewest steps 9)")
        self.says(turned(256, 8, CLOSED), "refused 5 9 0: fewest steps above the limit (fewest steps 9)")

    def test_bigger_nights(self):
        """What derive takes and the fewest passes do not, from a file and from a card."""
        line = "refused 1 1 0: a count out of its range (cars): len(inbound) is 513; the fewest passes are found for at most 512\n"
        self.says(turned(513, 16, room=513), line[:-1])
        card = self.file("a.card", write_card(derive(turned(513, 16, room=513)).plan))
        self.ran(altairpeg("tradeoff", card, *TIMINGS), 1, "", line)

    def test_timings(self):
        for night in (blocks(), blocks(room=1)):
            self.says(night, "refused 13 1 0: a timing not allowed (pull): pull is Decimal('0.1')", "--pull", "0.1", "--push", "nan")
            self.says(night, "refused 13 2 0: a timing not allowed (push): push is Decimal('sNaN')", "--pull", "0", "--push", "sNaN")

    def test_a_night_before_a_timing(self):
        self.says(turned(257, 8), "refused 5 9 0: fewest steps above the limit (fewest steps 9)", "--pull", "-1", "--push", "-1")

    def test_wrong_usage(self):
        night = self.file("night.json", as_json(blocks()))
        for given in ([], [night], [night, "--pull", "1"], [night, "--push", "1"], [night, "--pull", "x", "--push", "1"], [night, *TIMINGS, "x"]):
            run = altairpeg("tradeoff", *given)
            self.assertEqual((run.stdout, run.returncode), (b"", 2))
            self.assertTrue(run.stderr.startswith(b"usage: altairpeg"), run.stderr)
        run = self.tradeoff(json.dumps({**blocks()._asdict(), "inbound": 6}).encode())
        self.ran(run, 2, "", "altairpeg: inbound is 6, not a list of whole numbers\n")


class Picture(Drawing):
    def test_in_words(self):
        told = words(picture(weigh(blocks(), 40, 60)))
        self.assertEqual(told[:2], ["A night of 6 cars and 1 train: steps and passes", "tracks 4 room 3 cars 6 trains 1"])
        self.assertIn("Price, in seconds: steps times 40 plus passes times 60.", " ".join(told))
        for word in ("passes", "steps", "fullest pull", "price", *map(str, range(3, 9)), "840.0", "820.0", "980.0"):
            self.assertIn(word, told)
        self.assertEqual((told.count("12"), told.count("11"), told.count("cheapest")), (1, 5, 1))
        self.assertLess(told.index("3"), told.index("cheapest"))
        self.assertLess(told.index("cheapest"), told.index("5"))

    def test_described(self):
        described = ElementTree.fromstring(picture(weigh(blocks(), 40, 60))).find(f"{NAME}desc").text
        self.assertEqual(described.split("; "), LINES.splitlines())

    def test_bars_are_as_high_as_their_passes(self):
        boxes = ElementTree.fromstring(picture(weigh(blocks(), 40, 60))).findall(f"{NAME}rect")
        bars = [box for box in boxes if box.get("width") == "48"]
        self.assertEqual([int(bar.get("height")) for bar in bars], [200, *[183] * 5])
        self.assertEqual(len({int(bar.get("y")) + int(bar.get("height")) for bar in bars}), 1, "they stand on one line")
        self.assertEqual([bar.get("stroke-width") for bar in bars], [None, "3", *[None] * 4])

    def test_refused_choices(self):
        told = words(picture(weigh(blocks(room=2), 40, 60)))
        self.assertEqual([told.count(word) for word in ("refused 6", "step 2", "3 cars", "840.0", "cheapest")], [1, 1, 1, 0, 1])
        self.assertIn("Red: a track overfilled, by its step and cars.", " ".join(told))
        told = words(picture(weigh(blocks(room=1), 40, 60)))
        self.assertEqual([told.count(word) for word in ("refused 6", "cheapest")], [6, 0])
        self.assertNotIn("cheapest", " ".join(told))

    def pictures(self):
        """Pictures of the narrowest and of the widest tradeoff, with the longest prices, and of one with no choice."""
        cars = Night([8] * 64, range(512, 0, -1), 8, 512, OPEN)
        for night in (one_car(OPEN), turned(256, 8), cars, cars._replace(mark=CLOSED, room=300), blocks(room=1)):
            yield picture(weigh(night, 4096, 4095.9375))

    def test_nothing_leaves_the_picture(self):
        for drawn in self.pictures():
            self.stays_inside(drawn)
            for text in ElementTree.fromstring(drawn).iter(f"{NAME}text"):
                if text.get("text-anchor") == "middle":
                    self.assertLessEqual(len(text.text) * int(text.get("font-size")) * LETTER, COLUMN, text.text)

    def test_nothing_from_outside(self):
        for drawn in self.pictures():
            self.stands_alone(drawn)


class PictureFile(Command):
    def test_file_and_standard_output(self):
        file = self.folder / "a picture.svg"
        self.ran(self.tradeoff(blocks(), *TIMINGS, "--svg", file), 0)
        self.assertEqual(file.read_text(), picture(weigh(blocks(), 40, 60)))
        self.assertEqual(self.tradeoff(blocks(), *TIMINGS, "--svg", "-").stdout, file.read_bytes())

    def test_no_choice_with_room_is_drawn_and_told(self):
        file = self.folder / "x.svg"
        self.ran(self.tradeoff(blocks(room=1), *TIMINGS, "--svg", file), 1, "", f"{OVERFILLED}\n")
        ElementTree.parse(file)

    def test_a_refusal_leaves_the_old_picture(self):
        old = self.file("x.svg", b"old")
        for night, timings in ((turned(257, 8), TIMINGS), (blocks(), ("--pull", "0.1", "--push", "1"))):
            self.assertEqual(self.tradeoff(night, *timings, "--svg", old).returncode, 1)
            self.assertEqual(old.read_bytes(), b"old")

    def test_a_place_that_takes_no_picture(self):
        self.ran(self.tradeoff(blocks(), *TIMINGS, "--svg", self.folder), 2, "", f"altairpeg: {self.folder}: Is a directory\n")


if __name__ == "__main__":
    unittest.main()
