"""The drawing as text, by the module's command."""

import subprocess
import unittest

from altairpeg import Night, Plan
from altairpeg.show import brief, draw
from altairpeg.story import tell

from drawings import BARRED, EARLY, NINE, OUT_OF_ORDER, OVERFILLED, SHUT, many, show, zeroed
from support import CARD, CLOSED, PYTHON, SHORT, Scratch, altairpeg, as_json

# How the drawing of each refused plan ends.
ENDS = (
    (OVERFILLED, """\
stage 0, 6 passes
  track 0 | 3 6 4!
  track 1 | 5
  train 1 | 1 2

step 0 pulls track 0: 3 6 4!
  ! overfilled: 3 cars, and track 0 has room for 2

check: refused 6 0 3: a track overfilled (step 0, 3 cars)
"""),
    (EARLY, """\
step 0 pulls track 0: 3 6 4!
  ! too early for car 4: a code with 0 at step 0

check: refused 8 4 0: a car pulled early (car 4, step 0)
"""),
    (OUT_OF_ORDER, """\
trains as built
  train 1: 3! 1 2 4 5 6
    ! out of order: car 3 stands before car 2

check: refused 9 3 0: trains out of order (car 3)
"""),
    (BARRED, """\
steps 3 tracks 2 room 4 cars 6 trains 1 mark closed

first roll-in: 3 6 1 5 2! 4
  3 -> track 1   6 1 5 -> track 0   2! -> train 1   4 -> track 1
  ! car 2 would roll to train 1, barred until the first pull

check: refused 14 2 0: a zero code in a closed night (car 2): codes[1] is 0
"""),
)


class Show(Scratch):
    def test_case_1(self):
        self.ran(show(CARD), 0, (PYTHON / "tests" / "case_1.txt").read_text())
        self.ran(show(CARD, "--brief"), 0, (PYTHON / "tests" / "case_1_brief.txt").read_text())

    def test_a_closed_night(self):
        self.ran(show(SHUT), 0, (PYTHON / "tests" / "closed.txt").read_text())
        self.ran(show(SHUT, "--brief"), 0, (PYTHON / "tests" / "closed_brief.txt").read_text())

    def test_a_json_file(self):
        for plan in (SHUT, OVERFILLED):
            drawn = show(plan)
            file = self.file("plan.json", as_json(plan))
            self.ran(altairpeg("show", file, set={"COLUMNS": "80"}), drawn.returncode, drawn.stdout.decode())

    def test_the_brief_of_a_story_that_ends_at_the_first_roll_in(self):
        self.ran(show(BARRED, "--brief"), 1, (
            "steps 3 tracks 2 room 4 cars 6 trains 1 mark closed\n"
            "first roll-in: 3 6 1 5 2! 4\n"
            "  ! car 2 would roll to train 1, barred until the first pull\n"
            "check: refused 14 2 0: a zero code in a closed night (car 2): codes[1] is 0\n"
        ))

    def test_many_barred_destinations(self):
        stages = [part.splitlines()[-1] for part in draw(tell(NINE)).split("\n\n") if part.startswith("stage ")]
        self.assertEqual(stages[:3], ["  9 trains barred until the first pull", "  8 other trains empty", "  8 other trains as before"])
        self.assertEqual(draw(tell(many(64, 8, mark=CLOSED))).count("barred"), 1)
        self.assertEqual(draw(tell(many(64, 8))).count("barred"), 0)

    def test_refused_cards(self):
        self.ran(show(SHORT), 1, err="refused 10 16 0: card too short (16 bytes needed, as far as known)\n")
        self.ran(show(b"refused 5 3 0\n"), 1, err="refused 5 3 0: fewest steps above the limit (fewest steps 3)\n")

    def test_refused_plans_are_drawn_as_far_as_they_go(self):
        for plan, end in ENDS:
            run = show(plan)
            self.assertEqual((run.returncode, run.stderr), (1, b""))
            self.assertEqual(run.stdout.decode()[-len(end) :], end)

    def test_512_cars_fit_the_width(self):
        closed = many(64, 8, mark=CLOSED)
        for plan in (many(64, 8), many(8, 64), many(1, 512, 8), closed, many(8, 64, mark=CLOSED), zeroed(closed)):
            story = tell(plan)
            for width in (40, 80, 132):
                for text in (draw(story, width), brief(story, width)):
                    self.assertLessEqual(max(map(len, text.splitlines())), width)

    def test_4096_cars_fit_the_width(self):
        for plan in (many(256, 16, 16), many(256, 16, 2, CLOSED), many(8, 512, 16, CLOSED), zeroed(many(256, 16, 16, CLOSED))):
            story = tell(plan)
            for width in (40, 160):
                for text in (draw(story, width), brief(story, width)):
                    self.assertLessEqual(max(map(len, text.splitlines())), width)

    def test_sixteen_tracks_and_steps(self):
        plan = Plan(Night([2], [2, 1], 16, 2, CLOSED), 16, [2**15, 2**15 + 1])
        text = draw(tell(plan))
        for line in ("  track 0  | 2", "  track 15 | 1", "step 14 finds track 14 empty", "step 15 pulls track 15: 1 2", "  train 1  | 1 2"):
            self.assertIn(f"\n{line}\n", text)

    def test_512_cars_are_a_few_pages(self):
        self.assertLess(len(draw(tell(many(64, 8))).splitlines()), 600)

    def test_every_car_is_named_where_it_rolls(self):
        story = tell(many(64, 8))
        rolls = " ".join(draw(story).split("\n\n")[1].splitlines()[1:])
        cuts = [cut.rsplit(" -> ", 1)[0] for cut in rolls.strip().split("   ")]
        self.assertEqual([int(car) for cut in cuts for car in cut.split()], story.plan.night.inbound)

    def test_width_of_the_terminal(self):
        for columns in (60, 100):
            lines = show(many(8, 64), columns=columns).stdout.decode().splitlines()
            self.assertTrue(columns - 10 < max(map(len, lines)) <= columns)


class Files(Scratch):
    def test_files_that_cannot_be_read(self):
        for name in (self.folder / "none", self.folder):
            run = altairpeg("show", name)
            self.assertEqual((run.returncode, run.stdout), (2, b""))
            self.assertEqual(len(run.stderr.splitlines()), 1)

    def test_cards_that_are_none(self):
        for data in (b"\x12", b"\xff" * 5000, bytes(100000), b"refused", b"refused 5 3", "refused ٣ 1 1".encode()):
            run = show(data)
            self.assertEqual((run.returncode, run.stdout, run.stderr[:8]), (1, b"", b"refused "), data[:20])

    def test_an_input_without_end(self):
        self.assertEqual(altairpeg("show", "/dev/zero").returncode, 1)

    def test_full_device(self):
        with open("/dev/full", "wb") as full:
            run = show(CARD, capture_output=False, stdout=full, stderr=subprocess.PIPE)
        self.assertEqual((run.returncode, len(run.stderr.splitlines())), (2, 1), run.stderr)

    def test_wrong_usage(self):
        for words in ([], ["a", "b"], ["--what", "a"], ["--brief", "--svg", "x", "a"], ["--svg", "x"], ["--br", "a"]):
            self.assertEqual(altairpeg("show", *words, stdin=subprocess.DEVNULL).returncode, 2)


if __name__ == "__main__":
    unittest.main()
