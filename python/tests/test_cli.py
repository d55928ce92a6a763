"""The command line, each command and each way in which it ends."""

import json
import os
import subprocess
import sys
import unittest

import altairpeg as package
from altairpeg import Night, Plan, derive, write_card
from support import CARD, CLOSED, CLOSED_CARD, CLOSED_CODES, CODES, DISORDERED, INBOUND, OPEN, PYTHON, SHORT
from support import Scratch, altairpeg, as_json, n, python, turned

NIGHT = ("--lengths", "6", "--inbound", "3,6,1,5,2,4", "--mark", "open", "--tracks", "2", "--room", "3")
FIRST = {"lengths": [6], "inbound": INBOUND, "tracks": 2, "room": 3, "mark": "open"}
HEAD = "steps 2 tracks 2 room 3 cars 6 trains 1"
CLOSED_HEAD = "steps 3 tracks 2 room 4 cars 6 trains 1 mark closed"
CLOSED_NIGHT = n(room=4, mark=CLOSED)
CLOSED_PLAN = Plan(CLOSED_NIGHT, 3, CLOSED_CODES)
NO_MARK = "altairpeg: mark is missing: a night must say whether it is open or closed\n"
TIMINGS = ("--pull", "1.5", "--push", "0.25")
# The commands that take a night, and those that take a plan.
OF_NIGHTS = (("derive",), ("tradeoff", *TIMINGS))
OF_PLANS = (("check",), ("show",), ("price", *TIMINGS))
SHORT_LINE = "refused 10 16 0: card too short (16 bytes needed, as far as known)\n"


class Cards(Scratch):
    def test_from_numbers(self):
        new = self.folder / "new.card"
        self.ran(altairpeg("card", *NIGHT, "-o", new), 0, f"{new}: 16 bytes, {HEAD}\n")
        self.assertEqual(new.read_bytes(), CARD)

    def test_blanks_and_commas(self):
        run = altairpeg("card", "--lengths", "6", "--inbound", "3", "6,1", "5 2", "4", *NIGHT[4:])
        self.assertEqual((run.stdout, run.stderr, run.returncode), (CARD, b"", 0))

    def test_a_plan_of_your_own(self):
        run = altairpeg("card", *NIGHT, "--steps", "2", "--codes", *map(str, DISORDERED), "-o", "-")
        self.assertEqual((run.stdout, run.returncode), (write_card(Plan(n(room=3), 2, DISORDERED)), 0))

    def test_from_json(self):
        for given in (FIRST, {**FIRST, "steps": 2, "codes": CODES}):
            text = json.dumps(given).encode()
            for run in (altairpeg("card", self.file("night.json", text)), altairpeg("card", "-", input=text)):
                self.assertEqual((run.stdout, run.stderr, run.returncode), (CARD, b"", 0))

    def test_the_mark(self):
        new = self.folder / "new.card"
        unmarked = [word for word in NIGHT if word not in ("--mark", "open")]
        self.ran(altairpeg("card", *unmarked, "-o", new), 2, "", NO_MARK)
        self.assertFalse(new.exists())
        for given in ((*unmarked[:-1], "4", "--mark", "closed"), [self.file("closed.json", as_json(CLOSED_PLAN))]):
            self.ran(altairpeg("card", *given, "-o", new), 0, f"{new}: 20 bytes, {CLOSED_HEAD}\n")
            self.assertEqual(new.read_bytes(), CLOSED_CARD)
            new.unlink()

    def test_nine_steps(self):
        night = self.file("night.json", as_json(turned(257, 9)))
        run = altairpeg("card", night)
        self.assertEqual((run.stdout, run.returncode), (write_card(derive(turned(257, 9)).plan), 0))
        self.ran(altairpeg("card", night, "--limit", "8"), 1, "", "refused 5 9 0: fewest steps above the limit (fewest steps 9)\n")

    def test_refused(self):
        self.ran(altairpeg("card", *NIGHT, "--limit", "1"), 1, "", "refused 5 2 0: fewest steps above the limit (fewest steps 2)\n")
        new = self.folder / "new.card"
        run = altairpeg("card", *NIGHT[:-4], "--tracks", str(2 + 2**64), "--room", "3", "-o", new)
        self.ran(run, 1, "", "refused 1 3 0: a count out of its range (tracks): tracks is 18446744073709551618\n")
        self.assertFalse(new.exists())

    def test_wrong_usage(self):
        night = self.file("night.json", json.dumps(FIRST).encode())
        for given in (
            [], NIGHT[:-2], [*NIGHT, "--steps", "2"], [*NIGHT, "--codes", "0"], [*NIGHT, night], [night, "--room", "3"],
            [*NIGHT, "--inbound", "a"], [*NIGHT, "--unknown"], [*NIGHT, "--limit", "1", "--steps", "2", "--codes", "0"],
            [*NIGHT, "--mark", "shut"], [*NIGHT, "-o", self.folder / "new.json"],
            [*NIGHT, "-o", ""], [*NIGHT, "-o", self.folder], [*NIGHT, "-o", self.folder / "missing" / "new.card"],
            [self.folder / "missing.json"], [self.folder],
        ):
            with self.subTest(given):
                self.wrong(altairpeg("card", *given))

    def test_wrong_json(self):
        deep = b"[" * 100_000
        for text in (b"", b"[]", b"7", b"{", b"\xff\xff", deep, b'{"lengths": [6]}', b"1" * 5000):
            self.wrong(altairpeg("card", "-", input=text))
        wrong = {"tracks": 2.0, "room": None, "inbound": "361524", "lengths": 6, "steps": 2, "codes": CODES, "track": 2, "mark": "shut"}
        for name, value in wrong.items():
            self.wrong(altairpeg("card", "-", input=json.dumps({**FIRST, name: value}).encode()))

    def wrong(self, run):
        """Status 2, and a line that says why, without a trace."""
        self.assertEqual((run.stdout, run.returncode), (b"", 2), run.stderr)
        self.assertRegex(run.stderr.decode().splitlines()[-1], r"^altairpeg( card)?: ")
        self.assertNotIn(b"Traceback", run.stderr)


class OneCard(Scratch):
    def setUp(self):
        super().setUp()
        self.card = self.file("a.card", CARD)

    def test_derive(self):
        disordered = write_card(Plan(n(room=3), 2, DISORDERED))
        new = self.folder / "new.card"
        self.ran(altairpeg("derive", "-", "-o", new, input=disordered), 0, f"{HEAD} passes 11\ncodes 0 0 1 1 2 3\n")
        self.assertEqual(new.read_bytes(), CARD)
        self.assertEqual(altairpeg("derive", "-", "-o", "-", input=disordered).stdout, CARD)
        self.ran(altairpeg("derive", self.card, "--limit", "1"), 1, "", "refused 5 2 0: fewest steps above the limit (fewest steps 2)\n")

    def test_check(self):
        self.ran(altairpeg("check", self.card), 0, f"{HEAD} passes 11 fullest pull 3\n")
        self.ran(altairpeg("check", "-", input=CARD), 0, f"{HEAD} passes 11 fullest pull 3\n")
        disordered = self.file("disordered.card", write_card(Plan(n(room=3), 2, DISORDERED)))
        self.ran(altairpeg("check", disordered), 1, "", "refused 9 3 0: trains out of order (car 3)\n")

    def test_price(self):
        self.ran(altairpeg("price", self.card, *TIMINGS), 0, "steps 2 passes 11 price 5.75\n")
        self.ran(altairpeg("price", "--steps", "2", "--passes", "11", *TIMINGS), 0, "steps 2 passes 11 price 5.75\n")
        almost = "0.06250000000000000000000000000001"
        run = altairpeg("price", self.card, "--pull", "1.5", "--push", almost)
        self.ran(run, 1, "", "refused 13 2 0: a timing not allowed (push): push is Decimal('0.06...000000000001')\n")

    def test_price_of_what(self):
        for given in ([self.card], TIMINGS, [self.card, *TIMINGS, "--steps", "2"], ["--steps", "2", *TIMINGS], [self.card, "--pull", "x"]):
            self.assertEqual(altairpeg("price", *given).returncode, 2)

    def test_refused_cards(self):
        short = self.file("short.card", SHORT)
        for command in (["check"], ["derive"], ["price", *TIMINGS], ["tradeoff", *TIMINGS]):
            self.ran(altairpeg(*command, short), 1, "", SHORT_LINE)
            self.ran(altairpeg(*command, "-", input=SHORT), 1, "", SHORT_LINE)

    def test_a_refusal_line_in_place_of_a_card(self):
        for command in ("check", "derive"):
            self.ran(altairpeg(command, "-", input=b"refused 10 16 0\n"), 1, "", SHORT_LINE)
        self.ran(altairpeg("check", "-", input=b"refused"), 1, "", "refused 11 7 0: card edition not 1 or 2 (edition 7)\n")

    def test_files_that_cannot_be_read_or_written(self):
        missing = self.folder / "missing.card"
        self.ran(altairpeg("check", missing), 2, "", f"altairpeg: {missing}: No such file or directory\n")
        self.ran(altairpeg("check", self.folder), 2, "", f"altairpeg: {self.folder}: Is a directory\n")
        self.ran(altairpeg("derive", self.card, "-o", self.folder), 2, "", f"altairpeg: {self.folder}: Is a directory\n")

    def test_no_library(self):
        run = altairpeg("check", self.card, set={"ALTAIRPEG_ARCHIVE": str(self.folder / "missing.a")})
        self.assertEqual((run.stdout, run.returncode), (b"", 2))
        self.assertRegex(run.stderr, rb"^altairpeg: .*missing\.a can't be read[^\n]*\n$")

    def test_a_name_of_any_bytes(self):
        name = os.fsencode(self.folder) + b"/\xff\n.card"
        run = altairpeg("card", *NIGHT, "-o", os.fsdecode(name))
        self.assertEqual((run.stdout, run.returncode), (name + f": 16 bytes, {HEAD}\n".encode(), 0), run.stderr)


class JsonFiles(Scratch):
    """Nights and plans in JSON files."""

    def setUp(self):
        super().setUp()
        self.night = self.file("night.json", as_json(CLOSED_NIGHT))
        self.plan = self.file("plan.json", as_json(CLOSED_PLAN))
        self.new = self.folder / "new.json"

    def named(self, **more):
        """A file with the closed night, and more or other names."""
        return self.file("given.json", json.dumps({**CLOSED_NIGHT._asdict(), **more}).encode())

    def test_derive(self):
        lines = f"{CLOSED_HEAD} passes 14\ncodes 1 1 2 2 3 5\n"
        for given in (self.night, self.plan, self.named(codes=[9], steps=None), self.named(codes="none")):
            self.ran(altairpeg("derive", given, "-o", self.new), 0, lines)
            self.assertEqual(json.loads(self.new.read_bytes()), json.loads(as_json(CLOSED_PLAN)))
            self.new.unlink()
        self.ran(altairpeg("derive", self.night, "--limit", "2"), 1, "", "refused 5 3 0: fewest steps above the limit (fewest steps 3)\n")

    def test_derive_an_open_night(self):
        night, lines = self.named(mark="open"), "steps 2 tracks 2 room 4 cars 6 trains 1 passes 11\ncodes 0 0 1 1 2 3\n"
        card = write_card(derive(n(room=4)).plan)
        self.ran(altairpeg("derive", night, "-o", self.new), 0, lines)
        self.assertEqual(json.loads(self.new.read_bytes()), json.loads(as_json(Plan(n(room=4), 2, CODES))))
        self.assertEqual(altairpeg("derive", self.new, "-o", "-").stdout, card)
        self.assertEqual(altairpeg("card", self.new).stdout, card)
        self.ran(altairpeg("derive", self.file("a.card", card), "-o", self.new), 0, lines)
        self.ran(altairpeg("check", self.new), 0, "steps 2 tracks 2 room 4 cars 6 trains 1 passes 11 fullest pull 3\n")

    def test_a_closed_night_on_a_card(self):
        self.assertEqual(altairpeg("derive", self.night, "-o", "-").stdout, CLOSED_CARD)
        card = self.file("closed.card", CLOSED_CARD)
        self.ran(altairpeg("check", card), 0, f"{CLOSED_HEAD} passes 14 fullest pull 4\n")
        self.ran(altairpeg("derive", card, "-o", self.new), 0, f"{CLOSED_HEAD} passes 14\ncodes 1 1 2 2 3 5\n")
        self.assertEqual(json.loads(self.new.read_bytes()), json.loads(as_json(CLOSED_PLAN)))
        self.ran(altairpeg("derive", self.night, "--limit", "0", "-o", self.folder / "new.card"), 1, "", (
            "refused 5 3 0: fewest steps above the limit (fewest steps 3)\n"
        ))
        self.assertFalse((self.folder / "new.card").exists())

    def test_a_refusal_leaves_the_old_file(self):
        self.new.write_bytes(b"old")
        self.assertEqual(altairpeg("derive", self.night, "--limit", "2", "-o", self.new).returncode, 1)
        self.assertEqual(self.new.read_bytes(), b"old")

    def test_check_and_price(self):
        self.ran(altairpeg("check", self.plan), 0, f"{CLOSED_HEAD} passes 14 fullest pull 4\n")
        self.ran(altairpeg("price", self.plan, *TIMINGS), 0, "steps 3 passes 14 price 8.0\n")

    def test_refused(self):
        zero, line = self.named(steps=2, codes=CODES), "refused 14 1 0: a zero code in a closed night (car 1): codes[0] is 0\n"
        for command in (("check",), ("price", *TIMINGS)):
            self.ran(altairpeg(*command, zero), 1, "", line)
        line = "steps 2 tracks 2 room 4 cars 6 trains 1 passes 11 fullest pull 3\n"
        self.ran(altairpeg("check", self.named(steps=2, codes=CODES, mark="open")), 0, line)

    def test_a_night_is_no_plan(self):
        line = f"altairpeg: {self.night} has a night and no plan: altairpeg derive, with -o PLAN.json, adds steps and codes\n"
        for command in OF_PLANS:
            self.ran(altairpeg(*command, self.night), 2, "", line)
            self.ran(altairpeg(*command, self.named(steps=3)), 2, "", "altairpeg: codes is missing: a plan has both steps and codes\n")

    def test_the_mark_must_be_said(self):
        named = {"lengths": [6], "inbound": INBOUND, "tracks": 2, "room": 3, "steps": 2, "codes": CODES}
        unmarked = self.file("unmarked.json", json.dumps(named).encode())
        for command in (*OF_NIGHTS, ("card",), *OF_PLANS):
            self.ran(altairpeg(*command, unmarked), 2, "", NO_MARK)
            for mark in (True, 1, None, "shut"):
                said = f"altairpeg: mark is {mark!r}, not 'open' or 'closed'\n"
                self.ran(altairpeg(*command, self.named(mark=mark, steps=3, codes=CLOSED_CODES)), 2, "", said)

    def test_what_is_no_json(self):
        for command in (*OF_NIGHTS, *OF_PLANS):
            run = altairpeg(*command, self.file("card.json", CARD))
            self.assertEqual((run.stdout, run.returncode), (b"", 2))
            self.assertIn(b"card.json is not JSON: ", run.stderr)
            missing = self.folder / "missing.json"
            self.ran(altairpeg(*command, missing), 2, "", f"altairpeg: {missing}: No such file or directory\n")
            self.ran(altairpeg(*command, self.named(track=2)), 2, "", (
                "altairpeg: 'track' is none of lengths, inbound, tracks, room, mark, steps, codes\n"
            ))

    def test_standard_input_is_a_card(self):
        said = "altairpeg: - looks like JSON, not like a card: the name of a JSON file ends in .json\n"
        for before in (b"", b"\n", b"\r\n\t"):
            self.ran(altairpeg("check", "-", input=before + as_json(CLOSED_PLAN)), 2, "", said)

    def test_a_card_that_begins_with_blanks_and_a_brace(self):
        plan = Plan(Night([1], [1], 16, 1968, OPEN), 0, [0])
        card = write_card(plan)
        self.assertEqual(card[:3], b"  {")
        self.ran(altairpeg("check", "-", input=card), 0, "steps 0 tracks 16 room 1968 cars 1 trains 1 passes 1 fullest pull 0\n")

    def test_a_name_that_stands_twice(self):
        first = '"lengths": [6], "inbound": [3, 6, 1, 5, 2, 4], "tracks": 2, "room": 4'
        for twice in ('"mark": "closed", "mark": "open"', '"mark": "open", "mark": "closed"', '"mark": "open", "room": 4'):
            file = self.file("twice.json", f"{{{first}, {twice}}}".encode())
            name = "room" if "room" in twice else "mark"
            self.ran(altairpeg("derive", file), 2, "", f"altairpeg: {file}: '{name}' stands twice in one object\n")


class Ends(Scratch):
    def test_usage(self):
        for given in ("", "unknown", "check", "check a b", "--unknown", "derive a --limit x", "derive a --lim 8"):
            run = altairpeg(*given.split())
            self.assertEqual((run.stdout, run.returncode), (b"", 2))
            self.assertTrue(run.stderr.startswith(b"usage: altairpeg"))

    def test_help_and_version(self):
        self.ran(altairpeg("--version"), 0, f"altairpeg {package.__version__}\n")
        for command in ("card", "derive", "check", "price", "tradeoff", "show", "batch"):
            self.assertIn(command.encode(), altairpeg("--help").stdout)
            self.assertEqual(altairpeg(command, "--help").returncode, 0)

    def test_a_fault_of_the_program_is_no_refusal(self):
        run = python("-c", "import sys; from altairpeg import cli; cli.check = len; sys.exit(cli.main(['check', '-']))", input=CARD)
        self.assertEqual((run.stdout, run.returncode), (b"", 2))
        self.assertIn(b"Traceback", run.stderr)

    def test_a_broken_pipe(self):
        reader, writer = os.pipe()
        os.close(reader)
        with os.fdopen(writer, "wb") as gone:
            for said, status in self.to(gone):
                self.assertEqual((said, status), (b"", 2))

    @unittest.skipUnless(os.path.exists("/dev/full"), "there is no /dev/full")
    def test_a_full_disk(self):
        with open("/dev/full", "wb") as full:
            for said, status in self.to(full):
                self.assertRegex(said, rb"^altairpeg: [^\n]*No space left on device\n$")
                self.assertEqual(status, 2)

    def to(self, out):
        """What commands say whose standard output is this, and how they end; Python finds out at once or at the last."""
        for unbuffered, commands in (("", ["check -", "derive - -o -", "--help"]), ("1", ["check -", "derive - -o -"])):
            for command in commands:
                streams = {"input": CARD, "capture_output": False, "stdout": out, "stderr": subprocess.PIPE}
                run = altairpeg(*command.split(), set={"PYTHONUNBUFFERED": unbuffered}, **streams)
                yield run.stderr, run.returncode

    def test_closed_streams(self):
        for closed, status in (("<&-", 2), (">&-", 2), ("2>&-", 0)):
            command = ["sh", "-c", f'"$0" -m altairpeg check - {closed}', sys.executable]
            run = subprocess.run(command, input=CARD, capture_output=True, cwd=PYTHON)
            self.assertEqual(run.returncode, status, closed)
            self.assertNotIn(b"Traceback", run.stderr)


if __name__ == "__main__":
    unittest.main()
