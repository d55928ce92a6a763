"""The command `batch`: the table, its order, the exit status, the bar and the new cards."""

import csv
import io
import os
import pty
import subprocess
import unittest

from altairpeg import Plan, derive, read_card_file, write_card
from support import CARD, CLOSED, CLOSED_CARD, CODES, DISORDERED, SHORT, Scratch, altairpeg, as_json, n, turned

NAMES = "card,number,a,b,steps,tracks,room,cars,trains,passes,fullest_pull,words\n"
FIRST = ",0,0,0,2,2,3,6,1,11,3,done\n"
WRONG = write_card(Plan(n(room=3), 2, DISORDERED))


class Batch(Scratch):
    def setUp(self):
        super().setUp()
        self.cards = self.folder / "the cards"
        self.cards.mkdir()

    def card(self, name, data=CARD):
        """A card in the folder."""
        (self.cards / name).write_bytes(data)

    def test_derived(self):
        self.card("b.card")
        self.card("a, 1.card", WRONG)
        self.card("notes.txt", b"")
        self.card("closed.json", as_json(n(mark=CLOSED)))
        (self.cards / "folder.card").mkdir()
        self.ran(altairpeg("batch", self.cards), 0, f'{NAMES}"a, 1.card"{FIRST}b.card{FIRST}')

    def test_checked_and_refused(self):
        self.card("a.card")
        self.card("b.card", WRONG)
        self.card("c.card", SHORT)
        self.card("d.card", b"refused 5 3 0\n")
        self.ran(altairpeg("batch", self.cards, "--check"), 1, (
            f"{NAMES}a.card{FIRST}"
            "b.card,9,3,0,2,2,3,6,1,,,trains out of order (car 3)\n"
            'c.card,10,16,0,,,,,,,,"card too short (16 bytes needed, as far as known)"\n'
            "d.card,5,3,0,,,,,,,,fewest steps above the limit (fewest steps 3)\n"
        ))

    def test_both_editions(self):
        self.card("a.card")
        self.card("b.card", CLOSED_CARD)
        self.card("c.card", write_card(derive(turned(257, 9)).plan))
        new = self.folder / "new"
        self.ran(altairpeg("batch", self.cards, "-o", new), 0, (
            f"{NAMES}a.card{FIRST}"
            "b.card,0,0,0,3,2,4,6,1,14,4,done\n"
            "c.card,0,0,0,9,9,512,257,1,1282,128,done\n"
        ))
        for name in ("a.card", "b.card", "c.card"):
            self.assertEqual((new / name).read_bytes(), (self.cards / name).read_bytes())

    def test_limit(self):
        self.card("a.card")
        line = "a.card,5,2,0,,2,3,6,1,,,fewest steps above the limit (fewest steps 2)\n"
        self.ran(altairpeg("batch", self.cards, "--limit", "1"), 1, NAMES + line)

    def test_a_file_that_cannot_be_read(self):
        self.card("b.card", SHORT)
        (self.cards / "a.card").symlink_to("missing")
        run = altairpeg("batch", self.cards)
        self.assertEqual(run.returncode, 2)
        self.assertIn(b"\na.card,,,,,,,,,,,No such file or directory\n", run.stdout)

    def test_many_on_all_cores(self):
        names = [f"{number:04}.card" for number in range(700)]
        for name in names:
            self.card(name)
        self.card("0350.card", SHORT)
        run = altairpeg("batch", self.cards, "--jobs", "3")
        self.assertEqual((run.stderr, run.returncode), (b"", 1))
        rows = list(csv.DictReader(io.StringIO(run.stdout.decode())))
        self.assertEqual([row["card"] for row in rows], names)
        self.assertEqual([row["card"] for row in rows if row["number"] != "0"], ["0350.card"])
        self.assertEqual(run.stdout, altairpeg("batch", self.cards, "--jobs", "1").stdout)

    def test_new_cards(self):
        self.card("a.card", WRONG)
        new = self.folder / "new" / "cards"
        self.ran(altairpeg("batch", self.cards, "-o", new), 0, f"{NAMES}a.card{FIRST}")
        self.assertEqual(read_card_file(new / "a.card").codes, CODES)
        (new / "a.card").unlink()
        (new / "a.card").mkdir()
        run = altairpeg("batch", self.cards, "-o", new)
        self.assertEqual((run.returncode, run.stdout.decode()), (2, f"{NAMES}a.card,,,,,2,3,6,1,,,the new card: Is a directory\n"))

    def test_wrong_usage(self):
        self.card("a.card")
        empty = self.folder / "empty"
        empty.mkdir()
        for given in (
            [], [empty], [self.folder / "missing"], [self.cards / "a.card"], [self.cards, "--jobs", "0"], [self.cards, "--jobs", "x"],
            [self.cards, "-o", self.cards], [self.cards, "--check", "-o", empty], [self.cards, "-o", self.cards / "a.card"],
        ):
            run = altairpeg("batch", *given)
            self.assertEqual((run.stdout, run.returncode), (b"", 2), given)
            self.assertNotIn(b"Traceback", run.stderr)

    def test_a_name_of_any_bytes(self):
        with open(os.fsencode(self.cards) + b"/\xff.card", "wb") as file:
            file.write(CARD)
        self.assertIn(b"\n\xff.card,0,0,0,2,", altairpeg("batch", self.cards).stdout)

    def test_a_broken_pipe(self):
        for number in range(200):
            self.card(f"{number}.card")
        reader, writer = os.pipe()
        os.close(reader)
        run = altairpeg("batch", self.cards, "--jobs", "2", capture_output=False, stdout=writer, stderr=subprocess.PIPE)
        os.close(writer)
        self.assertEqual((run.stderr, run.returncode), (b"", 2))

    def test_the_bar_on_a_terminal(self):
        for number in range(4):
            self.card(f"{number}.card")
        drawn, run = self.on_terminal(stdout=subprocess.PIPE)
        self.assertEqual((run.stdout.count(b"\n"), run.returncode), (5, 0))
        self.assertIn(b"\r[####################                    ] 2/4 cards", drawn)
        self.assertTrue(drawn.endswith(b"4/4 cards\r\x1b[K"), drawn)
        shared, run = self.on_terminal()
        self.assertEqual(run.returncode, 0)
        self.assertIn(b"\r\x1b[K2.card,0,", shared)

    def on_terminal(self, **options):
        """What a terminal gets on standard error, and on standard output where that is no pipe; and the run."""
        terminal, end = pty.openpty()
        options.setdefault("stdout", end)
        run = altairpeg("batch", self.cards, capture_output=False, stderr=end, **options)
        os.close(end)
        with os.fdopen(terminal, "rb", buffering=0) as shown:
            return shown.read(10000), run


if __name__ == "__main__":
    unittest.main()
