"""docs/USING.md tells the truth: its Python examples and its command line, run as they stand there."""

import doctest
import re
import shlex
import textwrap
import unittest

from altairpeg.show import draw
from altairpeg.story import tell

from drawings import BARRED, SHUT
from support import CARD, PYTHON, Scratch, altairpeg

USING = PYTHON.parent / "docs" / "USING.md"
UNSORTED = bytes.fromhex("10200C0602030060300202804020")


@unittest.skipUnless(USING.is_file(), "docs/USING.md is not here")
class Using(Scratch):
    def test_python(self):
        failed, tried = doctest.testfile(str(USING), module_relative=False)
        self.assertEqual((failed, tried >= 8), (0, True))

    def test_drawings(self):
        section = USING.read_text().partition("## The yard drawn")[2].partition("## The library")[0]
        for plan, head in ((SHUT, "stage 0"), (BARRED, "first roll-in")):
            part = next(part for part in draw(tell(plan)).split("\n\n") if part.startswith(head))
            self.assertIn(textwrap.indent(part, "    "), section)

    def test_command_line(self):
        (self.folder / "cards").mkdir()
        self.file("cards/first.card", CARD)
        self.file("cards/unsorted.card", UNSORTED)
        section = USING.read_text().partition("## The command line")[2]
        for name, text in re.findall(r"`(\w+\.json)` has\n\n    (\{.*\})$", section, re.MULTILINE):
            self.file(name, text.encode())
        commands = re.findall(r"^    altairpeg (.*)$", section, re.MULTILINE)
        self.assertGreaterEqual(len(commands), 10)
        printed = "".join(altairpeg(*shlex.split(command), cwd=self.folder).stdout.decode() for command in commands)
        for line in printed.splitlines():
            self.assertIn(line, section)
        for line in re.findall(r"^    ([a-z].*)$", section, re.MULTILINE):
            if not line.startswith("altairpeg "):
                self.assertIn(line, printed.splitlines())


if __name__ == "__main__":
    unittest.main()
