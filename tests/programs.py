"""nightcard and nightplan at the system's edge, of which nothing is proved: what is read and what is written.

Expects target/bin/nightcard and target/bin/nightplan (`tools/build check nightcard nightplan`). Standard library only.
"""

import fcntl
import os
import resource
import signal
import subprocess
import tempfile
import time
import unittest
from pathlib import Path

BIN = Path(__file__).resolve().parent.parent / "target" / "bin"
PROGRAMS = ("nightcard", "nightplan")

# case 1 of document 01 with room 3: its card, and what each program puts out for it
CARD = bytes.fromhex("12200C06020300603002028040202D80")
LINES = b"steps 2 tracks 2 room 3 cars 6 trains 1 passes 11\ntrain 1: 1 2 3 4 5 6\n"
OUT = {"nightcard": LINES, "nightplan": CARD}
# the same night closed, with room for 4: its card of edition 2, whose mark nightcard does not print and nightplan keeps
CLOSED_CARD = bytes.fromhex("28C400400300400C003003000400A0020021293A")
CLOSED_LINES = b"steps 3 tracks 2 room 4 cars 6 trains 1 passes 14\ntrain 1: 1 2 3 4 5 6\n"
CLOSED_OUT = {"nightcard": CLOSED_LINES, "nightplan": CLOSED_CARD}
# bytes of the longest card
LONGEST = 15271


def packed(*fields):
    """The bytes of numbers, each given with its bits, one behind the other, filled up with zero bits."""
    bits = "".join(f"{number:0{size}b}" for number, size in fields)
    return int(bits.ljust(-(-len(bits) // 8) * 8, "0"), 2).to_bytes(-(-len(bits) // 8), "big")


def largest(steps):
    """The card of an open night of 4,096 cars in order, in 256 trains on 16 tracks, with so many steps that each pull every car."""
    head = [(2, 4), (0, 1), (steps, 5), (16, 5), (4096, 13), (4096, 13), (256, 9)]
    codes = [(2**steps - 1, steps)] * 4096 if steps else []
    return packed(*head, *[(16, 13)] * 256, *((car, 13) for car in range(1, 4097)), *codes)


def largest_lines():
    """What nightcard puts out for it with sixteen steps."""
    trains = [f"train {first // 16 + 1}: {' '.join(str(first + car) for car in range(1, 17))}\n" for first in range(0, 4096, 16)]
    return ("steps 16 tracks 16 room 4096 cars 4096 trains 256 passes 69632\n" + "".join(trains)).encode()


def run(program, **how):
    """One run, with what it wrote on standard output and on standard error."""
    how.setdefault("stdout", subprocess.PIPE)
    return subprocess.run([BIN / program], stderr=subprocess.PIPE, timeout=20, **how)


def pieces(program, parts, pause):
    """The output of a run whose input comes in parts, each after a pause."""
    started = subprocess.Popen([BIN / program], stdin=subprocess.PIPE, stdout=subprocess.PIPE, stderr=subprocess.PIPE)
    for part in parts:
        time.sleep(pause)
        started.stdin.write(part)
        started.stdin.flush()
    return started.communicate(timeout=20)


def unread(program):
    return f"{program}: standard input can't be read\n".encode()


def unwritten(program):
    return f"{program}: standard output can't be written\n".encode()


class Reading(unittest.TestCase):
    def each(self, cases):
        """Both programs on each case: the input, and what both must put out where it is not the program's own."""
        for program in PROGRAMS:
            for name, data, expected in cases:
                with self.subTest(program=program, input=name):
                    ran = run(program, input=data)
                    self.assertEqual(ran.stdout, OUT[program] if expected is None else expected)
                    self.assertEqual(ran.stderr, b"")

    def test_a_card(self):
        self.each([("case 1", CARD, None), ("nothing", b"", b"refused 10 1 0\n"), ("15 bytes", CARD[:15], b"refused 10 16 0\n")])

    def test_a_card_of_edition_2(self):
        wrong = bytes([CLOSED_CARD[0] & 0xF7]) + CLOSED_CARD[1:]
        self.each([("its counts cut off", CLOSED_CARD[:6], b"refused 10 7 0\n"), ("marked as open", wrong, b"refused 17 0 0\n")])
        for program in PROGRAMS:
            self.assertEqual(run(program, input=CLOSED_CARD).stdout, CLOSED_OUT[program])

    def test_the_longest_card(self):
        card = largest(16)
        parts = [card[i:i + 1000] for i in range(0, len(card), 1000)]
        self.assertEqual(len(card), LONGEST)
        for program, out in (("nightcard", largest_lines()), ("nightplan", largest(0))):
            self.assertEqual(run(program, input=card).stdout, out)
            self.assertEqual(pieces(program, parts, 0.01), (out, b""))
        self.each([("a byte less", card[:-1], b"refused 10 15271 0\n"), ("a byte more", card + b"\0", b"refused 12 15271 0\n")])

    def test_long_input(self):
        """More than a buffer gets the answer of the whole input, also where it ends at the buffer's end."""
        sizes = (4095, 4096, 4097, 5000, LONGEST - 1, LONGEST, LONGEST + 1, 16383, 16384, 16385, 100_000)
        self.each([(f"{n} bytes", CARD + bytes(n - len(CARD)), b"refused 12 16 0\n") for n in sizes])
        self.each([(f"{n} zeros", bytes(n), b"refused 11 0 0\n") for n in sizes])

    def test_input_in_pieces(self):
        for program in PROGRAMS:
            for size, pause in ((1, 0.01), (5, 0.05)):
                with self.subTest(program=program, size=size):
                    parts = [CARD[i:i + size] for i in range(0, len(CARD), size)]
                    self.assertEqual(pieces(program, parts, pause), (OUT[program], b""))

    def test_long_input_in_pieces(self):
        for program in PROGRAMS:
            with self.subTest(program=program):
                parts = [CARD] + [bytes(1000)] * 4
                self.assertEqual(pieces(program, parts, 0.02), (b"refused 12 16 0\n", b""))

    def unread(self, program, **how):
        """A read that fails is no refusal: nothing on standard output, a line on standard error."""
        ran = run(program, **how)
        self.assertEqual((ran.stdout, ran.stderr), (b"", unread(program)))

    def test_a_directory(self):
        for program in PROGRAMS:
            with self.subTest(program=program):
                folder = os.open("/", os.O_RDONLY)
                self.addCleanup(os.close, folder)
                self.unread(program, stdin=folder)

    def test_a_closed_descriptor(self):
        for program in PROGRAMS:
            with self.subTest(program=program):
                self.unread(program, preexec_fn=lambda: os.close(0))

    def test_a_pipe_that_does_not_wait(self):
        """Nothing in it yet, or a part of a card: the rest can't be read, whatever came before."""
        for program in PROGRAMS:
            for there in (b"", CARD[:7], CARD):
                with self.subTest(program=program, there=len(there)):
                    end, start = os.pipe()
                    self.addCleanup(os.close, end)
                    self.addCleanup(os.close, start)
                    os.write(start, there)
                    fcntl.fcntl(end, fcntl.F_SETFL, fcntl.fcntl(end, fcntl.F_GETFL) | os.O_NONBLOCK)
                    self.unread(program, stdin=end)


class Writing(unittest.TestCase):
    def unwritten(self, program, **how):
        ran = run(program, input=CARD, **how)
        self.assertEqual(ran.stderr, unwritten(program))

    def test_a_full_device(self):
        for program in PROGRAMS:
            with self.subTest(program=program), open("/dev/full", "wb") as full:
                self.unwritten(program, stdout=full)

    def test_a_closed_descriptor(self):
        for program in PROGRAMS:
            with self.subTest(program=program):
                self.unwritten(program, preexec_fn=lambda: os.close(1))

    def test_a_short_write(self):
        """A file that may have five bytes takes five, and then no more."""
        def limit():
            signal.signal(signal.SIGXFSZ, signal.SIG_IGN)
            resource.setrlimit(resource.RLIMIT_FSIZE, (5, 5))

        for program in PROGRAMS:
            with self.subTest(program=program), tempfile.TemporaryFile() as small:
                self.unwritten(program, stdout=small, preexec_fn=limit, restore_signals=False)
                small.seek(0)
                self.assertEqual(small.read(), OUT[program][:5])

    def closed_pipe(self, program, **how):
        end, start = os.pipe()
        os.close(end)
        with open(start, "wb") as pipe:
            return run(program, input=CARD, stdout=pipe, **how)

    def test_a_closed_pipe(self):
        """A line says so, whatever whoever starts the program does with the system's signal: the kit's start of a program ignores it."""
        for program in PROGRAMS:
            with self.subTest(program=program):
                for how in ({}, {"restore_signals": False, "preexec_fn": lambda: signal.signal(signal.SIGPIPE, signal.SIG_IGN)}):
                    ran = self.closed_pipe(program, **how)
                    self.assertEqual((ran.returncode, ran.stderr), (0, unwritten(program)))


if __name__ == "__main__":
    unittest.main()
