"""What is given in Python's many forms: taken where it is a list of whole numbers, told where it is not."""

import ctypes
import inspect
import json
import math
import pickle
import unittest
from array import array
from collections import deque
from decimal import Decimal
from fractions import Fraction
from types import SimpleNamespace
from unittest import mock

import altairpeg
from altairpeg import AltairpegError, Derived, FileError, InputError, LibraryError, Mark, Night, Plan, Refusal
from altairpeg import check, derive, fewest_passes, fewest_tracks, price, read_card, read_card_file, replay, write_card
from altairpeg.library import CardAnswer
from support import CARD, CLOSED, CLOSED_CARD, CLOSED_CODES, CODES, INBOUND, OPEN, SHORT, Scratch, n, skipped

try:
    import numpy
except ImportError:
    numpy = None

DERIVED = Derived(steps=2, passes=11, codes=CODES)


def spread(items):
    """A view of every other item of an array."""
    return memoryview(array("H", [number for item in items for number in (item, 0)]))[::2]


def released():
    """A view that may no longer be looked at."""
    view = memoryview(b"\1\2")
    view.release()
    return view


class Unshown:
    """What can't even be shown."""

    def __repr__(self):
        raise RuntimeError


FORMS = {
    "list": INBOUND,
    "tuple": tuple(INBOUND),
    "deque": deque(INBOUND),
    "array of C's type": array("H", INBOUND),
    "array of a wider type": array("q", INBOUND),
    "bytes": bytes(INBOUND),
    "bytearray": bytearray(INBOUND),
    "view": memoryview(array("H", INBOUND)),
    "view of a wider type": memoryview(array("i", INBOUND)),
    "view with gaps": spread(INBOUND),
    "view turned round": memoryview(array("H", INBOUND[::-1]))[::-1],
    "ctypes array": (ctypes.c_uint16 * 6)(*INBOUND),
}

NOT_LISTS = {
    "None": None,
    "number": 5,
    "generator": (car for car in INBOUND),
    "iterator": iter(INBOUND),
    "set": set(INBOUND),
    "mapping": dict.fromkeys(INBOUND),
    "type": list,
    "view without items": memoryview(b"\1").cast("B", []),
    "view of rows": memoryview(bytes(6)).cast("B", [2, 3]),
    "released view": released(),
    "what can't be shown": Unshown(),
}

NOT_WHOLE = [None, 3.0, math.nan, "3", b"3", [3], Decimal(3), Fraction(3), 3j, Unshown()]


class Lists(Scratch):
    def test_every_form(self):
        for form, inbound in FORMS.items():
            night = Night([6], inbound, 2, 3, OPEN)
            with self.subTest(form):
                self.assertEqual((derive(night), fewest_passes(night, 2)), (DERIVED, DERIVED))

    def test_codes_and_lengths_in_every_form(self):
        for codes in (tuple(CODES), bytes(CODES), array("H", CODES), spread(CODES), memoryview(array("l", CODES))):
            self.assertEqual(check(Plan(Night(range(6, 7), INBOUND, 2, 3, OPEN), 2, codes)), (11, 3))

    def test_what_is_no_list(self):
        for form, given in NOT_LISTS.items():
            for name, call in self.calls(given).items():
                with self.subTest(form, list=name), self.assertRaisesRegex(InputError, rf"^{name} is .*, not a list of whole numbers$"):
                    call()

    def test_what_is_no_whole_number(self):
        for item in NOT_WHOLE:
            for name, call in self.calls([1, 2, item]).items():
                message = rf"^{name}\[2\] is .*, not a whole number$"
                with self.subTest(type(item).__name__, list=name), self.assertRaisesRegex(InputError, message):
                    call()

    def calls(self, given):
        """Calls with what is given in the place of each list."""
        return {
            "lengths": lambda: derive(Night(given, INBOUND, 2, 3, OPEN)),
            "inbound": lambda: derive(Night([6], given, 2, 3, OPEN)),
            "codes": lambda: check(Plan(n(), 2, given)),
        }

    def test_the_message_names_the_place(self):
        refusal = self.refused(3, 4, 0, derive, Night([6], [3, 6, 1, -1, 2, 4], 2, 3, OPEN))
        self.assertEqual(str(refusal), "refused 3 4 0: inbound list not each car once (place 4, out of range): inbound[3] is -1")
        refusal = self.refused(3, 5, 2, derive, Night([6], [3, 6, 1, 5, 6, 4], 2, 3, OPEN))
        self.assertEqual(refusal.place, "inbound[1] and inbound[4] are both 6")
        # Numbers too large for C are one stand-in there, and still out of range, not met before.
        self.refused(3, 2, 0, derive, Night([3], [1, 70000, 70001], 2, 3, OPEN))
        refusal = self.refused(3, 1, 0, derive, Night([6], [10**5000, 6, 1, 5, 2, 4], 2, 3, OPEN))
        self.assertEqual(refusal.place, "inbound[0] is a number of 16610 bits")
        self.assertEqual(self.refused(2, 2, 0, derive, Night([7, -1], INBOUND, 2, 3, OPEN)).place, "lengths[1] is -1")
        self.assertEqual(self.refused(2, 0, 0, derive, Night([7], INBOUND, 2, 3, OPEN)).place, "sum(lengths) is 7, len(inbound) is 6")
        self.assertEqual(self.refused(7, 6, 0, check, Plan(n(), 2, [0, 0, 1, 1, 2, 4])).place, "codes[5] is 4")
        self.assertEqual(self.refused(4, 3, 0, check, Plan(n(), 2, [0])).place, "len(codes) is 1")
        self.assertEqual(self.refused(1, 5, 0, derive, n(), -1).place, "limit is -1")
        self.assertEqual(self.refused(1, 5, 0, derive, n(), 17).place, "limit is 17")
        found = "the fewest passes are found for at most"
        self.assertEqual(self.refused(1, 5, 0, fewest_passes, n(), 9).place, f"steps is 9; {found} 8")
        self.assertEqual(self.refused(1, 1, 0, fewest_passes, Night([513], range(1, 514), 2, 3, OPEN), 2).place, f"len(inbound) is 513; {found} 512")
        self.assertEqual(self.refused(1, 2, 0, fewest_passes, Night([1] * 65, range(1, 66), 2, 3, OPEN), 2).place, f"len(lengths) is 65; {found} 64")
        self.assertEqual(self.refused(1, 3, 0, fewest_passes, n(tracks=9), 2).place, f"tracks is 9; {found} 8")
        self.assertEqual(self.refused(1, 4, 0, fewest_passes, n(room=513), 2).place, f"room is 513; {found} 512")
        self.assertEqual(self.refused(1, 1, 0, fewest_passes, Night([6], range(10**30), 2, 3, OPEN), 2).place, f"{found} 512")
        self.assertEqual(self.refused(1, 6, 0, replay, Plan(n(), 2, CODES), 2**64).place, "stage is 18446744073709551616")
        self.assertEqual(self.refused(13, 1, 0, price, 2, 11, 0.1, 0.25).place, "pull is 0.1")
        self.assertIsNone(self.refused(6, 0, 3, derive, n(room=2)).place)

    def test_long_lists(self):
        for inbound in ([], [1] * 70000, [-1] * 70000, range(10**12), range(10**30), array("H", bytes(140000)), bytes(70000)):
            self.refused(1, 1, 0, derive, Night([6], inbound, 2, 3, OPEN))
        self.refused(1, 2, 0, derive, Night([1] * 70000, INBOUND, 2, 3, OPEN))
        self.refused(4, 3, 0, check, Plan(n(), 2, range(10**30)))

    def test_true_is_one(self):
        self.assertEqual(derive(Night([True], [True], True, True, OPEN)), (0, 1, [0]))

    def test_lists_are_not_changed(self):
        given = array("H", INBOUND)
        derive(Night([6], given, 2, 3, OPEN))
        self.assertEqual(given, array("H", INBOUND))


class Counts(Scratch):
    def test_what_is_no_whole_number(self):
        for given in NOT_WHOLE:
            calls = {
                "tracks": lambda: derive(n(tracks=given)),
                "room": lambda: derive(n(room=given)),
                "limit": lambda: derive(n(), given),
                "steps": lambda: check(Plan(n(), given, CODES)),
                "stage": lambda: replay(Plan(n(), 2, CODES), given),
                "passes": lambda: price(2, given, 1.5, 0.25),
                "code": lambda: fewest_tracks(given),
            }
            for name, call in calls.items():
                message = rf"^{name} is .*, not a whole number$"
                with self.subTest(type(given).__name__, count=name), self.assertRaisesRegex(InputError, message):
                    call()

    def test_steps_have_no_default(self):
        self.assertRaises(TypeError, fewest_passes, n())
        for given in NOT_WHOLE:
            self.assertRaisesRegex(InputError, "^steps is .*, not a whole number$", fewest_passes, n(), given)

    def test_a_code_has_sixteen_bits(self):
        self.assertEqual([fewest_tracks(code) for code in (255, 256, 2**15, 2**16 - 1)], [1, 9, 16, 1])
        for code in (-1, 2**16, 2**64):
            self.assertRaisesRegex(InputError, "^code is -?[0-9]+, not 0 to 65535$", fewest_tracks, code)

    def test_seconds(self):
        self.assertEqual(price(2, 11, Decimal("1.5"), Fraction(1, 4)), 5.75)
        self.assertEqual(price(2, 11, 1, True), 13)
        for given in (None, "1.5", 1j, [1.5]):
            self.assertRaisesRegex(InputError, "^push is .*, not a number of seconds$", price, 2, 11, 1.5, given)
        self.refused(13, 2, 0, price, 2, 11, 1.5, Decimal("sNaN"))

    def test_no_night_and_no_plan(self):
        for given in (None, [6], ([6], INBOUND, 2, 3)):
            self.assertRaisesRegex(InputError, "^night is .*, not a Night$", derive, given)
            self.assertRaisesRegex(InputError, "^night is .*, not a Night$", fewest_passes, given, 2)
            self.assertRaisesRegex(InputError, "^night is .*, not a Night$", check, Plan(given, 2, CODES))
            for call in (check, write_card, lambda plan: replay(plan, 0)):
                self.assertRaisesRegex(InputError, "^plan is .*, not a Plan$", call, given)


class Marks(Scratch):
    def test_a_mark_or_its_word(self):
        for mark, word, codes in ((Mark.OPEN, "open", CODES), (Mark.CLOSED, "closed", CLOSED_CODES)):
            for given in (mark, word):
                self.assertEqual(derive(n(mark=given)).codes, codes)
            self.assertEqual((mark, Mark(word), json.dumps(mark), f"{mark}"), (word, mark, f'"{word}"', word))
        self.assertEqual(len(Mark), 2)

    def test_no_mark_is_taken_for_granted(self):
        self.assertRaises(TypeError, Night, [6], INBOUND, 2, 3)
        self.assertEqual(Night._field_defaults, {})

    def test_what_is_no_mark(self):
        message = r"^mark is .*, not 'open' or 'closed'$"
        for given in (True, False, 0, 1, None, "shut", "Open", "CLOSED", "", b"open", [], ["open"], {}, Mark, Unshown()):
            plan = Plan(n(mark=given), 2, CODES)
            with self.subTest(type(given).__name__):
                self.assertRaisesRegex(InputError, message, derive, plan.night)
                self.assertRaisesRegex(InputError, message, fewest_passes, plan.night, 2)
                self.assertRaisesRegex(InputError, message, replay, plan, 0)
                for call in (check, write_card):
                    self.assertRaisesRegex(InputError, message, call, plan)

    def test_the_reader_tells_the_mark(self):
        self.assertIs(read_card(CARD).night.mark, Mark.OPEN)
        self.assertIs(read_card(CLOSED_CARD).night.mark, Mark.CLOSED)
        for number, mark in ((0, OPEN), (1, CLOSED), (7, CLOSED)):
            told = CardAnswer(mark=number, tracks=1, room=1, cars=1, trains=1)
            with mock.patch("altairpeg.calls.library", lambda: SimpleNamespace(altairpeg_read=lambda *_: told)):
                self.assertIs(read_card(b"").night.mark, mark)

    def test_a_card_keeps_the_mark(self):
        for mark in (OPEN, CLOSED):
            for steps, codes in ((3, CLOSED_CODES), (2, CODES), (16, [65535] * 6)):
                plan = Plan(n(mark=mark), steps, codes)
                self.assertEqual(read_card(write_card(plan)), plan)
            self.refused(1, 5, 0, write_card, Plan(n(mark=mark), 17, CODES))
            self.refused(7, 1, 0, write_card, Plan(n(mark=mark), 2, [4] * 6))
            self.refused(4, 3, 0, write_card, Plan(n(mark=mark), 2, []))


class Cards(Scratch):
    def test_bytes_like(self):
        doubled = bytes(byte for pair in zip(CARD, CARD) for byte in pair)
        for card in (CARD, bytearray(CARD), memoryview(CARD), array("B", CARD), memoryview(doubled)[::2]):
            self.assertEqual(read_card(card), Plan(n(room=3), 2, CODES))

    def test_not_bytes(self):
        for card in (None, 5, "card", list(CARD), iter(CARD), released(), array("H", [1]), memoryview(bytes(6)).cast("B", [2, 3])):
            self.assertRaisesRegex(InputError, "^card is .*, not (a row of )?bytes$", read_card, card)

    def test_files(self):
        self.assertEqual(read_card_file(self.file("a.card", CARD)), read_card(CARD))
        self.assertEqual(read_card_file(str(self.folder / "a.card")), read_card(CARD))
        self.refused(10, 16, 0, read_card_file, self.file("short.card", SHORT))
        self.refused(12, 16, 0, read_card_file, self.file("long.card", CARD + bytes(10**6)))

    def test_the_longest_card(self):
        first = write_card(Plan(Night([8] * 64, range(1, 513), 8, 512, OPEN), 8, [255] * 512))
        bigger = write_card(Plan(Night([16] * 256, range(1, 4097), 16, 4096, OPEN), 16, [65535] * 4096))
        for card, edition, length in ((first, 1, 1237), (bigger, 2, 15271)):
            self.assertEqual((card[0] >> 4, len(card)), (edition, length))
            self.assertEqual(read_card_file(self.file("longest.card", card)), read_card(card))
            self.refused(12, length, 0, read_card_file, self.file("longer.card", card + b"\0"))
            self.refused(10, length, 0, read_card_file, self.file("shorter.card", card[:-1]))

    def test_files_that_cannot_be_read(self):
        for path in (self.folder, self.folder / "missing.card"):
            with self.assertRaises(FileError) as caught:
                read_card_file(path)
            self.assertIn(str(path), str(caught.exception))
        for path in (None, 0, 1.5, [], "a\0b"):
            self.assertRaisesRegex(InputError, "^path is .*, not the name of a file$", read_card_file, path)


class Answers(Scratch):
    def test_derived_gives_its_plan(self):
        for derived in (derive(n()), fewest_passes(n(), 2)):
            self.assertEqual(derived.plan, Plan(n(), 2, CODES))
            self.assertEqual(check(derived.plan).passes, derived.passes)
            self.assertEqual(pickle.loads(pickle.dumps(derived)).plan, derived.plan)
        steps, passes, codes = derived
        self.assertRaises(InputError, lambda: Derived(steps, passes, codes).plan)

    def test_one_base_class(self):
        self.assertTrue(issubclass(InputError, ValueError) and issubclass(FileError, OSError))
        for error in (Refusal, InputError, FileError, LibraryError):
            self.assertTrue(issubclass(error, AltairpegError))

    def test_refusals_in_words(self):
        refusal = self.refused(3, 2, 1, derive, Night([2], [1, 1], 2, 512, OPEN))
        self.assertEqual((refusal.name, refusal.words), ("INBOUND_WRONG", "inbound list not each car once"))
        self.assertEqual(refusal.details, "place 2, met before, first listed at place 1")
        again = pickle.loads(pickle.dumps(refusal))
        self.assertEqual((str(again), again.place), (str(refusal), "inbound[0] and inbound[1] are both 1"))

    def test_a_number_that_the_paper_does_not_have(self):
        self.assertEqual(str(Refusal(99, 1, 2)), "refused 99 1 2: a number the paper does not have (A 1, B 2)")
        self.assertEqual(str(Refusal(1, 8, 0)), "refused 1 8 0: a count out of its range (A 8, B 0)")

    def test_types_are_written_on_every_call(self):
        for name in altairpeg.__all__:
            call = getattr(altairpeg, name)
            if inspect.isfunction(call):
                signature = inspect.signature(call)
                kinds = [signature.return_annotation, *(given.annotation for given in signature.parameters.values())]
                self.assertNotIn(inspect.Signature.empty, kinds, name)


@skipped(numpy is None, "tests of numpy arrays, since numpy is not installed")
class Numpy(Scratch):
    def test_arrays(self):
        for kind in ("u1", "u2", "i2", "i4", "i8", "u8", ">u2", ">i8", "O"):
            with self.subTest(kind):
                lengths, inbound = numpy.array([6], kind), numpy.array(INBOUND, kind)
                self.assertEqual(derive(Night(lengths, inbound, numpy.int64(2), numpy.uint8(3), OPEN)), DERIVED)
        gaps = numpy.array([number for car in INBOUND for number in (car, 0)])[::2]
        self.assertEqual(derive(Night([6], gaps, 2, 3, OPEN)), DERIVED)
        self.assertEqual(derive(Night([6], [numpy.int64(car) for car in INBOUND], 2, 3, OPEN)), DERIVED)
        self.assertEqual(read_card(numpy.frombuffer(CARD, numpy.uint8)), read_card(CARD))
        self.assertEqual(price(numpy.int64(2), numpy.uint16(11), numpy.float32(1.5), numpy.float64(0.25)), 5.75)

    def test_refused(self):
        self.assertEqual(self.refused(3, 3, 0, derive, Night([6], numpy.array([3, 6, -1, 5, 2, 4]), 2, 3, OPEN)).place, "inbound[2] is -1")
        self.refused(3, 1, 0, derive, Night([6], numpy.array(INBOUND, "u8") + numpy.uint64(2**63), 2, 3, OPEN))
        self.refused(1, 1, 0, derive, Night([6], numpy.array([], "i8"), 2, 3, OPEN))

    def test_told(self):
        rows = numpy.array([INBOUND])
        for inbound in (numpy.array(INBOUND, "f8"), rows, rows.T, numpy.array(3), numpy.int64(3), numpy.array(INBOUND, "M8[s]")):
            self.assertRaisesRegex(InputError, "^inbound", derive, Night([6], inbound, 2, 3, OPEN))
        self.assertRaisesRegex(InputError, "^card is .*, not a row of bytes$", read_card, numpy.zeros(5, "i8"))


if __name__ == "__main__":
    unittest.main()
