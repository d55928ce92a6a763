"""Numbers that C's types can't hold are refused in document 01's order, as the model of that order says."""

import math
import random
import unittest
from array import array
from collections import Counter
from fractions import Fraction

import model
from altairpeg import Checked, Night, Plan, Refusal, check, derive, fewest_passes, lists, price, read_card, replay, write_card
from support import CLOSED, OPEN, one_car, told

# Each is outside C's types or at their edges; those that are added wrap round to the number they are added to.
WILD = [-1, 0, 1, 2**15, 2**16 - 1, 2**16, 2**31, 2**32, 2**63, 2**64 - 1, 2**64, -(2**16), -(2**63), -(2**64), 10**30, 10**5000]
WRAPS = [2**8, 2**16, 2**32, 2**64, -(2**16), -(2**32), -(2**64), 2**16 * 12345]
SECONDS = [0, 0.0, -0.0, 1.5, 4096, 4096.0625, 0.1, -1, math.nan, math.inf, 10**400, Fraction(1, 16), Fraction(1, 16) + Fraction(1, 10**40)]
# Refusals of document 01 that come only after those of the model.
LATER = {5, 6, 8, 9}


class Drawn:
    """Random nights: most are right but for a few numbers."""

    def __init__(self, seed):
        self.random = random.Random(seed)

    def spoilt(self, number, chance=0.06):
        """A number, or now and then a wild one in its place."""
        if self.random.random() > chance:
            return number
        return self.random.choice([*WILD, *(number + wrap for wrap in WRAPS)])

    def list(self, items):
        """A list with now and then a wild number, an item too few or one too many, in one of the forms that lists have."""
        items = [self.spoilt(item) for item in items]
        if self.random.random() < 0.04:
            items = items[:-1]
        if self.random.random() < 0.04:
            items.append(1)
        if self.random.random() < 0.01:
            items = items * (model.BIGGER.cars // max(1, len(items)) + 1)
        forms = [list, tuple]
        for kind, bits in (("h", 15), ("q", 63)):
            if all(-(2**bits) <= item < 2**bits for item in items):
                forms += [lambda given, kind=kind: array(kind, given), lambda given, kind=kind: memoryview(array(kind, given))]
        return self.random.choice(forms)(items)

    def night(self):
        """A night of up to nine cars, open or closed."""
        lengths = [self.random.randint(1, 3) for _ in range(self.random.randint(1, 3))]
        inbound = self.random.sample(range(1, sum(lengths) + 1), sum(lengths))
        tracks, room = self.spoilt(self.random.randint(1, 16)), self.spoilt(self.random.randint(1, 9))
        return Night(self.list(lengths), self.list(inbound), tracks, room, self.random.choice([OPEN, "open", CLOSED, "closed"]))

    def plan(self):
        """A plan of such a night, with codes that may be wrong in every way."""
        night, steps = self.night(), self.random.choice([*range(17), 15, 16, 16])
        codes = [self.random.randrange(2**steps) for _ in night.inbound]
        return Plan(night, self.spoilt(steps), self.list(codes))


class Order(unittest.TestCase):
    def setUp(self):
        self.reached = Counter()

    def agrees(self, expected, call, *given):
        """A call refuses as the model says; where the model refuses nothing, the call may refuse what comes later."""
        try:
            call(*given)
            answer = None
        except Refusal as refusal:
            answer = told(refusal)
        if expected is None and answer is not None and answer[0] in LATER:
            answer = None
        self.assertEqual(answer, expected, (call.__name__, given))
        self.reached[expected and (expected[0], expected[1] if expected[0] in (1, 13) else expected[1] > 0)] += 1

    def all_reached(self, *expected):
        """The runs are worth nothing where an answer never came."""
        self.assertEqual(set(self.reached), {None, *expected}, self.reached)

    def test_derive(self):
        drawn = Drawn(1)
        for _ in range(8000):
            night, steps = drawn.night(), drawn.spoilt(drawn.random.randint(0, 16))
            self.agrees(model.derive(night, steps), derive, night, steps)
            self.agrees(model.fewest_passes(night, steps), fewest_passes, night, steps)
        self.all_reached((1, 1), (1, 2), (1, 3), (1, 4), (1, 5), (2, False), (2, True), (3, True))

    def test_plans(self):
        drawn = Drawn(2)
        for _ in range(5000):
            plan = drawn.plan()
            stage = drawn.spoilt(drawn.random.randint(0, 16))
            self.agrees(model.plan(*plan), check, plan)
            self.agrees(model.plan(*plan, stage), replay, plan, stage)
            self.agrees(model.card(*plan), write_card, plan)
        counts = ((1, 1), (1, 2), (1, 3), (1, 4), (1, 5), (1, 6))
        self.all_reached(*counts, (2, False), (2, True), (3, True), (4, True), (7, True), (14, True))

    def test_price(self):
        drawn = Drawn(3)
        for _ in range(4000):
            counts = [drawn.spoilt(drawn.random.randint(0, most), 0.2) for most in (16, 69632)]
            timings = [drawn.random.choice(SECONDS) for _ in range(2)]
            self.agrees(model.price(*counts, *timings), price, *counts, *timings)
        self.all_reached((1, 5), (1, 7), (13, 1), (13, 2))

    def test_a_code_of_sixteen_steps_and_its_stand_in(self):
        night = Night([3], [1, 2, 3], 1, 3, OPEN)
        calls = (check, write_card, lambda plan: replay(plan, 16))
        largest = Plan(night, 16, [65535] * 3)
        self.assertEqual(check(largest), Checked(passes=51, fullest_pull=3))
        self.assertEqual(read_card(write_card(largest)), largest)
        for wide in (65536, -1, 2**64, -(10**30)):
            for codes, expected in (([65535, wide, wide], (7, 2, 0)), ([wide] * 2, (4, 3, 0)), ([0, 2, wide], (7, 3, 0)), ([wide, 0, 0], (7, 1, 0))):
                for call in calls:
                    self.agrees(expected, call, Plan(night, 16, codes))
            for call in calls[:2]:
                self.agrees((7, 1, 0), call, Plan(night, 3, [9, wide, 0]))
                self.agrees((7, 1, 0), call, Plan(one_car(CLOSED), 16, [wide]))
                self.agrees((1, 3, 0), call, Plan(one_car(CLOSED)._replace(tracks=17), 16, [wide]))
        with self.assertRaises(Refusal) as caught:
            check(Plan(night, 16, [0, 65536, 0]))
        self.assertEqual(caught.exception.place, "codes[1] is 65536")

    def test_no_list_is_as_long_as_what_is_looked_at(self):
        self.assertGreater(lists.MOST, model.BIGGER.cars)


if __name__ == "__main__":
    unittest.main()
