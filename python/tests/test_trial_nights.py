"""The trial nights of document 01, each under its number, closed and bigger nights, cards of both editions, the fewest passes, and the module's own promises."""

import doctest
import itertools
import math
import pickle
import random
import unittest

import altairpeg
from altairpeg import Checked, Derived, Night, Plan, Refusal, check, derive, fewest_passes, fewest_tracks, price, read_card, replay, write_card
from support import CARD, CLOSED, CLOSED_CARD, CLOSED_CODES, CODES, INBOUND, OPEN, Scratch, blocks, n, one_car, turned


class TrialNights(Scratch):
    def test_case_1(self):
        self.assertEqual(derive(n()), Derived(steps=2, passes=11, codes=[0, 0, 1, 1, 2, 3]))

    def test_cases_2_and_3(self):
        plan = Plan(n(), 2, [0, 0, 1, 1, 2, 3])
        first, second = replay(plan, 0), replay(plan, 1)
        self.assertEqual([first.cars_on(track) for track in range(3)], [[3, 6, 4], [5], [1, 2]])
        self.assertEqual([second.cars_on(track) for track in range(3)], [[], [5, 6], [1, 2, 3, 4]])
        self.refused(1, 6, 0, replay, plan, 3)

    def test_case_4(self):
        self.assertEqual(derive(n(tracks=1)), Derived(steps=3, passes=13, codes=[0, 0, 1, 1, 3, 7]))

    def test_case_5(self):
        self.refused(6, 0, 3, derive, n(room=2))
        self.assertEqual(derive(n(room=3)).steps, 2)

    def test_case_6(self):
        plan = Plan(n(), 2, [0, 0, 0, 1, 2, 3])
        self.assertEqual(replay(plan, 2).cars_on(2), [3, 1, 2, 4, 5, 6])
        self.refused(9, 3, 0, check, plan)

    def test_case_7(self):
        self.assertEqual(derive(one_car(OPEN)), Derived(steps=0, passes=1, codes=[0]))

    def test_case_8(self):
        self.assertEqual(derive(Night([1, 1], [2, 1], 2, 512, OPEN)).steps, 0)
        self.assertEqual(derive(Night([2], [2, 1], 2, 512, OPEN)).steps, 1)

    def test_case_9(self):
        derived = derive(turned(7, 2))
        self.assertEqual((derived.steps, derived.codes), (3, [0, 1, 2, 3, 5, 6, 7]))

    def test_case_10(self):
        self.assertEqual(derive(turned(8, 2)).steps, 4)
        self.assertEqual(derive(turned(8, 3)).steps, 3)

    def test_case_11(self):
        self.refused(8, 1, 0, check, Plan(one_car(OPEN), 3, [4]))

    def test_case_12(self):
        self.refused(3, 2, 1, derive, Night([2], [1, 1], 2, 512, OPEN))

    def test_case_13(self):
        self.refused(5, 3, 0, derive, n(tracks=1), 2)

    def test_case_14(self):
        self.refused(5, 9, 0, derive, turned(257, 8), 8)
        self.assertEqual(derive(turned(256, 8), 8).steps, 8)

    def test_check_of_case_1(self):
        self.assertEqual(check(Plan(n(), 2, [0, 0, 1, 1, 2, 3])), Checked(passes=11, fullest_pull=3))
        self.refused(4, 3, 0, check, Plan(n(), 2, [0]))

    def test_card_there_and_back(self):
        plan = read_card(CARD)
        self.assertEqual(plan, Plan(n(room=3), 2, [0, 0, 1, 1, 2, 3]))
        self.assertEqual(write_card(plan), CARD)
        self.refused(10, 1, 0, read_card, b"")
        self.refused(12, 16, 0, read_card, CARD + bytes(5000))

    def test_price(self):
        self.assertEqual(price(2, 11, 1.5, 0.25), 5.75)
        self.refused(13, 2, 0, price, 2, 11, 1.5, math.nan)
        self.assertEqual(price(16, 69632, 4096, 4096), 69648 * 4096)
        self.refused(1, 5, 0, price, 17, 69633, 0.1, 0.1)
        self.refused(1, 7, 0, price, 16, 69633, 0.1, 0.1)

    def test_fewest_tracks(self):
        self.assertEqual([fewest_tracks(code) for code in (0, 4, 5, 9, 129, 128)], [1, 3, 2, 3, 7, 8])
        self.assertEqual([fewest_tracks(2**bit) for bit in range(16)], list(range(1, 17)))
        self.assertEqual([fewest_tracks(2**bit | 1) for bit in range(1, 16)], list(range(1, 16)))

    def test_numbers_too_large_are_not_cut_off(self):
        self.assertRaises(ValueError, fewest_tracks, 2**16)
        self.refused(2, 0, 0, derive, Night([6 + 2**16], INBOUND, 2, 3, OPEN))
        self.refused(1, 3, 0, derive, n(tracks=2 + 2**64))

    def test_refusal_in_words(self):
        refusal = Refusal(6, 0, 3)
        self.assertEqual(str(refusal), "refused 6 0 3: a track overfilled (step 0, 3 cars)")
        self.assertEqual(str(pickle.loads(pickle.dumps(refusal))), str(refusal))

    def test_examples_of_the_module(self):
        self.assertEqual(doctest.testmod(altairpeg), (0, 9))


def breaks(night):
    """How many breaks stand before each car in its train, in car order."""
    place, counted, car = {car: at for at, car in enumerate(night.inbound)}, [], 0
    for length in night.lengths:
        counted.append(0)
        for car in range(car + 2, car + length + 1):
            counted.append(counted[-1] + (place[car] < place[car - 1]))
        car = len(counted)
    return counted


class ClosedNights(Scratch):
    """Where the destinations are barred until the first pull."""

    def test_night_n(self):
        derived = derive(n(mark=CLOSED))
        self.assertEqual(derived, Derived(steps=3, passes=14, codes=CLOSED_CODES))
        self.assertEqual(check(derived.plan), Checked(passes=14, fullest_pull=4))
        self.refused(6, 0, 4, derive, n(room=3, mark=CLOSED))
        self.refused(5, 3, 0, derive, n(mark=CLOSED), 2)

    def test_stages_of_night_n(self):
        plan = Plan(n(mark=CLOSED), 3, CLOSED_CODES)
        first, last = replay(plan, 0), replay(plan, 3)
        self.assertEqual([first.cars_on(track) for track in range(3)], [[6, 1, 5, 2], [3, 4], []])
        self.assertEqual((last.passes, last.cars_on(2)), (14, [1, 2, 3, 4, 5, 6]))

    def test_one_car(self):
        self.assertEqual(derive(one_car(CLOSED)), Derived(steps=1, passes=2, codes=[1]))
        self.refused(5, 1, 0, derive, one_car(CLOSED), 0)
        self.assertEqual(derive(one_car(OPEN), 0), Derived(steps=0, passes=1, codes=[0]))

    def test_one_break_less(self):
        self.assertEqual([derive(turned(7, 2, mark)).steps for mark in (OPEN, CLOSED)], [3, 4])
        self.assertEqual(derive(turned(6, 2, CLOSED)).codes, [1, 2, 3, 5, 6, 7])
        self.assertEqual(derive(turned(255, 8, CLOSED)).steps, 8)
        self.refused(5, 9, 0, derive, turned(256, 8, CLOSED), 8)

    def test_the_same_codes_open_and_closed(self):
        for call in (check, lambda plan: replay(plan, 1)):
            self.assertEqual(call(Plan(n(), 2, CODES)).passes, {check: 11}.get(call, 9))
            self.assertEqual(self.refused(14, 1, 0, call, Plan(n(mark=CLOSED), 2, CODES)).place, "codes[0] is 0")
            self.assertEqual(self.refused(14, 5, 0, call, Plan(n(mark="closed"), 3, [1, 1, 2, 2, 0, 0])).place, "codes[4] is 0")
            self.assertEqual(*(call(Plan(n(mark=mark), 3, CLOSED_CODES)) for mark in (OPEN, CLOSED)))

    def test_7_then_14_then_8(self):
        night = Night([2], [1, 2], 2, 512, CLOSED)
        for call in (check, lambda plan: replay(plan, 0)):
            self.refused(7, 2, 0, call, Plan(night, 3, [0, 8]))
            self.refused(14, 2, 0, call, Plan(night, 3, [4, 0]))
            self.refused(8, 1, 0, call, Plan(night, 3, [4, 1]))
            self.refused(8, 1, 0, call, Plan(night._replace(mark=OPEN), 3, [4, 0]))

    def test_14_in_words(self):
        refusal = self.refused(14, 1, 0, check, Plan(one_car(CLOSED), 0, [0]))
        self.assertEqual(str(refusal), "refused 14 1 0: a zero code in a closed night (car 1): codes[0] is 0")
        self.assertEqual(refusal.name, "ZERO_CODE")

    def test_the_code_numbers(self):
        chance, needed = random.Random(7), [fewest_tracks(code) for code in range(2**16)]
        for _ in range(300):
            cars, tracks = chance.randint(2, 24), chance.randint(1, 16)
            first = chance.randint(1, cars - 1)
            night = Night([first, cars - first], chance.sample(range(1, cars + 1), cars), tracks, 512, OPEN)
            usable = [code for code, fewest in enumerate(needed) if fewest <= tracks]
            for mark, skipped in ((OPEN, 0), (CLOSED, 1)):
                if max(breaks(night)) + skipped >= len(usable):
                    continue  # more breaks than sixteen steps can mend
                derived = derive(night._replace(mark=mark))
                self.assertEqual(derived.codes, [usable[count + skipped] for count in breaks(night)])
                self.assertEqual(derived.steps, max(derived.codes).bit_length())
                self.assertEqual(check(derived.plan).passes, derived.passes)


class BiggerNights(Scratch):
    """Beyond document 01's limits."""

    def test_nine_steps(self):
        derived = derive(turned(257, 9))
        self.assertEqual(derived, Derived(steps=9, passes=257 + 8 * 128 + 1, codes=list(range(257))))
        self.assertEqual(check(derived.plan), Checked(passes=1282, fullest_pull=128))
        self.assertEqual(replay(derived.plan, 9).cars_on(9), list(range(1, 258)))
        self.refused(5, 9, 0, derive, turned(257, 9), 8)
        # On eight tracks 256 is no code: a car with it would stand on track 0 when step 0 pulls that.
        self.assertEqual(derive(turned(257, 8)).codes, [*range(256), 257])

    def test_4096_cars(self):
        derived = derive(turned(4096, 16, room=4096))
        self.assertEqual(derived, Derived(steps=12, passes=7 * 4096, codes=list(range(4096))))
        self.assertEqual(check(derived.plan), Checked(passes=7 * 4096, fullest_pull=2048))
        self.assertEqual(derive(turned(4096, 16, CLOSED, 4096)).steps, 13)
        self.refused(5, 4095, 0, derive, turned(4096, 1, room=4096))
        self.refused(1, 1, 0, derive, turned(4097, 16, room=4096))
        self.refused(1, 4, 0, derive, turned(4096, 16, room=4097))
        self.refused(1, 3, 0, derive, turned(4096, 17, room=4096))
        self.refused(1, 2, 0, derive, Night([1] * 257, range(1, 258), 16, 512, OPEN))

    def test_sixteen_steps_on_one_track(self):
        derived = derive(turned(17, 1))
        self.assertEqual(derived, Derived(steps=16, passes=17 * 18 // 2, codes=[2**q - 1 for q in range(17)]))
        self.assertEqual(check(derived.plan).passes, derived.passes)
        self.refused(5, 17, 0, derive, turned(17, 1, CLOSED))


class Editions(Scratch):
    """An open plan within document 01's limits goes on a card of edition 1, every other on one of edition 2."""

    def test_a_closed_card_there_and_back(self):
        plan = Plan(n(room=4, mark=CLOSED), 3, CLOSED_CODES)
        self.assertEqual(write_card(plan), CLOSED_CARD)
        self.assertEqual(read_card(CLOSED_CARD), plan)
        for length in range(1, 7):
            self.refused(10, 7, 0, read_card, CLOSED_CARD[:length])
        self.refused(10, 20, 0, read_card, CLOSED_CARD[:19])
        self.refused(12, 20, 0, read_card, CLOSED_CARD + b"\0")

    def test_each_limit(self):
        night = Night([8] * 64, range(1, 513), 8, 512, OPEN)
        codes = [255] * 512
        others = (
            Plan(night._replace(mark=CLOSED), 8, codes), Plan(night, 9, codes), Plan(night._replace(tracks=9), 8, codes),
            Plan(night._replace(room=513), 8, codes), Plan(Night([513], range(1, 514), 8, 512, OPEN), 8, [255] * 513),
            Plan(Night([1] * 65, range(1, 66), 8, 512, OPEN), 8, [255] * 65),
        )
        for plan, edition in ((Plan(night, 8, codes), 1), *((other, 2) for other in others)):
            card = write_card(plan)
            self.assertEqual(card[0] >> 4, edition)
            self.assertEqual(read_card(card)._replace(night=plan.night), plan)
            self.assertEqual(write_card(read_card(card)), card)

    def test_other_editions(self):
        for edition in (0, *range(3, 16)):
            self.refused(11, edition, 0, read_card, bytes([edition << 4]) * 20)

    def test_17(self):
        opened = bytes([CLOSED_CARD[0] & ~0x08]) + CLOSED_CARD[1:]
        refusal = self.refused(17, 0, 0, read_card, opened)
        self.assertEqual(str(refusal), "refused 17 0 0: wrong edition for this plan (the plan belongs on a card of edition 1)")
        self.assertEqual(refusal.name, "WRONG_EDITION")
        self.refused(12, 20, 0, read_card, opened[:-1] + bytes([opened[-1] | 1]))


def builds(plan):
    """Whether check accepts a plan."""
    try:
        return bool(check(plan))
    except Refusal:
        return False


def fewest_of_all(night, steps):
    """The codes with the fewest set bits of all that check accepts, the first in the order of lists, or None where there are none."""
    every = itertools.product(range(2**steps), repeat=len(night.inbound))
    good = (codes for codes in every if builds(Plan(night, steps, codes)))
    return min(good, key=lambda codes: sum(map(int.bit_count, codes)), default=None)


class FewestPasses(Scratch):
    """tests/header.c works the two nights out by hand."""

    def test_night_n(self):
        for steps in range(2, 9):
            self.assertEqual(fewest_passes(n(), steps), Derived(steps, 11, CODES))
        for steps in range(3, 9):
            self.assertEqual(fewest_passes(n(mark=CLOSED), steps), Derived(steps, 14, CLOSED_CODES))

    def test_blocks_of_different_weight(self):
        self.assertEqual(derive(blocks()).passes, 13)
        self.assertEqual(fewest_passes(blocks(), 3), Derived(3, 12, [0, 1, 2, 4, 4, 5]))
        for steps in range(4, 9):
            self.assertEqual(fewest_passes(blocks(), steps), Derived(steps, 11, [0, 1, 2, 4, 4, 8]))
        self.assertEqual(fewest_passes(blocks(mark=CLOSED), 3), Derived(3, 14, [1, 2, 3, 4, 4, 5]))

    def test_of_equals_the_smallest_list(self):
        self.assertEqual(fewest_passes(turned(5, 4), 3).codes, [0, 1, 2, 3, 4], "0 1 2 4 5 has as few passes")
        self.assertEqual(fewest_passes(blocks(mark=CLOSED), 4), Derived(4, 13, [1, 2, 3, 4, 4, 8]), "1 2 4 8 8 9 has as few passes")

    def test_no_codes(self):
        for steps in range(3):
            self.refused(5, 3, 0, fewest_passes, blocks(), steps)
        self.refused(5, 1, 0, fewest_passes, one_car(CLOSED), 0)
        self.refused(5, 9, 0, fewest_passes, turned(257, 8), 8)

    def test_room(self):
        self.refused(6, 2, 3, fewest_passes, blocks(room=2), 3)
        self.assertEqual(fewest_passes(blocks(room=2), 4).passes, 11)

    def test_no_steps(self):
        self.assertEqual(fewest_passes(one_car(OPEN), 0), Derived(0, 1, [0]))
        self.assertEqual(fewest_passes(one_car(CLOSED), 8), Derived(8, 2, [1]))

    def test_beside_all_lists_of_codes(self):
        chance, found = random.Random(104), 0
        for _ in range(60):
            cars, steps, tracks = chance.randint(1, 4), chance.randint(0, 3), chance.randint(1, 3)
            first = chance.randint(1, cars)
            lengths = [first, cars - first] if first < cars else [cars]
            night = Night(lengths, chance.sample(range(1, cars + 1), cars), tracks, 512, chance.choice([OPEN, CLOSED]))
            wanted = fewest_of_all(night, steps)
            if wanted is None:
                self.refused(5, derive(night).steps, 0, fewest_passes, night, steps)
            else:
                self.assertEqual(fewest_passes(night, steps), Derived(steps, cars + sum(map(int.bit_count, wanted)), list(wanted)))
            found += wanted is not None
        self.assertTrue(10 < found < 50, found)


if __name__ == "__main__":
    unittest.main()
