"""The replay in plain steps beside the library's, on nights and codes at random."""

import random
import unittest

from altairpeg import Night, Plan, Refusal, check
from altairpeg.story import Cut, barrier, plain_yards, tell

from drawings import BARRED, EARLY, OUT_OF_ORDER, OVERFILLED, SHUT
from support import CLOSED, OPEN

PLANS = 3000


def lengths_of(chance, cars):
    """The lengths of some trains with so many cars."""
    ends = sorted(chance.sample(range(1, cars), min(chance.randrange(4), cars - 1))) + [cars]
    return [end - start for start, end in zip([0] + ends, ends)]


def some_plan(chance):
    """A plan of any night; many of them pull early, overfill a track, leave a train out of order or roll to a barred one."""
    cars, tracks, steps = chance.randint(1, 12), chance.randint(1, 4), chance.randint(0, 5)
    inbound = chance.sample(range(1, cars + 1), cars)
    codes = [chance.randrange(2**steps) for _ in inbound]
    if chance.random() < 0.5:
        codes = [code & (2**tracks - 1) for code in codes]
    if chance.random() < 0.5:
        codes = [code or 1 % 2**steps for code in codes]
    return Plan(Night(lengths_of(chance, cars), inbound, tracks, chance.randint(1, 8), chance.choice([OPEN, CLOSED])), steps, codes)


def first_fault(plan):
    """What check should refuse a plan for by its plain replay: a barred track first, an early pull, and then an overfilled track."""
    if plan.night.mark == CLOSED and 0 in plan.codes:
        return 14, plan.codes.index(0) + 1, 0
    yards = list(plain_yards(plan))
    pulls = [(step, yards[step].tracks[step % plan.night.tracks]) for step in range(min(len(yards), plan.steps))]
    for step, cars in pulls:
        early = [car for car in cars if not plan.codes[car - 1] >> step & 1]
        if early:
            return 8, min(early), step
    for step, cars in pulls:
        if len(cars) > plan.night.room:
            return 6, step, len(cars)
    return None


def said(plan):
    """What the library refuses a plan for, if not for its order alone."""
    try:
        check(plan)
    except Refusal as refusal:
        return None if refusal.number == 9 else (refusal.number, refusal.a, refusal.b)
    return None


class Stories(unittest.TestCase):
    def test_plain_steps_and_the_library_agree(self):
        chance, met = random.Random(20), {}
        for _ in range(PLANS):
            plan = some_plan(chance)
            fault = first_fault(plan)
            self.assertEqual(fault, said(plan), plan)
            story = tell(plan)
            self.assertEqual(story.yards, list(plain_yards(plan))[: len(story.yards)], plan)
            number = story.refusal.number if story.refusal else 0
            met[number] = met.get(number, 0) + 1
        self.assertEqual(sorted(met), [0, 6, 8, 9, 14])
        self.assertGreater(min(met.values()), 50, met)

    def test_the_story_ends_where_the_plan_fails(self):
        chance = random.Random(21)
        for _ in range(PLANS):
            story = tell(some_plan(chance))
            number = story.refusal.number if story.refusal else 0
            if number == 14:
                self.assertEqual((story.yards, list(story.pulls)), ([], []))
                continue
            last = {6: lambda: story.refusal.a, 8: lambda: story.refusal.b}.get(number, lambda: story.plan.steps)()
            self.assertEqual(len(story.yards), last + 1)
            self.assertEqual(list(story.pulls), list(range(last + 1 if number in (6, 8) else last)))

    def test_what_is_wrong_is_marked(self):
        self.assertEqual(tell(OVERFILLED).wrong(0), [4])
        self.assertEqual(tell(EARLY).wrong(0), [4])
        self.assertEqual(tell(OUT_OF_ORDER).out_of_order(), [3])
        self.assertEqual([tell(plan).stopped() for plan in (BARRED, SHUT, EARLY)], [[2], [], []])

    def test_where_the_first_roll_in_fails(self):
        cuts = [Cut([3], 1), Cut([6, 1, 5], 0), Cut([2], 2), Cut([4], 1)]
        self.assertEqual(tell(BARRED).cuts(0), cuts)
        self.assertEqual(barrier(tell(BARRED)), "car 2 would roll to train 1, barred until the first pull")
        self.assertEqual(barrier(tell(SHUT)), "")
        two = Plan(Night([2, 1, 1], [4, 2, 1, 3], 2, 3, CLOSED), 1, [0, 0, 1, 0])
        self.assertEqual(barrier(tell(two)), "cars 1 2 4 would roll to trains 1 3, barred until the first pull")
        all_cars = Plan(Night([1] * 9, range(1, 10), 2, 9, CLOSED), 0, [0] * 9)
        some = "1 2 3 4 5 6 7 8 and 1 more"
        self.assertEqual(barrier(tell(all_cars)), f"cars {some} would roll to trains {some}, barred until the first pull")

    def test_destinations_are_barred_until_the_first_pull(self):
        story = tell(SHUT)
        self.assertEqual([story.bars(stage) for stage in range(4)], [True, False, False, False])
        said = ["9 trains barred until the first pull", "9 other trains empty", "9 other trains as before"]
        self.assertEqual([story.left_out(stage, 9) for stage in range(3)], said)
        story = tell(SHUT._replace(night=SHUT.night._replace(mark=OPEN)))
        self.assertEqual([story.bars(stage) for stage in range(4)], [False] * 4)
        self.assertEqual([story.left_out(stage, 9) for stage in range(3)], [said[1], said[2], said[2]])

    def test_the_car_that_check_names_is_marked(self):
        chance = random.Random(22)
        for _ in range(PLANS):
            story = tell(some_plan(chance))
            if story.refusal and story.refusal.number == 8:
                self.assertEqual(min(story.wrong(story.refusal.b)), story.refusal.a)
            if story.refusal and story.refusal.number == 9:
                self.assertEqual(min(story.out_of_order()), story.refusal.a)
            if story.refusal and story.refusal.number == 14:
                self.assertEqual(min(story.stopped()), story.refusal.a)

    def test_cuts_are_the_cars_in_order(self):
        chance = random.Random(23)
        for _ in range(PLANS):
            story = tell(some_plan(chance))
            for stage in range(len(story.yards) or 1):
                cuts = story.cuts(stage)
                rolled = story.pulled(stage - 1) if stage else story.plan.night.inbound
                self.assertEqual([car for cut in cuts for car in cut.cars], rolled)
                self.assertTrue(all(one.track != other.track for one, other in zip(cuts, cuts[1:])))

    def test_no_plan_of_a_night(self):
        with self.assertRaises(Refusal) as caught:
            tell(Plan(Night([2], [1, 1], 2, 3, OPEN), 0, [0, 0]))
        self.assertEqual(caught.exception.number, 3)


if __name__ == "__main__":
    unittest.main()
