//! The fewest passes for given steps: nights worked out by hand, the two searches beside each other, and laws.

use second::answers::{refuse, Refusal};
use second::counts::FIRST;
use second::nights::{any_night, block_orders, lightest_plan, night_of, orders, OwnNight};
use second::passes::{code_lists, go_car_by_car, try_all_lists};
use second::random::Random;
use second::reference::{check, derive, fewest_passes, Derived};
use second::{Mark, Night, Plan, MARKS};

const N: [u16; 6] = [3, 6, 1, 5, 2, 4];

/// A night of one train with room for all cars.
fn train(inbound: &[u16], tracks: usize, mark: Mark) -> OwnNight {
    OwnNight {
        lengths: vec![inbound.len() as u16],
        inbound: inbound.to_vec(),
        tracks,
        room: 512,
        mark,
    }
}

fn found(night: &OwnNight, steps: usize) -> Result<Derived, Refusal> {
    fewest_passes(night.lend(), steps, night.inbound.len(), go_car_by_car)
}

/// Both searches find these codes, with so many passes, for this train.
fn expect(night: &OwnNight, steps: usize, passes: usize, codes: &[u16]) {
    let wanted = Derived {
        steps,
        passes,
        codes: codes.to_vec(),
    };
    assert_eq!(found(night, steps), Ok(wanted), "{night:?}");
    if codes.len() * steps <= 18 {
        let tried = try_all_lists(night.lend(), steps);
        assert_eq!(tried.as_deref(), Some(codes), "{night:?}");
    }
}

#[test]
fn night_n_is_as_by_hand() {
    // Blocks 1 2, 3 4, 5 and 6. Two steps have just four codes; a third one has 4, on three tracks, in the place of 3.
    let open = |tracks| train(&N, tracks, Mark::Open);
    expect(&open(2), 2, 11, &[0, 0, 1, 1, 2, 3]);
    expect(&open(2), 3, 11, &[0, 0, 1, 1, 2, 3]);
    expect(&open(3), 2, 11, &[0, 0, 1, 1, 2, 3]);
    expect(&open(3), 3, 10, &[0, 0, 1, 1, 2, 4]);
    assert_eq!(found(&open(3), 1), Err(refuse(5, 2)));
    // On one track the codes are 0 1 3 7 15 .., each of which has one set bit more.
    expect(&open(1), 3, 13, &[0, 0, 1, 1, 3, 7]);
    expect(&open(1), 8, 13, &[0, 0, 1, 1, 3, 7]);
}

#[test]
fn night_n_closed_is_as_by_hand() {
    let closed = |tracks| train(&N, tracks, Mark::Closed);
    assert_eq!(found(&closed(2), 2), Err(refuse(5, 3)));
    expect(&closed(2), 3, 14, &[1, 1, 2, 2, 3, 5]);
    // Cars 5 and 6 have three set bits with 3 and 4, with 4 and 5 and with 4 and 6; 3 is the smallest for car 5.
    expect(&closed(3), 3, 13, &[1, 1, 2, 2, 3, 4]);
    expect(&closed(4), 4, 12, &[1, 1, 2, 2, 4, 8]);
    expect(&closed(3), 4, 13, &[1, 1, 2, 2, 3, 4]);
}

#[test]
fn many_cars_get_the_lighter_code() {
    // Blocks of 1, 1, 2 and 1 cars, closed: 3 and 4 for the last two would cost two set bits more than 4 and 5.
    let inbound = [5, 3, 4, 2, 1];
    let night = |mark| train(&inbound, 3, mark);
    expect(&night(Mark::Closed), 3, 11, &[1, 2, 4, 4, 5]);
    expect(&night(Mark::Open), 3, 9, &[0, 1, 2, 2, 4]);
}

#[test]
fn the_steps_are_as_given_even_if_fewer_would_do() {
    for steps in 0..=8 {
        expect(&train(&[1, 2, 3], 2, Mark::Open), steps, 3, &[0, 0, 0]);
    }
    for steps in 1..=8 {
        expect(&train(&[1, 2, 3], 2, Mark::Closed), steps, 6, &[1, 1, 1]);
    }
    let closed = train(&[1, 2, 3], 2, Mark::Closed);
    assert_eq!(found(&closed, 0), Err(refuse(5, 1)));
}

#[test]
fn fewest_steps_above_eight_are_told() {
    let reversed = |cars| (1..=cars).rev().collect::<Vec<u16>>();
    assert_eq!(
        found(&train(&reversed(257), 8, Mark::Open), 8),
        Err(refuse(5, 9))
    );
    assert_eq!(
        found(&train(&reversed(256), 8, Mark::Closed), 8),
        Err(refuse(5, 9))
    );
    assert_eq!(
        found(&train(&reversed(512), 1, Mark::Closed), 8),
        Err(refuse(5, 512))
    );
    // All 256 codes in their order, 1024 set bits.
    let all: Vec<u16> = (0..256).collect();
    expect(&train(&reversed(256), 8, Mark::Open), 8, 256 + 1024, &all);
}

#[test]
fn room_is_tested_for_the_found_codes_alone() {
    // 0 0 1 1 2 4 pull two cars in step 0; the derived codes 0 0 1 1 2 3 pull three.
    let night = |room| OwnNight {
        room,
        ..train(&N, 3, Mark::Open)
    };
    let too_full = |cars| Refusal {
        b: cars,
        ..refuse(6, 0)
    };
    assert!(found(&night(2), 3).is_ok());
    assert_eq!(found(&night(1), 3), Err(too_full(2)));
    assert_eq!(found(&night(2), 2), Err(too_full(3)));
    // Three cars in order get 1 1 1, which overfills step 0, although 1 2 4 has room.
    let closed = OwnNight {
        room: 2,
        ..train(&[1, 2, 3], 3, Mark::Closed)
    };
    assert_eq!(found(&closed, 3), Err(too_full(3)));
    let other = Plan {
        night: closed.lend(),
        steps: 3,
        codes: &[1, 2, 4],
    };
    assert!(check(other).is_ok());
}

/// Both searches, which share no more than the replay, find the same.
fn searches_agree(night: Night, steps: usize) {
    let tried = try_all_lists(night, steps);
    assert_eq!(go_car_by_car(night, steps), tried, "{night:?} {steps}");
}

#[test]
fn both_searches_find_the_same_in_random_nights() {
    for trial in 0..60 {
        let mut random = Random::new(104, trial);
        let mark = random.pick(&MARKS);
        let (cars, steps) = random.pick(&[(4, 4), (5, 3), (6, 2), (8, 2)]);
        let trains = random.within(1..=3);
        searches_agree(
            night_of(&mut random, mark, cars, trains, FIRST).lend(),
            steps,
        );
    }
}

#[test]
fn both_searches_find_the_same_for_trains_of_blocks() {
    for inbound in block_orders(6) {
        for mark in MARKS {
            searches_agree(train(&inbound, 2, mark).lend(), 2);
        }
    }
    searches_agree(train(&N, 3, Mark::Closed).lend(), 3);
}

/// Of the lists with as few passes the found one has the smallest code for every car, not only at the first difference.
#[test]
fn no_list_with_as_few_passes_has_a_smaller_code() {
    for inbound in orders(4) {
        for mark in MARKS {
            let night = train(&inbound, 3, mark);
            let Ok(least) = found(&night, 3) else {
                continue;
            };
            for codes in code_lists(4, 3) {
                if passes(night.lend(), 3, &codes) == Some(least.passes) {
                    let mut pairs = codes.iter().zip(&least.codes);
                    assert!(pairs.all(|(code, smallest)| code >= smallest), "{codes:?}");
                }
            }
        }
    }
}

/// The passes of codes that check accepts.
fn passes(night: Night, steps: usize, codes: &[u16]) -> Option<usize> {
    let plan = Plan {
        night,
        steps,
        codes,
    };
    check(plan).ok().map(|checked| checked.passes)
}

/// Random nights of all sizes with room for all cars.
fn each_random_night(count: u64, mut visit: impl FnMut(&mut Random, &OwnNight)) {
    for trial in 0..count {
        let mut random = Random::new(1040, trial);
        let night = OwnNight {
            room: 512,
            ..any_night(&mut random, FIRST)
        };
        visit(&mut random, &night);
    }
}

#[test]
fn check_accepts_what_is_found_with_the_same_passes() {
    each_random_night(400, |_, night| {
        for steps in 0..=8 {
            match found(night, steps) {
                Ok(least) => {
                    let checked = passes(night.lend(), steps, &least.codes);
                    assert_eq!(checked, Some(least.passes), "{night:?} {steps}");
                }
                Err(refusal) => assert!(refusal.number == 5 && refusal.a > steps, "{refusal:?}"),
            }
        }
    });
}

/// The fewest passes, above all others where no codes build the trains.
fn fewest(night: &OwnNight, steps: usize) -> usize {
    found(night, steps).map_or(usize::MAX, |least| least.passes)
}

fn passes_by_steps(night: &OwnNight) -> Vec<usize> {
    (0..=8).map(|steps| fewest(night, steps)).collect()
}

#[test]
fn passes_never_grow_with_a_step_or_a_track_more_or_with_open_destinations() {
    each_random_night(300, |_, night| {
        let by_steps = passes_by_steps(night);
        assert!(by_steps.is_sorted_by(|few, more| few >= more), "{night:?}");
        let never_grow = |easier: OwnNight| {
            let mut pairs = passes_by_steps(&easier).into_iter().zip(&by_steps);
            assert!(pairs.all(|(few, more)| few <= *more), "{night:?}");
        };
        never_grow(OwnNight {
            tracks: night.tracks.min(7) + 1,
            ..night.clone()
        });
        never_grow(OwnNight {
            mark: Mark::Open,
            ..night.clone()
        });
    });
}

#[test]
fn the_derived_plan_has_as_many_passes_or_more() {
    let mut bettered = 0;
    each_random_night(1000, |_, night| {
        let Ok(derived) = derive(night.lend(), 8, night.inbound.len()) else {
            return;
        };
        let least = fewest(night, derived.steps);
        assert!(least <= derived.passes, "{night:?}");
        bettered += usize::from(least < derived.passes);
    });
    assert!(bettered > 0, "every derived plan had the fewest passes");
}

/// What is found stays as it is when a car's code is exchanged for any other: no list that check accepts and that differs at
/// one car has fewer passes, or as many and a smaller code.
#[test]
fn no_other_code_for_one_car_is_better() {
    each_random_night(200, |random, night| {
        let steps = random.within(1..=8);
        let plan = lightest_plan(night, steps);
        let Some(least) = passes(night.lend(), steps, &plan.codes) else {
            return;
        };
        for _ in 0..200 {
            let mut other = plan.codes.clone();
            let car = random.below(other.len());
            other[car] = random.below(1 << steps) as u16;
            if let Some(passes) = passes(night.lend(), steps, &other) {
                assert!((passes, other) >= (least, plan.codes.clone()), "{night:?}");
            }
        }
    });
}
