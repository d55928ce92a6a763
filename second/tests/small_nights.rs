//! Every small night, open and closed: all inbound orders of up to five cars in one to three trains.

use second::answers::{refuse, Refusal};
use second::nights::{orders, train_lengths};
use second::passes::code_lists;
use second::reference::{check, derive, Checked};
use second::yard::{place_of, Replay};
use second::{Mark, Night, Plan, MARKS};
use std::collections::BTreeSet;

const MOST_CARS: u16 = 5;
const MOST_TRACKS: usize = 3;

fn each_night(cars: u16, mark: Mark, mut visit: impl FnMut(Night)) {
    for inbound in orders(cars) {
        for lengths in train_lengths(cars) {
            for tracks in 1..=MOST_TRACKS {
                visit(Night {
                    lengths: &lengths,
                    inbound: &inbound,
                    tracks,
                    room: 512,
                    mark,
                });
            }
        }
    }
}

#[test]
fn there_are_as_many_orders_and_trains_as_there_should_be() {
    assert_eq!(orders(5).len(), 120);
    assert_eq!(train_lengths(5).len(), 1 + 4 + 6);
    assert_eq!(train_lengths(4).len(), 1 + 3 + 3);
    let lists: BTreeSet<_> = code_lists(5, 2).collect();
    assert_eq!(lists.len(), 1024);
}

/// Whether every destination track holds exactly its train, front car first.
fn trains_are_built(plan: Plan) -> bool {
    let replay = Replay::of(plan);
    let mut car = 0;
    let mut wanted = Vec::new();
    for &length in plan.night.lengths {
        let train: Vec<u16> = (car + 1..=car + length).collect();
        car += length;
        wanted.push(train);
    }
    replay.early.is_none() && replay.end().destinations == wanted
}

fn plans_build_the_trains_in_the_fewest_steps(mark: Mark) {
    let mut nights = 0;
    for cars in 1..=MOST_CARS {
        each_night(cars, mark, |night| {
            nights += 1;
            let steps = derived_steps(night);
            for fewer in 0..steps {
                nothing_builds_the_trains(night, fewer);
            }
        });
    }
    assert_eq!(nights, 3 * (1 + 2 * 2 + 6 * 4 + 24 * 7 + 120 * 11));
}

/// The steps of the derived plan, which must build the trains and be accepted.
fn derived_steps(night: Night) -> usize {
    let derived = match derive(night, 8, night.inbound.len()) {
        Ok(derived) => derived,
        Err(refusal) => panic!("{night:?} is refused: {refusal:?}"),
    };
    let plan = Plan {
        night,
        steps: derived.steps,
        codes: &derived.codes,
    };
    assert!(trains_are_built(plan), "{plan:?}");
    let passes = check(plan).map(|checked| checked.passes);
    assert_eq!(passes, Ok(derived.passes), "{plan:?}");
    derived.steps
}

/// Whatever the codes, no plan of these steps builds the trains.
fn nothing_builds_the_trains(night: Night, steps: usize) {
    for codes in code_lists(night.inbound.len(), steps) {
        let plan = Plan {
            night,
            steps,
            codes: &codes,
        };
        assert!(!trains_are_built(plan), "{plan:?} needs fewer than derived");
    }
}

#[test]
fn derived_plans_build_the_trains_in_the_fewest_steps() {
    plans_build_the_trains_in_the_fewest_steps(Mark::Open);
}

#[test]
fn derived_plans_of_closed_nights_build_the_trains_in_the_fewest_steps() {
    plans_build_the_trains_in_the_fewest_steps(Mark::Closed);
}

/// The lowest j+1 whose pair breaks the paper's rule on codes.
fn first_broken_pair(plan: Plan) -> Option<u16> {
    let mut last = 0;
    for &length in plan.night.lengths {
        for car in last + 2..=last + length {
            let code = plan.codes[usize::from(car) - 1];
            let before = plan.codes[usize::from(car) - 2];
            let inbound = plan.night.inbound;
            let is_break = place_of(inbound, car) < place_of(inbound, car - 1);
            if code < before || (is_break && code == before) {
                return Some(car);
            }
        }
        last += length;
    }
    None
}

/// What the paper says of a whole plan: the rule on pairs decides, and set bits count passes.
fn agrees_with_the_rules(plan: Plan) {
    let Some(passes) = passes_without_early_pull(plan) else {
        assert_eq!(check(plan).map_err(|refusal| refusal.number), Err(8));
        return;
    };
    let outcome = check(plan);
    match first_broken_pair(plan) {
        Some(car) => {
            let a = usize::from(car);
            assert_eq!(outcome, Err(Refusal { number: 9, a, b: 0 }), "{plan:?}");
            assert!(!trains_are_built(plan), "{plan:?}");
        }
        None => {
            let fullest = Replay::of(plan).pulls.into_iter().max().unwrap_or(0);
            assert_eq!(outcome, Ok(Checked { passes, fullest }), "{plan:?}");
            assert!(trains_are_built(plan), "{plan:?}");
        }
    }
}

/// n plus the set bits of all codes, or nothing where a car is pulled early.
fn passes_without_early_pull(plan: Plan) -> Option<usize> {
    if Replay::of(plan).early.is_some() {
        return None;
    }
    let set_bits: u32 = plan.codes.iter().map(|code| code.count_ones()).sum();
    Some(plan.codes.len() + set_bits as usize)
}

/// All code lists of up to two steps for up to four cars, and of three steps for up to three.
fn each_open_plan(visit: impl Fn(Plan)) {
    for (most_cars, steps) in [(4, 0), (4, 1), (4, 2), (3, 3)] {
        for cars in 1..=most_cars {
            each_night(cars, Mark::Open, |night| {
                for codes in code_lists(usize::from(cars), steps) {
                    visit(Plan {
                        night,
                        steps,
                        codes: &codes,
                    });
                }
            });
        }
    }
}

#[test]
fn built_trains_follow_the_rule_on_pairs() {
    each_open_plan(agrees_with_the_rules);
}

/// What check says of a plan with room for these cars, in an open night and in a closed one.
fn checked_with(plan: Plan, room: usize) -> [Result<Checked, Refusal>; 2] {
    MARKS.map(|mark| {
        let night = Night {
            room,
            mark,
            ..plan.night
        };
        check(Plan { night, ..plan })
    })
}

/// A closed night refuses the first zero code before all else, and of any other plan check says what it
/// says of it in an open night.
fn closed_differs_by_zero_codes_alone(plan: Plan) {
    let zero = plan.codes.iter().position(|&code| code == 0);
    for room in [1, 512] {
        let [open, closed] = checked_with(plan, room);
        let wanted = match zero {
            Some(place) => Err(refuse(14, place + 1)),
            None => open,
        };
        assert_eq!(closed, wanted, "{plan:?}");
    }
}

#[test]
fn a_closed_night_refuses_zero_codes_and_else_as_an_open_one() {
    each_open_plan(closed_differs_by_zero_codes_alone);
}
