//! One trial: a night from a seed, with plans and cards for it, through every call.

use crate::cards::{self, pack, CardBuffers, Layout};
use crate::counts::{FIRST, LONGEST_CARD, MOST, MOST_PASSES};
use crate::harness::{
    compare_check, compare_derive, compare_fewest_passes, compare_fewest_tracks, compare_price,
    compare_read, compare_replay, compare_write, StageBuffers,
};
use crate::nights::{
    all_trains, any_card, any_night, any_plan, any_ranges, any_timings, block_orders, damage_codes,
    damage_night, derived_plan, lightest_plan, orders, shuffled, tight_room, train_lengths,
    trial_nights, wild_count, OwnNight, OwnPlan,
};
use crate::passes::{code_lists, go_car_by_car, try_all_lists};
use crate::random::Random;
use crate::reference::test_counts;
use crate::tally::Tally;
use crate::{Calls, Mark, Night, MARKS};
use std::cell::OnceCell;

/// What all trials of a run share.
pub struct Bench<'a> {
    pub random: &'a mut Random,
    pub tally: &'a mut Tally,
}

/// All calls once or more, on a night that this trial's generator makes.
pub fn trial<C: Calls>(bench: &mut Bench) -> Result<(), String> {
    let most = any_ranges(bench.random);
    let night = any_night(bench.random, most);
    let plan = any_plan(bench.random, &night);
    derive_trial::<C>(bench, &night)?;
    check_trial::<C>(bench, &plan)?;
    replay_trial::<C>(bench, &plan)?;
    write_trial::<C>(bench, &plan)?;
    read_trial::<C>(bench, &plan)?;
    price_trial::<C>(bench)?;
    let small = any_night(bench.random, FIRST);
    let night = if bench.random.chance(90) {
        small
    } else {
        night
    };
    fewest_passes_trial::<C>(bench, night)
}

fn derive_trial<C: Calls>(bench: &mut Bench, night: &OwnNight) -> Result<(), String> {
    let random = &mut *bench.random;
    let mut night = night.clone();
    if random.chance(35) {
        night.room = tight_room(random, &derived_plan(&night));
    }
    let limit = any_limit(random, &night);
    damage_some(random, &mut night);
    let codes_len = any_length(random, night.inbound.len());
    compare_derive::<C>(random, bench.tally, night.lend(), limit, codes_len)
}

/// Mostly sixteen steps or eight, else any number of them, as many as the night needs, one fewer, or no number of steps.
fn any_limit(random: &mut Random, night: &OwnNight) -> usize {
    let limit = match random.below(20) {
        0..=11 => any_ranges(random).steps,
        12..=15 => random.within(0..=MOST.steps),
        _ => derived_plan(night).steps.saturating_sub(random.below(2)),
    };
    seldom_wild(random, limit)
}

fn seldom_wild(random: &mut Random, steps: usize) -> usize {
    match random.chance(5) {
        true => wild_count(random, steps),
        false => steps,
    }
}

/// Of the longer nights, on which the reference takes long, some are left out. A night beyond document 01's ranges is
/// refused.
fn fewest_passes_trial<C: Calls>(bench: &mut Bench, mut night: OwnNight) -> Result<(), String> {
    let random = &mut *bench.random;
    if night.inbound.len() > 64 && random.chance(85) {
        return Ok(());
    }
    let steps = any_steps(random, &night);
    let is_small = test_counts(night.lend().counts(0), FIRST).is_ok();
    if is_small && random.chance(50) {
        night.room = tight_room(random, &lightest_plan(&night, steps));
    }
    damage_some(random, &mut night);
    let codes_len = any_length(random, night.inbound.len());
    let lent = night.lend();
    compare_fewest_passes::<C>(random, bench.tally, lent, steps, codes_len, go_car_by_car)
}

/// Mostly as many steps as the night needs, at most eight, or up to two more, else one fewer, eight, any number of them,
/// or no number of steps.
fn any_steps(random: &mut Random, night: &OwnNight) -> usize {
    let needed = derived_plan(night).steps.min(FIRST.steps);
    let steps = match random.below(20) {
        0..=9 => (needed + random.below(3)).min(FIRST.steps),
        10..=11 => needed.saturating_sub(1),
        12..=13 => FIRST.steps,
        _ => random.within(0..=FIRST.steps),
    };
    seldom_wild(random, steps)
}

fn check_trial<C: Calls>(bench: &mut Bench, plan: &OwnPlan) -> Result<(), String> {
    let plan = damaged(bench.random, plan);
    compare_check::<C>(bench.random, bench.tally, plan.lend())
}

/// One stage, or all of them one after the other.
fn replay_trial<C: Calls>(bench: &mut Bench, plan: &OwnPlan) -> Result<(), String> {
    let random = &mut *bench.random;
    let plan = damaged(random, plan);
    let cars = plan.night.inbound.len();
    let last = plan.steps.min(MOST.steps + 1);
    let mut stages = vec![random.below(last + 1)];
    if random.chance(10) {
        stages = (0..=last).collect();
    }
    if random.chance(8) {
        stages = vec![plan.steps.wrapping_add(1), wild_count(random, plan.steps)];
    }
    for stage in stages {
        let buffers = StageBuffers {
            on: any_length(random, cars),
            at: any_length(random, cars),
        };
        compare_replay::<C>(random, bench.tally, plan.lend(), stage, buffers)?;
    }
    Ok(())
}

fn write_trial<C: Calls>(bench: &mut Bench, plan: &OwnPlan) -> Result<(), String> {
    let random = &mut *bench.random;
    let plan = damaged(random, plan);
    let whole = card_length(&plan).min(LONGEST_CARD);
    let card_len = any_length(random, whole);
    compare_write::<C>(random, bench.tally, plan.lend(), card_len)
}

/// The bytes of a plan's card.
fn card_length(plan: &OwnPlan) -> usize {
    let counts = plan.night.lend().counts(plan.steps.min(MOST.steps));
    Layout::right_for(plan.lend()).length(counts)
}

fn read_trial<C: Calls>(bench: &mut Bench, plan: &OwnPlan) -> Result<(), String> {
    let random = &mut *bench.random;
    let plan = damaged(random, plan);
    let card = any_card(random, &plan);
    let cars = plan.night.inbound.len().min(MOST.cars + 1);
    let trains = plan.night.lengths.len().min(MOST.trains + 1);
    let mut buffers = CardBuffers {
        lengths: any_length(random, trains),
        inbound: any_length(random, cars),
        codes: any_length(random, cars),
    };
    if random.chance(20) {
        // Ample buffers let flipped counts get as far as the lists.
        buffers = CardBuffers::of(any_ranges(random));
    }
    compare_read::<C>(random, bench.tally, &card, buffers)
}

fn price_trial<C: Calls>(bench: &mut Bench) -> Result<(), String> {
    let random = &mut *bench.random;
    for _ in 0..4 {
        let mut steps = random.within(0..=MOST.steps);
        let mut passes = random.within(0..=MOST_PASSES);
        if random.chance(10) {
            steps = wild_count(random, steps);
        }
        if random.chance(10) {
            passes = wild_count(random, passes);
        }
        let timings = any_timings(random);
        compare_price::<C>(bench.tally, steps, passes, timings)?;
    }
    Ok(())
}

/// All codes of up to sixteen steps, each once.
pub fn table_trial<C: Calls>(tally: &mut Tally) -> Result<(), String> {
    for code in 0..=u16::MAX {
        compare_fewest_tracks::<C>(tally, code)?;
    }
    Ok(())
}

/// The paper's trial nights, open and closed, and their cards, through every call with all limits and stages.
pub fn paper_nights<C: Calls>(tally: &mut Tally) -> Result<(), String> {
    let mut random = Random::new(0, 1);
    let mut bench = Bench {
        random: &mut random,
        tally,
    };
    for (lengths, inbound) in trial_nights() {
        for tracks in 1..=MOST.tracks {
            let night = OwnNight {
                lengths: lengths.clone(),
                inbound: inbound.clone(),
                tracks,
                room: FIRST.room,
                mark: Mark::Open,
            };
            open_and_closed(&night, |night| {
                searched_night::<C>(&mut bench, night, FIRST.steps, go_car_by_car)
            })?;
            for room in ROOMS {
                let night = OwnNight {
                    room,
                    ..night.clone()
                };
                open_and_closed(&night, |night| whole_night::<C>(&mut bench, night))?;
            }
        }
    }
    Ok(())
}

/// Little room, and much.
const ROOMS: [usize; 4] = [1, 2, 3, 512];

/// The fewest passes of a night, with 0 to these steps and all rooms, beside those that a search finds.
fn searched_night<C: Calls>(
    bench: &mut Bench,
    night: &OwnNight,
    most_steps: usize,
    search: fn(Night, usize) -> Option<Vec<u16>>,
) -> Result<(), String> {
    for steps in 0..=most_steps {
        // The search takes long, and finds the same for any room.
        let found = OnceCell::new();
        let find = |night: Night, steps| found.get_or_init(|| search(night, steps)).clone();
        for room in ROOMS {
            let night = Night {
                room,
                ..night.lend()
            };
            let cars = night.inbound.len();
            compare_fewest_passes::<C>(bench.random, bench.tally, night, steps, cars, find)?;
        }
    }
    Ok(())
}

/// A night with either mark through the same comparison.
pub fn open_and_closed(
    night: &OwnNight,
    mut compare: impl FnMut(&OwnNight) -> Result<(), String>,
) -> Result<(), String> {
    for mark in MARKS {
        let night = night.clone();
        compare(&OwnNight { mark, ..night })?;
    }
    Ok(())
}

/// One sound or unsound night with its derived plan, where it has one, through every call.
pub fn whole_night<C: Calls>(bench: &mut Bench, night: &OwnNight) -> Result<(), String> {
    let cars = night.inbound.len();
    for limit in 0..=MOST.steps {
        compare_derive::<C>(bench.random, bench.tally, night.lend(), limit, cars)?;
    }
    let plan = derived_plan(night);
    whole_plan::<C>(bench, &plan)?;
    both_cards::<C>(bench, &plan)
}

/// A plan through the writer, and through the reader as a card of either edition.
pub fn both_cards<C: Calls>(bench: &mut Bench, plan: &OwnPlan) -> Result<(), String> {
    let len = card_length(plan);
    compare_write::<C>(bench.random, bench.tally, plan.lend(), len)?;
    let buffers = CardBuffers::of(plan.night.lend().counts(plan.steps));
    for layout in [&cards::FIRST, &cards::SECOND] {
        let card = pack(layout, plan.lend());
        compare_read::<C>(bench.random, bench.tally, &card, buffers)?;
    }
    Ok(())
}

/// A plan through check, and through replay to all its stages and one beyond.
pub fn whole_plan<C: Calls>(bench: &mut Bench, plan: &OwnPlan) -> Result<(), String> {
    let cars = plan.night.inbound.len();
    compare_check::<C>(bench.random, bench.tally, plan.lend())?;
    for stage in 0..=plan.steps + 1 {
        let buffers = StageBuffers { on: cars, at: cars };
        compare_replay::<C>(bench.random, bench.tally, plan.lend(), stage, buffers)?;
    }
    Ok(())
}

/// Every small night, open and closed, with every code list of up to two steps, room for two, all stages.
pub fn small_nights<C: Calls>(tally: &mut Tally, most_cars: u16) -> Result<(), String> {
    let mut random = Random::new(0, 0);
    let mut bench = Bench {
        random: &mut random,
        tally,
    };
    for cars in 1..=most_cars {
        let nights = Nights {
            trains: train_lengths(cars),
            most_tracks: 2,
            ..Nights::of(cars)
        };
        nights.each(|night| small_plans::<C>(&mut bench, night))?;
    }
    Ok(())
}

/// Nights of a few cars: in each of these orders and trains, on one to so many tracks, open and closed.
pub struct Nights {
    orders: Vec<Vec<u16>>,
    trains: Vec<Vec<u16>>,
    most_tracks: usize,
}

impl Nights {
    /// All nights of these cars but for their room.
    pub fn of(cars: u16) -> Nights {
        Nights {
            orders: orders(cars),
            trains: all_trains(cars),
            most_tracks: FIRST.tracks,
        }
    }

    /// One train that comes in as blocks of any length, the last one first, on up to three tracks.
    pub fn in_blocks(cars: u16) -> Nights {
        Nights {
            orders: block_orders(cars),
            trains: vec![vec![cars]],
            most_tracks: 3,
        }
    }

    /// Each of them, with room for two cars.
    fn each(&self, mut compare: impl FnMut(&OwnNight) -> Result<(), String>) -> Result<(), String> {
        for inbound in &self.orders {
            for lengths in &self.trains {
                for tracks in 1..=self.most_tracks {
                    let night = OwnNight {
                        lengths: lengths.clone(),
                        inbound: inbound.clone(),
                        tracks,
                        room: 2,
                        mark: Mark::Open,
                    };
                    open_and_closed(&night, &mut compare)?;
                }
            }
        }
        Ok(())
    }
}

/// The fewest passes of these nights with 0 to so many steps, beside those found by trying every list of codes.
pub fn tried_nights<C: Calls>(
    tally: &mut Tally,
    nights: &Nights,
    most_steps: usize,
) -> Result<(), String> {
    let mut random = Random::new(0, 4);
    let mut bench = Bench {
        random: &mut random,
        tally,
    };
    nights.each(|night| searched_night::<C>(&mut bench, night, most_steps, try_all_lists))
}

/// Lengths of lists: short ones, those around a word of 64, and the longest of either range.
const LIST_LENGTHS: [u16; 15] = [
    1, 2, 7, 8, 9, 63, 64, 65, 127, 128, 511, 512, 513, 4095, 4096,
];

/// Lists with one number changed, at each place of the short ones and some of the long ones, so that a number taken for
/// another one is found. Without codes, check goes as far as the lists.
pub fn changed_numbers<C: Calls>(tally: &mut Tally) -> Result<(), String> {
    let mut random = Random::new(0, 2);
    for cars in LIST_LENGTHS {
        let mut plan = OwnPlan {
            night: OwnNight {
                lengths: vec![cars],
                inbound: shuffled(&mut random, (1..=cars).collect()),
                tracks: 1,
                room: MOST.room,
                mark: Mark::Open,
            },
            steps: 0,
            codes: vec![],
        };
        for place in changed_places(usize::from(cars)) {
            let car = plan.night.inbound[place];
            for number in changed_numbers_for(car, cars) {
                plan.night.inbound[place] = number;
                compare_check::<C>(&mut random, tally, plan.lend())?;
            }
            plan.night.inbound[place] = car;
        }
    }
    Ok(())
}

/// In lists of up to 512 cars every number up to twice as many, and some far beyond; in longer ones, which take long,
/// those that differ from the car's in one bit, and those around the cars, a power of two and the ends of 16 bits.
fn changed_numbers_for(car: u16, cars: u16) -> Vec<u16> {
    if usize::from(cars) <= FIRST.cars {
        return (0..=1040).chain([4096, 32768, u16::MAX]).collect();
    }
    let around = [0, 1, 512, 4096, 8192, 32768, cars].map(|number: u16| {
        let before = number.wrapping_sub(1);
        [before, number, number + 1]
    });
    let one_bit = (0..16).map(|bit| car ^ (1 << bit));
    one_bit.chain(around.into_iter().flatten()).collect()
}

fn changed_places(cars: usize) -> Vec<usize> {
    if cars <= 65 {
        (0..cars).collect()
    } else {
        vec![0, 1, 62, 63, 64, 65, cars / 2, cars - 2, cars - 1]
    }
}

/// Plans in which one car has code 0, at each place of the short ones and some of the long ones; every other
/// car has code 1.
pub fn zero_codes<C: Calls>(tally: &mut Tally) -> Result<(), String> {
    let mut random = Random::new(0, 3);
    let mut bench = Bench {
        random: &mut random,
        tally,
    };
    for cars in LIST_LENGTHS {
        let night = OwnNight {
            lengths: vec![cars],
            inbound: (1..=cars).collect(),
            tracks: 1,
            room: MOST.room,
            mark: Mark::Open,
        };
        for place in changed_places(usize::from(cars)) {
            let mut codes = vec![1; usize::from(cars)];
            codes[place] = 0;
            open_and_closed(&night, |night| other_faults::<C>(&mut bench, night, &codes))?;
        }
    }
    Ok(())
}

/// These codes with another at either end: a second 0, none, one pulled early, one too large for two steps; with
/// room for all cars and for one.
fn other_faults<C: Calls>(
    bench: &mut Bench,
    night: &OwnNight,
    codes: &[u16],
) -> Result<(), String> {
    let mut plan = OwnPlan {
        night: night.clone(),
        steps: 2,
        codes: codes.to_vec(),
    };
    for room in [1, MOST.room] {
        plan.night.room = room;
        for end in [0, codes.len() - 1] {
            for code in [0, 1, 2, 4] {
                plan.codes[end] = code;
                whole_plan::<C>(bench, &plan)?;
            }
            plan.codes[end] = codes[end];
        }
    }
    Ok(())
}

/// Derive, and all plans of up to two steps through check and replay.
fn small_plans<C: Calls>(bench: &mut Bench, night: &OwnNight) -> Result<(), String> {
    let cars = night.inbound.len();
    for limit in 0..=2 {
        compare_derive::<C>(bench.random, bench.tally, night.lend(), limit, cars)?;
    }
    for steps in 0..=2 {
        for codes in code_lists(cars, steps) {
            let plan = OwnPlan {
                night: night.clone(),
                steps,
                codes,
            };
            whole_plan::<C>(bench, &plan)?;
        }
    }
    Ok(())
}

/// About one night in four gets a fault, and some of them two, for the order of refusals.
fn damage_some(random: &mut Random, night: &mut OwnNight) {
    if random.chance(25) {
        for _ in 0..random.within(1..=2) {
            damage_night(random, night);
        }
    }
}

fn damaged(random: &mut Random, plan: &OwnPlan) -> OwnPlan {
    let mut plan = plan.clone();
    if random.chance(30) {
        for _ in 0..random.within(1..=2) {
            damage_codes(random, &mut plan);
        }
    }
    damage_some(random, &mut plan.night);
    plan
}

/// A buffer that is long enough in most trials, and seldom one item or more too short.
fn any_length(random: &mut Random, needed: usize) -> usize {
    match random.below(20) {
        0 => needed.saturating_sub(1),
        1 => random.below(needed + 1),
        2..=9 => needed + random.within(1..=5),
        _ => needed,
    }
}
