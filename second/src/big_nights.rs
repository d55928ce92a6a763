//! Fixed nights of up to 4,096 cars, and cards at the edges of either edition, through every call.

use crate::cards::{pack_counts, CardBuffers, Layout, FIRST, SECOND};
use crate::counts::{self, Counts, MOST};
use crate::harness::compare_read;
use crate::nights::{all_bits, derived_plan, late_heavy_train, one_train, shuffled};
use crate::nights::{night_of, OwnNight, OwnPlan};
use crate::random::Random;
use crate::tally::{Tally, LAST_FULL_STEP};
use crate::trials::{both_cards, open_and_closed, whole_night, whole_plan, Bench};
use crate::yard::Replay;
use crate::{Calls, Mark, MARKS};

/// Nights of as many cars, trains, tracks and steps as there may be, open and closed, with room for all cars and one car
/// too little for the fullest step.
pub fn big_nights<C: Calls>(tally: &mut Tally) -> Result<(), String> {
    let mut random = Random::new(0, 5);
    let nights = any_order_nights(&mut random);
    let mut bench = Bench {
        random: &mut random,
        tally,
    };
    for mark in MARKS {
        for plan in code_plans(mark) {
            whole_plan::<C>(&mut bench, &plan)?;
            both_cards::<C>(&mut bench, &plan)?;
        }
        for step in 0..=LAST_FULL_STEP {
            little_room::<C>(&mut bench, &late_heavy_train(mark, step))?;
        }
    }
    for night in nights {
        open_and_closed(&night, |night| little_room::<C>(&mut bench, night))?;
    }
    Ok(())
}

/// Nights for derive: trains of 4,096 cars as far from their order as can be and in any order, on all kinds of tracks; and
/// those that need just sixteen steps or one more on one track.
fn any_order_nights(random: &mut Random) -> Vec<OwnNight> {
    let mut nights = Vec::new();
    let reversed = one_train(&[1; MOST.cars]);
    for tracks in [1, 2, 3, 12, 16] {
        let night = reversed.clone();
        nights.push(OwnNight { tracks, ..night });
    }
    for cars in [513, 4095] {
        let night = one_train(&vec![1; cars]);
        nights.push(OwnNight {
            tracks: 16,
            ..night
        });
    }
    for trains in [1, 2, 256] {
        let mut night = night_of(random, Mark::Open, MOST.cars, trains, MOST);
        night.inbound = shuffled(random, night.inbound);
        nights.push(night);
    }
    nights.push(OwnNight {
        lengths: vec![16; MOST.trains],
        ..reversed
    });
    nights.extend([16, 17].map(|blocks| one_train(&vec![100; blocks])));
    nights
}

/// A night through every call, with room for all cars and for one fewer than the fullest step pulls.
fn little_room<C: Calls>(bench: &mut Bench, night: &OwnNight) -> Result<(), String> {
    whole_night::<C>(bench, night)?;
    let fullest = Replay::of(derived_plan(night).lend()).fullest_pull();
    if fullest > 1 {
        let room = fullest - 1;
        let night = night.clone();
        whole_night::<C>(bench, &OwnNight { room, ..night })?;
    }
    Ok(())
}

/// Plans of sixteen steps: every car pulled in all of them, which are the most passes; each step overfilled alone; and one
/// car pulled early in each step.
fn code_plans(mark: Mark) -> Vec<OwnPlan> {
    let cars = MOST.cars;
    let in_order = OwnPlan {
        night: OwnNight {
            mark,
            ..one_train(&[MOST.cars as u16])
        },
        steps: MOST.steps,
        codes: vec![all_bits(MOST.steps); cars],
    };
    let mut plans = vec![in_order.clone()];
    for step in 0..MOST.steps {
        let mut plan = in_order.clone();
        plan.night.tracks = MOST.tracks;
        plan.night.room = cars - 1;
        plan.codes = vec![1 << step; cars];
        plans.push(plan);
    }
    for step in 0..MOST.steps - 1 {
        let mut plan = in_order.clone();
        plan.codes[cars / 2] ^= 1 << step;
        plans.push(plan);
    }
    plans
}

/// Plans with each count at the end of document 01's range and just beyond it, in all ways, as cards of either edition:
/// only an open one with no count beyond goes on edition 1.
pub fn edition_corners<C: Calls>(tally: &mut Tally) -> Result<(), String> {
    let mut random = Random::new(0, 6);
    let mut bench = Bench {
        random: &mut random,
        tally,
    };
    let first = counts::FIRST;
    for corner in 0..32 {
        let beyond = |count: usize, bit: usize| count + (corner >> bit) % 2;
        let counts = Counts {
            cars: beyond(first.cars, 0),
            trains: beyond(first.trains, 1),
            tracks: beyond(first.tracks, 2),
            room: beyond(first.room, 3),
            steps: beyond(first.steps, 4),
        };
        for mark in MARKS {
            let mut plan = plan_of(counts);
            plan.night.mark = mark;
            both_cards::<C>(&mut bench, &plan)?;
        }
    }
    Ok(())
}

/// A plan with these counts, its cars in order, all but those of the first train alone in theirs.
fn plan_of(counts: Counts) -> OwnPlan {
    let mut lengths = vec![1; counts.trains];
    lengths[0] += (counts.cars - counts.trains) as u16;
    let night = OwnNight {
        lengths,
        inbound: (1..=counts.cars as u16).collect(),
        tracks: counts.tracks,
        room: counts.room,
        mark: Mark::Open,
    };
    OwnPlan {
        night,
        steps: counts.steps,
        codes: vec![all_bits(counts.steps); counts.cars],
    }
}

/// The bits of a count on a card, and which of the counts it is.
type Field = (usize, fn(&mut Counts) -> &mut usize);

/// Cards of either edition with every number that the bits of a count hold in the place of that count, one at a time; the
/// bytes behind the header are those of a card of two cars, two trains, one track and no steps.
pub fn counts_on_cards<C: Calls>(tally: &mut Tally) -> Result<(), String> {
    let mut random = Random::new(0, 7);
    for layout in [&FIRST, &SECOND] {
        let [_, steps, tracks, room, cars, trains] = layout.header;
        let fields: [Field; 5] = [
            (steps, |counts| &mut counts.steps),
            (tracks, |counts| &mut counts.tracks),
            (room, |counts| &mut counts.room),
            (cars, |counts| &mut counts.cars),
            (trains, |counts| &mut counts.trains),
        ];
        for (bits, count) in fields {
            for number in 0..=usize::from(all_bits(bits)) {
                let card = card_with(layout, |counts| *count(counts) = number);
                let buffers = CardBuffers::of(MOST);
                compare_read::<C>(&mut random, tally, &card, buffers)?;
            }
        }
    }
    Ok(())
}

fn card_with(layout: &Layout, change: impl Fn(&mut Counts)) -> Vec<u8> {
    let mut counts = Counts {
        cars: 2,
        trains: 2,
        tracks: 1,
        room: 1,
        steps: 0,
    };
    let plan = plan_of(counts);
    change(&mut counts);
    pack_counts(layout, plan.lend(), counts)
}
