//! The fourteen trial nights of the paper, with every number it gives, and nights like them that are closed.

use second::answers::Refusal;
use second::reference::{check, derive, replay, Checked, Derived, Staged};
use second::yard::Replay;
use second::{Mark, Night, Plan};

const N: [u16; 6] = [3, 6, 1, 5, 2, 4];

fn night<'a>(lengths: &'a [u16], inbound: &'a [u16], tracks: usize, room: usize) -> Night<'a> {
    Night {
        lengths,
        inbound,
        tracks,
        room,
        mark: Mark::Open,
    }
}

fn closed(night: Night) -> Night {
    let mark = Mark::Closed;
    Night { mark, ..night }
}

fn night_n(tracks: usize, room: usize) -> Night<'static> {
    night(&[6], &N, tracks, room)
}

fn derived(night: Night) -> Result<Derived, Refusal> {
    derive(night, 8, night.inbound.len())
}

fn reversed(cars: u16) -> Vec<u16> {
    (1..=cars).rev().collect()
}

fn refusal(number: usize, a: usize, b: usize) -> Refusal {
    Refusal { number, a, b }
}

fn accepted(steps: usize, passes: usize, codes: &[u16]) -> Result<Derived, Refusal> {
    Ok(Derived {
        steps,
        passes,
        codes: codes.to_vec(),
    })
}

/// The plan of case 1.
fn plan_one() -> Plan<'static> {
    Plan {
        night: night_n(2, 512),
        steps: 2,
        codes: &[0, 0, 1, 1, 2, 3],
    }
}

#[test]
fn case_1_derives_two_steps() {
    assert_eq!(
        derived(night_n(2, 512)),
        accepted(2, 11, &[0, 0, 1, 1, 2, 3])
    );
    let fullest = 3;
    assert_eq!(
        check(plan_one()),
        Ok(Checked {
            passes: 11,
            fullest
        })
    );
}

#[test]
fn case_2_stands_at_stage_0() {
    let replayed = Replay::of(plan_one());
    let yard = &replayed.stages[0];
    assert_eq!(yard.tracks, [vec![3, 6, 4], vec![5]]);
    assert_eq!(yard.destinations, [[1, 2]]);
    let staged = Staged {
        passes: 6,
        on: vec![2, 2, 0, 0, 1, 0],
        at: vec![0, 1, 0, 2, 0, 1],
    };
    assert_eq!(replay(plan_one(), 0, 6, 6), Ok(staged));
}

#[test]
fn case_3_stands_at_stage_1() {
    let replayed = Replay::of(plan_one());
    let yard = &replayed.stages[1];
    assert_eq!(yard.tracks, [vec![], vec![5, 6]]);
    assert_eq!(yard.destinations, [[1, 2, 3, 4]]);
    let staged = Staged {
        passes: 9,
        on: vec![2, 2, 2, 2, 1, 1],
        at: vec![0, 1, 2, 3, 0, 1],
    };
    assert_eq!(replay(plan_one(), 1, 6, 6), Ok(staged));
}

#[test]
fn case_4_has_one_track() {
    assert_eq!(
        derived(night_n(1, 512)),
        accepted(3, 13, &[0, 0, 1, 1, 3, 7])
    );
}

#[test]
fn case_5_has_little_room() {
    assert_eq!(derived(night_n(2, 2)), Err(refusal(6, 0, 3)));
    assert_eq!(derived(night_n(2, 3)), accepted(2, 11, &[0, 0, 1, 1, 2, 3]));
}

#[test]
fn case_6_builds_a_train_out_of_order() {
    let plan = Plan {
        codes: &[0, 0, 0, 1, 2, 3],
        ..plan_one()
    };
    assert_eq!(Replay::of(plan).end().destinations, [[3, 1, 2, 4, 5, 6]]);
    assert_eq!(check(plan), Err(refusal(9, 3, 0)));
}

#[test]
fn case_7_has_one_car() {
    assert_eq!(derived(night(&[1], &[1], 2, 512)), accepted(0, 1, &[0]));
}

#[test]
fn case_8_counts_no_break_between_trains() {
    assert_eq!(
        derived(night(&[1, 1], &[2, 1], 2, 512)),
        accepted(0, 2, &[0, 0])
    );
    assert_eq!(
        derived(night(&[2], &[2, 1], 2, 512)),
        accepted(1, 3, &[0, 1])
    );
}

#[test]
fn case_9_has_seven_reversed() {
    let inbound = reversed(7);
    // Code 4 is no usable code on two tracks. The passes are 7 and the set bits, 11.
    assert_eq!(
        derived(night(&[7], &inbound, 2, 512)),
        accepted(3, 18, &[0, 1, 2, 3, 5, 6, 7])
    );
}

#[test]
fn case_10_has_eight_reversed() {
    let inbound = reversed(8);
    let on_two = derived(night(&[8], &inbound, 2, 512));
    let on_three = derived(night(&[8], &inbound, 3, 512));
    assert_eq!(on_two.map(|found| found.steps), Ok(4));
    assert_eq!(on_three.map(|found| found.steps), Ok(3));
}

#[test]
fn case_11_pulls_a_car_early() {
    let plan = Plan {
        night: night(&[1], &[1], 2, 512),
        steps: 3,
        codes: &[4],
    };
    assert_eq!(check(plan), Err(refusal(8, 1, 0)));
    assert_eq!(replay(plan, 0, 1, 1), Err(refusal(8, 1, 0)));
}

#[test]
fn case_12_meets_a_car_twice() {
    assert_eq!(derived(night(&[2], &[1, 1], 2, 512)), Err(refusal(3, 2, 1)));
}

#[test]
fn case_13_has_a_limit_of_two() {
    assert_eq!(derive(night_n(1, 512), 2, 6), Err(refusal(5, 3, 0)));
}

#[test]
fn case_14_needs_nine_steps() {
    let inbound = reversed(257);
    assert_eq!(
        derived(night(&[257], &inbound, 8, 512)),
        Err(refusal(5, 9, 0))
    );
    let inbound = reversed(256);
    let found = derived(night(&[256], &inbound, 8, 512));
    assert_eq!(found.map(|found| found.steps), Ok(8));
}

#[test]
fn night_n_closed_has_three_steps() {
    let codes = [1, 1, 2, 2, 3, 5];
    let night = closed(night_n(2, 512));
    assert_eq!(derived(night), accepted(3, 14, &codes));
    assert_eq!(derive(night, 3, 6), accepted(3, 14, &codes));
    assert_eq!(derive(night, 2, 6), Err(refusal(5, 3, 0)));
    let plan = Plan {
        night,
        steps: 3,
        codes: &codes,
    };
    assert_eq!(Replay::of(plan).end().destinations, [[1, 2, 3, 4, 5, 6]]);
    let checked = Checked {
        passes: 14,
        fullest: 4,
    };
    assert_eq!(check(plan), Ok(checked));
    // Before the first pull the six cars stand on the two sorting tracks.
    let staged = Staged {
        passes: 6,
        on: vec![0, 0, 1, 1, 0, 0],
        at: vec![1, 3, 0, 1, 2, 0],
    };
    assert_eq!(replay(plan, 0, 6, 6), Ok(staged));
}

#[test]
fn one_car_closed_takes_a_step() {
    let night = closed(night(&[1], &[1], 2, 512));
    assert_eq!(derived(night), accepted(1, 2, &[1]));
    assert_eq!(derive(night, 1, 1), accepted(1, 2, &[1]));
    assert_eq!(derive(night, 0, 1), Err(refusal(5, 1, 0)));
}

#[test]
fn reversed_trains_closed_take_a_step_more_at_the_edge() {
    let inbound = reversed(256);
    let found = derived(closed(night(&[256], &inbound, 8, 512)));
    assert_eq!(found, Err(refusal(5, 9, 0)));
    let inbound = reversed(255);
    let found = derived(closed(night(&[255], &inbound, 8, 512)));
    assert_eq!(found.map(|found| found.steps), Ok(8));
    let inbound = reversed(512);
    let open = night(&[512], &inbound, 1, 512);
    assert_eq!(derived(open), Err(refusal(5, 511, 0)));
    assert_eq!(derived(closed(open)), Err(refusal(5, 512, 0)));
}

#[test]
fn reversed_trains_take_as_many_steps_as_ranges_allow() {
    let steps = |cars, tracks| {
        let inbound = reversed(cars);
        let lengths = [cars];
        let open = night(&lengths, &inbound, tracks, 4096);
        [open, closed(open)].map(|night| {
            let found = derive(night, 16, usize::from(cars));
            found
                .map(|found| found.steps)
                .map_err(|refusal| (refusal.number, refusal.a))
        })
    };
    assert_eq!(steps(257, 8), [Ok(9), Ok(9)]);
    assert_eq!(steps(4095, 16), [Ok(12), Ok(12)]);
    assert_eq!(steps(4096, 16), [Ok(12), Ok(13)]);
    // F(15) is 2583 on two tracks, F(16) 4180.
    assert_eq!(steps(2583, 2), [Ok(15), Ok(16)]);
    assert_eq!(steps(4096, 2), [Ok(16), Ok(16)]);
    // F(16) is 17 on one track.
    assert_eq!(steps(16, 1), [Ok(15), Ok(16)]);
    assert_eq!(steps(17, 1), [Ok(16), Err((5, 17))]);
    assert_eq!(steps(4096, 1), [Err((5, 4095)), Err((5, 4096))]);
}

#[test]
fn every_car_in_every_step_makes_the_most_passes() {
    let inbound: Vec<u16> = (1..=4096).collect();
    for night in [
        night(&[16; 256], &inbound, 1, 4096),
        night(&[4096], &inbound, 1, 4096),
    ] {
        for night in [night, closed(night)] {
            let plan = Plan {
                night,
                steps: 16,
                codes: &[u16::MAX; 4096],
            };
            let most = Checked {
                passes: 69_632,
                fullest: 4096,
            };
            assert_eq!(check(plan), Ok(most));
            let staged = replay(plan, 9, 4096, 4096).map(|staged| staged.passes);
            assert_eq!(staged, Ok(4096 + 9 * 4096));
        }
    }
}

/// What check and replay say of N on two tracks in three steps with these codes, open and closed.
fn both_say(codes: &[u16], open: Option<Refusal>, closed_too: Refusal) {
    let with = |night| Plan {
        night,
        steps: 3,
        codes,
    };
    let (in_open, in_closed) = (with(night_n(2, 512)), with(closed(night_n(2, 512))));
    assert_eq!(check(in_open).err(), open);
    assert_eq!(check(in_closed), Err(closed_too));
    for stage in 0..=3 {
        assert_eq!(replay(in_open, stage, 6, 6).err(), open);
        assert_eq!(replay(in_closed, stage, 6, 6), Err(closed_too));
    }
}

#[test]
fn a_zero_code_is_refused_in_a_closed_night_alone() {
    both_say(&[0, 0, 1, 1, 2, 3], None, refusal(14, 1, 0));
}

#[test]
fn the_first_zero_code_in_car_order_is_told() {
    // Trains of one car are never out of order; of the cars 2, 3 and 6 with code 0, car 3 comes in first.
    let plan = Plan {
        night: closed(night(&[1; 6], &N, 2, 512)),
        steps: 1,
        codes: &[1, 0, 0, 1, 1, 0],
    };
    assert_eq!(check(plan), Err(refusal(14, 2, 0)));
    assert!(check(plan.opened()).is_ok());
}

#[test]
fn a_code_too_large_comes_before_a_zero_code() {
    let too_large = refusal(7, 5, 0);
    both_say(&[0, 0, 1, 1, 8, 8], Some(too_large), too_large);
}

#[test]
fn a_zero_code_comes_before_an_early_pull() {
    let early = refusal(8, 1, 0);
    both_say(&[4, 4, 1, 1, 0, 5], Some(early), refusal(14, 5, 0));
}
