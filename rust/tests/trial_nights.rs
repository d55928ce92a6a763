//! The trial nights of document 01, each under its number, closed nights, bigger nights, both editions of cards, and
//! the fewest passes, through the archive.

use altairpeg::{check, derive, fewest_passes, fewest_tracks, read_card, replay, write_card};
use altairpeg::{Checked, Kind, Mark, Night, Plan, Refusal, STEPS};

const N: [u16; 6] = [3, 6, 1, 5, 2, 4];

/// Night N, one train, open.
fn n(tracks: usize, room: usize) -> Night<'static> {
    night(&[6], &N, tracks, room)
}

/// An open night, as all of document 01 are.
fn night<'a>(lengths: &'a [u16], inbound: &'a [u16], tracks: usize, room: usize) -> Night<'a> {
    Night {
        lengths,
        inbound,
        tracks,
        room,
        mark: Mark::Open,
    }
}

/// The same night, closed.
fn closed(night: Night) -> Night {
    Night {
        mark: Mark::Closed,
        ..night
    }
}

/// Cars n to 1.
fn reversed(n: u16) -> Vec<u16> {
    (1..=n).rev().collect()
}

fn refused(number: usize, a: usize, b: usize) -> Refusal {
    Refusal { number, a, b }
}

fn steps(night: Night) -> usize {
    derive(night, STEPS).expect("derived").steps
}

#[test]
fn case_1_n_on_two_tracks() {
    let derived = derive(n(2, 512), 8).unwrap();
    assert_eq!(derived.steps, 2);
    assert_eq!(derived.codes, [0, 0, 1, 1, 2, 3]);
    assert_eq!(derived.passes, 11);
}

#[test]
fn cases_2_and_3_the_stages_of_case_1() {
    let plan = Plan {
        night: n(2, 512),
        steps: 2,
        codes: &[0, 0, 1, 1, 2, 3],
    };
    let first = replay(plan, 0).unwrap();
    assert_eq!(first.cars_on(0), [3, 6, 4]);
    assert_eq!(first.cars_on(1), [5]);
    assert_eq!(first.cars_on(2), [1, 2]);
    assert_eq!(first.passes, 6);
    let second = replay(plan, 1).unwrap();
    assert_eq!(second.cars_on(0), []);
    assert_eq!(second.cars_on(1), [5, 6]);
    assert_eq!(second.cars_on(2), [1, 2, 3, 4]);
    assert_eq!(replay(plan, 3), Err(refused(1, 6, 0)));
}

#[test]
fn case_4_n_on_one_track() {
    let derived = derive(n(1, 512), 8).unwrap();
    assert_eq!(derived.steps, 3);
    assert_eq!(derived.codes, [0, 0, 1, 1, 3, 7]);
    assert_eq!(derived.passes, 13);
}

#[test]
fn case_5_room() {
    assert_eq!(derive(n(2, 2), 8), Err(refused(6, 0, 3)));
    assert!(derive(n(2, 3), 8).is_ok());
}

#[test]
fn case_6_a_plan_that_builds_another_order() {
    let plan = Plan {
        night: n(2, 512),
        steps: 2,
        codes: &[0, 0, 0, 1, 2, 3],
    };
    assert_eq!(replay(plan, 2).unwrap().cars_on(2), [3, 1, 2, 4, 5, 6]);
    assert_eq!(check(plan), Err(refused(9, 3, 0)));
}

#[test]
fn case_7_one_car() {
    let derived = derive(night(&[1], &[1], 2, 512), 8).unwrap();
    assert_eq!((derived.steps, derived.passes), (0, 1));
    assert_eq!(derived.codes, [0]);
}

#[test]
fn case_8_two_cars() {
    assert_eq!(steps(night(&[1, 1], &[2, 1], 2, 512)), 0);
    assert_eq!(steps(night(&[2], &[2, 1], 2, 512)), 1);
}

#[test]
fn case_9_seven_reversed() {
    let derived = derive(night(&[7], &reversed(7), 2, 512), 8).unwrap();
    assert_eq!(derived.steps, 3);
    assert_eq!(derived.codes, [0, 1, 2, 3, 5, 6, 7]);
}

#[test]
fn case_10_eight_reversed() {
    assert_eq!(steps(night(&[8], &reversed(8), 2, 512)), 4);
    assert_eq!(steps(night(&[8], &reversed(8), 3, 512)), 3);
}

#[test]
fn case_11_pulled_early() {
    let plan = Plan {
        night: night(&[1], &[1], 2, 512),
        steps: 3,
        codes: &[4],
    };
    assert_eq!(check(plan), Err(refused(8, 1, 0)));
}

#[test]
fn case_12_a_car_twice() {
    assert_eq!(
        derive(night(&[2], &[1, 1], 2, 512), 8),
        Err(refused(3, 2, 1))
    );
    assert_eq!(
        refused(3, 2, 1).details(),
        "place 2, met before, first listed at place 1"
    );
    assert_eq!(refused(3, 2, 0).details(), "place 2, out of range");
}

#[test]
fn case_13_a_limit_too_low() {
    assert_eq!(derive(n(1, 512), 2), Err(refused(5, 3, 0)));
}

#[test]
fn case_14_reversed_on_eight_tracks() {
    assert_eq!(
        derive(night(&[257], &reversed(257), 8, 512), 8),
        Err(refused(5, 9, 0))
    );
    assert_eq!(steps(night(&[256], &reversed(256), 8, 512)), 8);
}

#[test]
fn the_card_of_case_1_there_and_back() {
    let bytes = [
        0x12, 0x20, 0x0C, 0x06, 0x02, 0x03, 0x00, 0x60, 0x30, 0x02, 0x02, 0x80, 0x40, 0x20, 0x2D,
        0x80,
    ];
    let card = read_card(&bytes).unwrap();
    assert_eq!(card.inbound, N);
    assert_eq!((card.steps, card.tracks, card.room), (2, 2, 3));
    assert_eq!(card.mark, Mark::Open);
    assert_eq!(write_card(card.plan()).unwrap(), bytes);
    assert_eq!(read_card(&[]), Err(refused(10, 1, 0)));
    assert_eq!(read_card(&bytes[..15]), Err(refused(10, 16, 0)));
}

#[test]
fn a_refusal_in_words() {
    let refusal = derive(n(1, 512), 2).unwrap_err();
    assert_eq!(
        refusal.to_string(),
        "refused 5 3 0: fewest steps above the limit (fewest steps 3)"
    );
    assert_eq!(refused(4, 6, 0).details(), "card");
}

#[test]
fn closed_n_on_two_tracks() {
    let night = closed(n(2, 4));
    let derived = derive(night, 8).unwrap();
    assert_eq!(derived.steps, 3);
    assert_eq!(derived.codes, [1, 1, 2, 2, 3, 5]);
    assert_eq!(derived.passes, 14);
    let checked = Checked {
        passes: 14,
        fullest_pull: 4,
    };
    assert_eq!(check(derived.plan(night)), Ok(checked));
    assert_eq!(derive(night, 2), Err(refused(5, 3, 0)));
    assert_eq!(derive(closed(n(2, 3)), 8), Err(refused(6, 0, 4)));
}

#[test]
fn the_stages_of_closed_n() {
    let plan = Plan {
        night: closed(n(2, 4)),
        steps: 3,
        codes: &[1, 1, 2, 2, 3, 5],
    };
    let first = replay(plan, 0).unwrap();
    assert_eq!(first.cars_on(0), [6, 1, 5, 2]);
    assert_eq!(first.cars_on(1), [3, 4]);
    assert_eq!(first.cars_on(2), []);
    assert_eq!(replay(plan, 1).unwrap().cars_on(2), [1, 2]);
    assert_eq!(replay(plan, 3).unwrap().cars_on(2), [1, 2, 3, 4, 5, 6]);
}

#[test]
fn one_car_closed() {
    let night = closed(night(&[1], &[1], 2, 512));
    let derived = derive(night, 8).unwrap();
    assert_eq!((derived.steps, derived.passes), (1, 2));
    assert_eq!(derived.codes, [1]);
    assert_eq!(derive(night, 0), Err(refused(5, 1, 0)));
}

#[test]
fn reversed_on_eight_tracks_closed() {
    let inbound = reversed(256);
    assert_eq!(
        derive(closed(night(&[256], &inbound, 8, 512)), 8),
        Err(refused(5, 9, 0))
    );
    assert_eq!(steps(closed(night(&[255], &inbound[1..], 8, 512))), 8);
}

/// What check and replay, to every stage, say of a plan where its night is closed.
fn refused_closed(plan: Plan, refusal: Refusal) {
    let night = closed(plan.night);
    let plan = Plan { night, ..plan };
    assert_eq!(check(plan), Err(refusal));
    for stage in 0..=plan.steps {
        assert_eq!(replay(plan, stage), Err(refusal));
    }
}

#[test]
fn a_zero_code_is_refused_where_the_night_is_closed() {
    let derived = Plan {
        night: n(2, 512),
        steps: 2,
        codes: &[0, 0, 1, 1, 2, 3],
    };
    assert!(check(derived).is_ok());
    refused_closed(derived, refused(14, 1, 0));
    let second_train = Plan {
        night: night(&[1, 2], &[1, 2, 3], 2, 512),
        steps: 1,
        codes: &[1, 0, 0],
    };
    assert!(check(second_train).is_ok());
    refused_closed(second_train, refused(14, 2, 0));
    assert_eq!(refused(14, 2, 0).kind(), Kind::ZeroCode);
    assert_eq!(
        refused(14, 2, 0).to_string(),
        "refused 14 2 0: a zero code in a closed night (car 2)"
    );
}

#[test]
fn a_zero_code_comes_after_a_code_too_large_and_before_an_early_pull() {
    let night = night(&[1, 1], &[1, 2], 2, 512);
    let too_large = Plan {
        night,
        steps: 1,
        codes: &[0, 2],
    };
    refused_closed(too_large, refused(7, 2, 0));
    let early = Plan {
        night,
        steps: 3,
        codes: &[4, 0],
    };
    assert_eq!(check(early), Err(refused(8, 1, 0)));
    refused_closed(early, refused(14, 2, 0));
    let early_alone = Plan {
        codes: &[4, 1],
        ..early
    };
    refused_closed(early_alone, refused(8, 1, 0));
}

/// The card of closed night N with room for 4: edition 2, the mark, 3 steps, 2 tracks, room 4, 6 cars, 1 train.
const CLOSED_CARD: [u8; 20] = [
    0x28, 0xC4, 0x00, 0x40, 0x03, 0x00, 0x40, 0x0C, 0x00, 0x30, 0x03, 0x00, 0x04, 0x00, 0xA0, 0x02,
    0x00, 0x21, 0x29, 0x3A,
];

#[test]
fn the_card_of_a_closed_night_there_and_back() {
    let night = closed(n(2, 4));
    let derived = derive(night, STEPS).unwrap();
    assert_eq!(write_card(derived.plan(night)).unwrap(), CLOSED_CARD);
    let card = read_card(&CLOSED_CARD).unwrap();
    assert_eq!(card.mark, Mark::Closed);
    assert_eq!(card.plan(), derived.plan(night));
    for length in 1..7 {
        assert_eq!(read_card(&CLOSED_CARD[..length]), Err(refused(10, 7, 0)));
    }
    assert_eq!(read_card(&CLOSED_CARD[..19]), Err(refused(10, 20, 0)));
    assert_eq!(read_card(&[0x30; 20]), Err(refused(11, 3, 0)));
}

#[test]
fn a_plan_of_edition_1_on_a_card_of_edition_2() {
    let mut bytes = CLOSED_CARD;
    bytes[0] &= !0x08; // the mark
    let wrong = read_card(&bytes).unwrap_err();
    assert_eq!(wrong, refused(17, 0, 0));
    assert_eq!(wrong.kind(), Kind::WrongEdition);
    assert_eq!(
        wrong.to_string(),
        "refused 17 0 0: wrong edition for this plan (the plan belongs on a card of edition 1)"
    );
    bytes[19] |= 1; // a bit of padding
    assert_eq!(read_card(&bytes), Err(refused(12, 20, 0)));
}

#[test]
fn nine_steps() {
    let inbound = reversed(257);
    let night = night(&[257], &inbound, 9, 512);
    let derived = derive(night, STEPS).unwrap();
    assert_eq!((derived.steps, derived.codes[256]), (9, 256));
    assert!(check(derived.plan(night)).is_ok());
    assert_eq!(
        replay(derived.plan(night), 9).unwrap().cars_on(9).len(),
        257
    );
    assert_eq!(derive(night, 8), Err(refused(5, 9, 0)));
    let bytes = write_card(derived.plan(night)).unwrap();
    assert_eq!(bytes[0] >> 4, 2);
    assert_eq!(read_card(&bytes).unwrap().plan(), derived.plan(night));
}

#[test]
fn four_thousand_cars_reversed() {
    let inbound = reversed(4096);
    let night = night(&[4096], &inbound, 16, 4096);
    let derived = derive(night, STEPS).unwrap();
    assert_eq!((derived.steps, derived.passes), (12, 4096 + 6 * 4096));
    assert!(derived.codes.iter().copied().eq(0..4096));
    assert_eq!(check(derived.plan(night)).unwrap().fullest_pull, 2048);
    let narrow = Night { tracks: 1, ..night };
    assert_eq!(derive(narrow, STEPS), Err(refused(5, 4095, 0)));
}

#[test]
fn the_fewest_tracks_of_codes_above_a_byte() {
    for bit in 0..16 {
        assert_eq!(fewest_tracks(1 << bit), bit + 1);
        assert_eq!(fewest_tracks(1 | 1 << bit), bit.max(1));
    }
    assert_eq!(fewest_tracks(u16::MAX), 1);
}

#[test]
fn a_mark_there_and_back() {
    assert_eq!([Mark::Open, Mark::Closed].map(Mark::number), [0, 1]);
    assert_eq!([0, 1].map(Mark::of), [Mark::Open, Mark::Closed]);
    assert_eq!([2, usize::MAX].map(Mark::of), [Mark::Closed; 2]);
}

/// The fewest passes of a night with so many steps, which check counts too, and the codes.
fn fewest(night: Night, steps: usize) -> (usize, Vec<u16>) {
    let found = fewest_passes(night, steps).unwrap();
    assert_eq!(found.steps, steps);
    assert_eq!(check(found.plan(night)).unwrap().passes, found.passes);
    (found.passes, found.codes)
}

/// One train on four tracks of which only cars 4 and 5 come in in order: tests/header.c works it out.
fn pair() -> Night<'static> {
    night(&[6], &[6, 4, 5, 3, 2, 1], 4, 3)
}

#[test]
fn the_fewest_passes_of_n() {
    for steps in 2..=8 {
        let codes = vec![0, 0, 1, 1, 2, 3];
        assert_eq!(fewest(n(2, 512), steps), (11, codes));
    }
    for steps in 3..=8 {
        let codes = vec![1, 1, 2, 2, 3, 5];
        assert_eq!(fewest(closed(n(2, 512)), steps), (14, codes));
    }
}

#[test]
fn fewer_passes_than_the_derived_plan_and_fewer_with_a_step_more() {
    let derived = derive(pair(), 8).unwrap();
    assert_eq!((derived.steps, derived.passes), (3, 13));
    assert_eq!(fewest(pair(), 3), (12, vec![0, 1, 2, 4, 4, 5]));
    for steps in 4..=8 {
        assert_eq!(fewest(pair(), steps), (11, vec![0, 1, 2, 4, 4, 8]));
    }
    assert_eq!(fewest(closed(pair()), 3), (14, vec![1, 2, 3, 4, 4, 5]));
}

#[test]
fn of_as_few_passes_the_list_smallest_at_the_first_differing_car() {
    let five = reversed(5);
    let night = night(&[5], &five, 4, 512);
    // 0 1 2 4 5 has as few.
    assert_eq!(fewest(night, 3), (10, vec![0, 1, 2, 3, 4]));
    // 1 2 4 8 9, with 9 for car 6 alone, has as few.
    assert_eq!(fewest(closed(pair()), 4), (13, vec![1, 2, 3, 4, 4, 8]));
}

#[test]
fn no_codes_of_so_few_steps() {
    for steps in 0..3 {
        assert_eq!(fewest_passes(pair(), steps), Err(refused(5, 3, 0)));
    }
    let inbound = reversed(257);
    let night = night(&[257], &inbound, 8, 512);
    assert_eq!(fewest_passes(night, 8), Err(refused(5, 9, 0)));
}

#[test]
fn room_for_the_found_codes_alone() {
    let night = Night { room: 2, ..pair() };
    assert_eq!(fewest_passes(night, 3), Err(refused(6, 2, 3)));
    assert_eq!(fewest(night, 4).0, 11);
    // The derived plan has more passes, and too little room as well, in another step.
    assert_eq!(derive(night, 8), Err(refused(6, 0, 3)));
}
