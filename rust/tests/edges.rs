//! Inputs at the ends of what the types hold: none of them stops a call.

use altairpeg::{check, derive, fewest_passes, price, read_card, replay, write_card};
use altairpeg::{Kind, Mark, Night, Plan, Refusal, Timings};
use altairpeg::{CARD_BYTES, CARS, PASSES, ROOM, STEPS, TRACKS, TRAINS};
use altairpeg::{
    FIRST_CARD_BYTES, FIRST_CARS, FIRST_ROOM, FIRST_STEPS, FIRST_TRACKS, FIRST_TRAINS,
};

const NIGHT: Night = Night {
    lengths: &[2],
    inbound: &[2, 1],
    tracks: 2,
    room: 2,
    mark: Mark::Open,
};
const PLAN: Plan = Plan {
    night: NIGHT,
    steps: 1,
    codes: &[0, 1],
};
const MARKS: [Mark; 2] = [Mark::Open, Mark::Closed];
const TIMINGS: Timings = Timings {
    pull: 0.0,
    push: 4096.0,
};

fn refused(number: usize, a: usize) -> Refusal {
    Refusal { number, a, b: 0 }
}

/// What every call that takes a plan says of it, which must be the same, open or closed.
fn all_refuse(plan: Plan, number: usize, a: usize) {
    for mark in MARKS {
        let night = Night { mark, ..plan.night };
        let plan = Plan { night, ..plan };
        assert_eq!(check(plan), Err(refused(number, a)));
        assert_eq!(replay(plan, 0), Err(refused(number, a)));
        assert_eq!(write_card(plan), Err(refused(number, a)));
    }
}

/// What the calls that find codes for a night say of it, which must be the same, open or closed.
fn derive_refuses(night: Night, steps: usize, number: usize, a: usize) {
    for mark in MARKS {
        let night = Night { mark, ..night };
        assert_eq!(derive(night, steps), Err(refused(number, a)));
        assert_eq!(fewest_passes(night, steps), Err(refused(number, a)));
    }
}

/// What the calls that take a night, alone or in a plan, say of it.
fn all_refuse_night(night: Night, number: usize, a: usize) {
    derive_refuses(night, FIRST_STEPS, number, a);
    all_refuse(Plan { night, ..PLAN }, number, a);
}

#[test]
fn counts_of_every_size() {
    for count in [0, TRACKS + 1, 1 << 16, (1 << 32) + 2, usize::MAX] {
        all_refuse_night(
            Night {
                tracks: count,
                ..NIGHT
            },
            1,
            3,
        );
    }
    for count in [0, ROOM + 1, 1 << 16, (1 << 32) + 2, usize::MAX] {
        all_refuse_night(
            Night {
                room: count,
                ..NIGHT
            },
            1,
            4,
        );
    }
    for count in [STEPS + 1, 1 << 16, (1 << 32) + 1, usize::MAX] {
        all_refuse(
            Plan {
                steps: count,
                ..PLAN
            },
            1,
            5,
        );
        derive_refuses(NIGHT, count, 1, 5);
        assert_eq!(replay(PLAN, count), Err(refused(1, 6)));
        assert_eq!(price(count, 0, TIMINGS), Err(refused(1, 5)));
    }
    for count in [PASSES + 1, 1 << 17, (1 << 32) + 1, usize::MAX] {
        assert_eq!(price(0, count, TIMINGS), Err(refused(1, 7)));
    }
}

#[test]
fn empty_lists() {
    all_refuse_night(
        Night {
            inbound: &[],
            ..NIGHT
        },
        1,
        1,
    );
    all_refuse_night(
        Night {
            lengths: &[],
            ..NIGHT
        },
        1,
        2,
    );
    all_refuse(Plan { codes: &[], ..PLAN }, 4, 3);
    assert_eq!(read_card(&[]), Err(refused(10, 1)));
}

#[test]
fn lists_that_are_too_long() {
    let cars: Vec<u16> = (1..=u16::MAX).collect();
    let ones = vec![1; usize::from(u16::MAX)];
    for length in [CARS + 1, cars.len()] {
        all_refuse_night(
            Night {
                inbound: &cars[..length],
                ..NIGHT
            },
            1,
            1,
        );
    }
    for length in [TRAINS + 1, ones.len()] {
        all_refuse_night(
            Night {
                lengths: &ones[..length],
                ..NIGHT
            },
            1,
            2,
        );
    }
    all_refuse(
        Plan {
            codes: &ones,
            ..PLAN
        },
        4,
        3,
    );
    let mut bytes = write_card(PLAN).unwrap();
    let length = bytes.len();
    bytes.resize(1 << 20, 0);
    assert_eq!(read_card(&bytes), Err(refused(12, length)));
}

/// The cars of a night in the order of their trains.
fn in_order(cars: usize) -> Vec<u16> {
    (1..=cars as u16).collect()
}

/// A night whose cars come in in order, and the same night closed, each with its fewest steps.
fn open_and_closed(night: Night) -> [(Night, usize); 2] {
    let closed = Night {
        mark: Mark::Closed,
        ..night
    };
    [(night, 0), (closed, 1)]
}

/// What is derived of a night whose cars come in in order, and written on its card and read.
fn all_the_same_code(night: Night, steps: usize) {
    let cars = night.inbound.len();
    let derived = derive(night, steps).unwrap();
    assert_eq!((derived.steps, derived.passes), (steps, (steps + 1) * cars));
    assert_eq!(derived.codes, vec![steps as u16; cars]);
    assert!(check(derived.plan(night)).is_ok());
    let bytes = write_card(derived.plan(night)).unwrap();
    assert_eq!(read_card(&bytes).unwrap().plan(), derived.plan(night));
}

#[test]
fn the_largest_night() {
    let cars = in_order(CARS);
    let night = Night {
        lengths: &[(CARS / TRAINS) as u16; TRAINS],
        inbound: &cars,
        tracks: TRACKS,
        room: ROOM,
        mark: Mark::Open,
    };
    for (night, steps) in open_and_closed(night) {
        all_the_same_code(night, steps);
        assert_eq!(fewest_passes(night, steps), Err(refused(1, 1)));
    }
}

#[test]
fn the_largest_night_of_edition_1_and_of_the_fewest_passes() {
    let cars = in_order(FIRST_CARS);
    let night = Night {
        lengths: &[(FIRST_CARS / FIRST_TRAINS) as u16; FIRST_TRAINS],
        inbound: &cars,
        tracks: FIRST_TRACKS,
        room: FIRST_ROOM,
        mark: Mark::Open,
    };
    for (night, steps) in open_and_closed(night) {
        all_the_same_code(night, steps);
        let derived = derive(night, steps).unwrap();
        assert_eq!(fewest_passes(night, steps).unwrap(), derived);
        let most = fewest_passes(night, FIRST_STEPS).unwrap();
        assert_eq!((most.steps, most.passes), (FIRST_STEPS, derived.passes));
        assert_eq!(most.codes, derived.codes);
        assert_eq!(fewest_passes(night, FIRST_STEPS + 1), Err(refused(1, 5)));
    }
}

/// The card of an open night with all its steps, in each of which every car is pulled.
fn fullest_card(lengths: &[u16], inbound: &[u16], steps: usize, room: usize) -> Vec<u8> {
    let night = Night {
        lengths,
        inbound,
        tracks: steps,
        room,
        mark: Mark::Open,
    };
    let codes = &vec![u16::MAX >> (STEPS - steps); inbound.len()];
    let plan = Plan {
        night,
        steps,
        codes,
    };
    let bytes = write_card(plan).unwrap();
    assert_eq!(read_card(&bytes).unwrap().plan(), plan);
    bytes
}

#[test]
fn the_longest_cards() {
    let cars = in_order(CARS);
    let first = fullest_card(
        &[8; FIRST_TRAINS],
        &cars[..FIRST_CARS],
        FIRST_STEPS,
        FIRST_ROOM,
    );
    assert_eq!((first.len(), first[0] >> 4), (FIRST_CARD_BYTES, 1));
    let second = fullest_card(&[16; TRAINS], &cars, STEPS, ROOM);
    assert_eq!((second.len(), second[0] >> 4), (CARD_BYTES, 2));
}

#[test]
fn the_fewest_passes_keep_the_first_limits() {
    let refuses = |night, steps, a| assert_eq!(fewest_passes(night, steps), Err(refused(1, a)));
    let (cars, ones) = (in_order(FIRST_CARS + 1), [1; FIRST_TRAINS + 1]);
    let tracks = FIRST_TRACKS + 1;
    let room = FIRST_ROOM + 1;
    refuses(
        Night {
            lengths: &[FIRST_CARS as u16 + 1],
            inbound: &cars,
            ..NIGHT
        },
        1,
        1,
    );
    refuses(
        Night {
            lengths: &ones,
            inbound: &cars[..ones.len()],
            ..NIGHT
        },
        1,
        2,
    );
    refuses(Night { tracks, ..NIGHT }, 1, 3);
    refuses(Night { room, ..NIGHT }, 1, 4);
    refuses(NIGHT, FIRST_STEPS + 1, 5);
}

#[test]
fn items_of_every_size() {
    all_refuse_night(
        Night {
            inbound: &[1, u16::MAX],
            ..NIGHT
        },
        3,
        2,
    );
    all_refuse_night(
        Night {
            inbound: &[0, 1],
            ..NIGHT
        },
        3,
        1,
    );
    all_refuse_night(
        Night {
            lengths: &[u16::MAX],
            ..NIGHT
        },
        2,
        0,
    );
    all_refuse_night(
        Night {
            lengths: &[2, 0],
            ..NIGHT
        },
        2,
        2,
    );
    all_refuse(
        Plan {
            codes: &[0, u16::MAX],
            ..PLAN
        },
        7,
        2,
    );
}

#[test]
fn timings_that_are_none() {
    for pull in [f64::NAN, f64::INFINITY, -0.0, -1.0, 4096.5, 0.03] {
        assert_eq!(
            price(1, 1, Timings { pull, ..TIMINGS }),
            Err(refused(13, 1))
        );
        assert_eq!(
            price(
                1,
                1,
                Timings {
                    push: pull,
                    ..TIMINGS
                }
            ),
            Err(refused(13, 2))
        );
    }
    assert_eq!(price(STEPS, PASSES, TIMINGS), Ok(69632.0 * 4096.0));
}

#[test]
fn a_number_and_a_detail_that_the_paper_does_not_have() {
    let later = Refusal {
        number: usize::MAX,
        a: 1,
        b: 2,
    };
    assert_eq!(later.kind(), Kind::Unknown);
    assert_eq!(later.words(), "a number the paper does not have");
    assert_eq!(later.details(), "A 1, B 2");
    assert_eq!(refused(1, usize::MAX).kind(), Kind::CountOutOfRange);
    assert_eq!(
        refused(13, 3).to_string(),
        "refused 13 3 0: a timing not allowed (A 3, B 0)"
    );
}
