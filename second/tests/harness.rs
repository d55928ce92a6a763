//! The harness itself: it passes the idiomatic calls, and finds faults put into them.

use second::answers::{refuse, Answer, CardAnswer, PriceAnswer, Timings};
use second::big_nights::{big_nights, counts_on_cards, edition_corners};
use second::cards::{self, pack};
use second::counts::{FIRST, MOST};
use second::idiomatic::Idiomatic;
use second::random::Random;
use second::reference::test_counts;
use second::steps::breaks_before;
use second::tally::Tally;
use second::trials::{
    paper_nights, small_nights, table_trial, trial, tried_nights, zero_codes, Bench, Nights,
};
use second::{Calls, Mark, Night, Plan};
use std::iter::repeat_n;

const SEED: u64 = 7;
const TRIALS: u64 = 4000;

/// Runs trials until a difference is found.
fn run<C: Calls>(tally: &mut Tally) -> Result<(), String> {
    table_trial::<C>(tally)?;
    for number in 0..TRIALS {
        let mut random = Random::new(SEED, number);
        let mut bench = Bench {
            random: &mut random,
            tally: &mut *tally,
        };
        trial::<C>(&mut bench)?;
    }
    Ok(())
}

/// The cards at the edges of the editions, and the biggest nights.
fn run_big<C: Calls>(tally: &mut Tally) -> Result<(), String> {
    edition_corners::<C>(tally)?;
    counts_on_cards::<C>(tally)?;
    big_nights::<C>(tally)
}

/// The fewest passes of a few cars in up to three steps, with every list tried.
fn try_lists<C: Calls>(tally: &mut Tally) -> Result<(), String> {
    for cars in 1..=3 {
        tried_nights::<C>(tally, &Nights::of(cars), 3)?;
    }
    tried_nights::<C>(tally, &Nights::in_blocks(5), 3)
}

#[test]
fn idiomatic_calls_answer_as_the_reference_does() {
    let mut tally = Tally::default();
    assert_eq!(run::<Idiomatic>(&mut tally), Ok(()));
    assert_eq!(small_nights::<Idiomatic>(&mut tally, 3), Ok(()));
    assert_eq!(paper_nights::<Idiomatic>(&mut tally), Ok(()));
    assert_eq!(zero_codes::<Idiomatic>(&mut tally), Ok(()));
    assert_eq!(run_big::<Idiomatic>(&mut tally), Ok(()));
    assert_eq!(try_lists::<Idiomatic>(&mut tally), Ok(()));
    assert!(tally.total() > 6 * TRIALS);
}

const LAST_CODE_KEPT: usize = 0;
const ONE_CODE_MORE: usize = 1;
const BREAKS_BETWEEN_TRAINS: usize = 2;
const ONE_PASS_MORE: usize = 3;
const ROOM_BEFORE_EARLY: usize = 4;
const ORDER_NOT_TESTED: usize = 5;
const TURNED_ROUND: usize = 6;
const REFUSED_AND_WRITTEN: usize = 7;
const PADDING_NOT_READ: usize = 8;
const COUNTS_WHEN_REFUSED: usize = 9;
const ONE_BYTE_MORE: usize = 10;
const NEGATIVE_ZERO: usize = 11;
const WRONG_ENTRY: usize = 12;
const LENGTH_IN_16_BITS: usize = 13;
const LATER_LISTING: usize = 14;
const OUT_OF_RANGE_LISTED: usize = 15;
const OPEN_PLAN_DERIVED: usize = 16;
const STEPS_OF_OPEN: usize = 17;
const ZERO_CODE_ACCEPTED: usize = 18;
const ZERO_CODE_NEVER_ACCEPTED: usize = 19;
const LAST_ZERO_CODE: usize = 20;
const ZERO_CODE_FIRST_IN: usize = 21;
const ZERO_BEFORE_TOO_LARGE: usize = 22;
const EARLY_BEFORE_ZERO: usize = 23;
const ROOM_BEFORE_ZERO: usize = 24;
const ORDER_BEFORE_ZERO: usize = 25;
const ZERO_CODE_REPLAYED: usize = 26;
const CARD_TAKEN_FOR_CLOSED: usize = 27;
const MARK_WHEN_REFUSED: usize = 28;
const LARGER_AMONG_EQUALS: usize = 29;
const DERIVED_CODES: usize = 30;
const BLOCKS_FOR_CARS: usize = 31;
const ONE_TRAIN_OF_ALL: usize = 32;
const OPEN_CODES_FOUND: usize = 33;
const STEPS_AS_LIMIT: usize = 34;
const NO_ROOM_SAID_AS_NO_CODES: usize = 35;
const OTHER_CODES_WITH_ROOM: usize = 36;
const LAST_OVERFULL_STEP: usize = 37;
const ONE_STEP_MORE_NEEDED: usize = 38;
const STEPS_BEFORE_BUFFER: usize = 39;
const ROOM_BEFORE_STEPS: usize = 40;
const FOUND_AND_REFUSED: usize = 41;
const ONE_FOUND_CODE_MORE: usize = 42;
const ONE_PASS_FEWER: usize = 43;
const SMALL_CLOSED_ON_EDITION_1: usize = 44;
const EDITION_2_FOR_ALL: usize = 45;
const WRONG_EDITION_READ: usize = 46;
const WRONG_EDITION_BEFORE_END: usize = 47;
const CLOSED_READ_AS_OPEN: usize = 48;
const EDITION_1_BEYOND_ITS_RANGES: usize = 49;
const FOUND_BEYOND_FIRST_RANGES: usize = 50;
const SORTED_BY_EIGHT_BITS: usize = 51;
const NO_MORE_THAN_EIGHT_STEPS: usize = 52;
const NO_MORE_THAN_SEVENTEEN_STEPS_TOLD: usize = 53;
const PRICE_IN_32_BITS: usize = 54;
const TRACKS_OF_THE_LOW_BYTE: usize = 55;
const PASSES_IN_16_BITS: usize = 56;

/// The idiomatic calls with one fault.
struct Faulty<const FAULT: usize>;

impl<const FAULT: usize> Calls for Faulty<FAULT> {
    const NAME: &'static str = "faulty";
    type Told = Answer;
    type CardTold = CardAnswer;

    fn derive(night: Night, limit: usize, codes: &mut [u16]) -> Answer {
        let cars = night.inbound.len();
        let before = codes.to_vec();
        let whole = [cars as u16];
        let night = match FAULT {
            // One train of all cars, as if breaks between trains counted.
            BREAKS_BETWEEN_TRAINS if night.lengths.len() == 2 => Night {
                lengths: &whole,
                ..night
            },
            LENGTH_IN_16_BITS => Night {
                inbound: &night.inbound[..cars % 65536],
                ..night
            },
            OPEN_PLAN_DERIVED => Night {
                mark: Mark::Open,
                ..night
            },
            _ => night,
        };
        let mut answer = Idiomatic::derive(night, limit, codes);
        match FAULT {
            NO_MORE_THAN_EIGHT_STEPS if limit > 8 && answer.number == 0 && answer.a > 8 => {
                return refuse(5, answer.a).into();
            }
            NO_MORE_THAN_SEVENTEEN_STEPS_TOLD if answer.number == 5 => answer.a = answer.a.min(17),
            STEPS_OF_OPEN if answer.number == 5 => {
                answer.a -= usize::from(night.mark == Mark::Closed);
            }
            LAST_CODE_KEPT if answer.number == 0 => codes[cars - 1] = before[cars - 1],
            ONE_CODE_MORE if codes.len() > cars => codes[cars] = 0,
            _ => (),
        }
        answer
    }

    fn fewest_passes(night: Night, steps: usize, codes: &mut [u16]) -> Answer {
        match FAULT {
            LARGER_AMONG_EQUALS => larger_among_equals(night, steps, codes),
            BLOCKS_FOR_CARS => blocks_for_cars(night, steps, codes),
            _ => other_codes::<FAULT>(night, steps, codes),
        }
    }

    fn check(plan: Plan) -> Answer {
        let mut answer = check_zero_codes::<FAULT>(plan);
        match (FAULT, answer.number) {
            (ONE_PASS_MORE, 0) => answer.a += 1,
            (PASSES_IN_16_BITS, 0) => answer.a %= 65_536,
            (ROOM_BEFORE_EARLY, 8) => {
                let room = plan.night.room;
                let pulled = |step: usize| {
                    let set = |code: &&u16| **code >> step & 1 == 1;
                    plan.codes.iter().filter(set).count()
                };
                if let Some(step) = (0..plan.steps).find(|&step| pulled(step) > room) {
                    answer = Answer {
                        number: 6,
                        a: step,
                        b: pulled(step),
                    };
                }
            }
            (LATER_LISTING, 3) if answer.b > 0 => answer.b = answer.a,
            (OUT_OF_RANGE_LISTED, 3) if answer.b == 0 => answer.b = answer.a,
            (ORDER_NOT_TESTED, 9) => answer = Answer::done(plan.codes.len(), 0),
            _ => (),
        }
        answer
    }

    fn replay(plan: Plan, stage: usize, on: &mut [u16], at: &mut [u16]) -> Answer {
        let answer = Idiomatic::replay(plan, stage, on, at);
        let cars = plan.codes.len();
        match (FAULT, answer.number) {
            (TURNED_ROUND, 0) => {
                for car in 0..cars {
                    let same_track = |other: &&u16| **other == on[car];
                    let others = on[..cars].iter().filter(same_track).count() as u16;
                    at[car] = others - 1 - at[car];
                }
            }
            (REFUSED_AND_WRITTEN, 6) => at[0] = at[0].wrapping_add(1),
            (ZERO_CODE_REPLAYED, 14) => {
                return Idiomatic::replay(plan.opened(), stage, on, at);
            }
            (SORTED_BY_EIGHT_BITS, 0) if stage > 8 => stand_by_eight_bits(plan, on, at),
            _ => (),
        }
        answer
    }

    fn read(
        card: &[u8],
        lengths: &mut [u16],
        inbound: &mut [u16],
        codes: &mut [u16],
    ) -> CardAnswer {
        let mut answer = Idiomatic::read(card, lengths, inbound, codes);
        match (FAULT, answer.number) {
            (PADDING_NOT_READ, 12) => {
                answer = Idiomatic::read(&card[..answer.a], lengths, inbound, codes)
            }
            (COUNTS_WHEN_REFUSED, 12) => answer.steps = usize::from(card[0] % 16),
            (CARD_TAKEN_FOR_CLOSED, 0) | (MARK_WHEN_REFUSED, 12) => answer.mark = 1,
            (CLOSED_READ_AS_OPEN, 0) => answer.mark = 0,
            (WRONG_EDITION_READ, 17) => {
                // Closed, the same card is of the right edition.
                let closed = [&[card[0] | 8], &card[1..]].concat();
                answer = Idiomatic::read(&closed, lengths, inbound, codes);
                answer.mark = 0;
            }
            (WRONG_EDITION_BEFORE_END, 12) => {
                let cut = Idiomatic::read(&card[..answer.a], lengths, inbound, codes);
                answer = if cut.number == 17 { cut } else { answer };
            }
            (EDITION_1_BEYOND_ITS_RANGES, 1) if card[0] / 16 == 1 => {
                answer = CardAnswer::from(refuse(10, 5))
            }
            _ => (),
        }
        answer
    }

    fn write(plan: Plan, card: &mut [u8]) -> Answer {
        let answer = Idiomatic::write(plan, card);
        if answer.number != 0 {
            return answer;
        }
        match FAULT {
            ONE_BYTE_MORE if card.len() > answer.a => card[answer.a] = 0,
            SMALL_CLOSED_ON_EDITION_1 => {
                let fits = test_counts(plan.night.counts(plan.steps), FIRST).is_ok();
                if fits {
                    return Idiomatic::write(plan.opened(), card);
                }
            }
            EDITION_2_FOR_ALL => {
                let bytes = pack(&cards::SECOND, plan);
                if let Some(part) = card.get_mut(..bytes.len()) {
                    part.copy_from_slice(&bytes);
                    return Answer::done(bytes.len(), 0);
                }
            }
            _ => (),
        }
        answer
    }

    fn price(steps: usize, passes: usize, timings: Timings) -> PriceAnswer {
        let mut answer = Idiomatic::price(steps, passes, timings);
        if FAULT == NEGATIVE_ZERO && answer.number == 13 {
            answer.price = -0.0;
        }
        if FAULT == PRICE_IN_32_BITS && answer.number == 0 {
            answer.price = f64::from((answer.price * 16.0) as u64 as u32) / 16.0;
        }
        answer
    }

    fn fewest_tracks(code: u16) -> usize {
        let is_wrong = FAULT == WRONG_ENTRY && code == 128;
        let code = match FAULT {
            TRACKS_OF_THE_LOW_BYTE => code % 256,
            _ => code,
        };
        Idiomatic::fewest_tracks(code) - usize::from(is_wrong)
    }
}

/// Places as if the cars stood by the lowest eight bits of their codes, then as they came in.
fn stand_by_eight_bits(plan: Plan, on: &[u16], at: &mut [u16]) {
    let mut order = plan.night.inbound.to_vec();
    order.sort_by_key(|&car| plan.codes[usize::from(car) - 1] % 256);
    let mut standing = vec![0; MOST.tracks + MOST.trains];
    for car in order {
        let car = usize::from(car) - 1;
        let end = &mut standing[usize::from(on[car])];
        at[car] = *end;
        *end += 1;
    }
}

/// The idiomatic check with a fault in what it says of zero codes in closed nights.
fn check_zero_codes<const FAULT: usize>(plan: Plan) -> Answer {
    let open = Idiomatic::check(plan.opened());
    let mut answer = Idiomatic::check(plan);
    let is_zero = |&code: &u16| code == 0;
    let first_zero = plan.codes.iter().position(is_zero);
    match (FAULT, answer.number) {
        (ZERO_CODE_ACCEPTED, 14) => answer = open,
        (EARLY_BEFORE_ZERO, 14) if open.number == 8 => answer = open,
        (ROOM_BEFORE_ZERO, 14) if open.number == 6 => answer = open,
        (ORDER_BEFORE_ZERO, 14) if open.number == 9 => answer = open,
        (ZERO_CODE_NEVER_ACCEPTED, 0) | (ZERO_BEFORE_TOO_LARGE, 7) => {
            let refused = first_zero.map(|place| Answer::from(refuse(14, place + 1)));
            answer = refused.unwrap_or(answer);
        }
        (LAST_ZERO_CODE, 14) => {
            let last = plan.codes.iter().rposition(is_zero);
            answer.a = last.map_or(0, |place| place + 1);
        }
        (ZERO_CODE_FIRST_IN, 14) => {
            let is_zero = |&&car: &&u16| plan.codes[usize::from(car) - 1] == 0;
            answer.a = plan
                .night
                .inbound
                .iter()
                .find(is_zero)
                .map_or(0, |&car| car.into());
        }
        _ => (),
    }
    answer
}

/// The codes with the fewest passes of another night, or those that `found_fault` and `refused_fault` make of them.
fn other_codes<const FAULT: usize>(night: Night, steps: usize, codes: &mut [u16]) -> Answer {
    let whole = [night.inbound.len() as u16];
    let asked = match FAULT {
        ONE_TRAIN_OF_ALL if night.lengths.len() == 2 => Night {
            lengths: &whole,
            ..night
        },
        OPEN_CODES_FOUND => Night {
            mark: Mark::Open,
            ..night
        },
        _ => night,
    };
    let answer = Idiomatic::fewest_passes(asked, steps, codes);
    match answer.number {
        1 if FAULT == FOUND_BEYOND_FIRST_RANGES => Idiomatic::derive(night, steps, codes),
        0 => found_fault::<FAULT>(night, steps, codes, answer),
        _ => refused_fault::<FAULT>(night, steps, codes, answer),
    }
}

fn found_fault<const FAULT: usize>(
    night: Night,
    steps: usize,
    codes: &mut [u16],
    mut answer: Answer,
) -> Answer {
    let cars = night.inbound.len();
    match FAULT {
        DERIVED_CODES => answer.b = Idiomatic::derive(ample(night), steps, codes).b,
        STEPS_AS_LIMIT => {
            let mut found = vec![0; cars];
            let told = |fewer| Idiomatic::fewest_passes(night, fewer, &mut found);
            let as_few = |other: &Answer| (other.number, other.b) == (0, answer.b);
            answer = (0..=steps).map(told).find(as_few).unwrap_or(answer);
        }
        ONE_FOUND_CODE_MORE if codes.len() > cars => codes[cars] = 0,
        ONE_PASS_FEWER => answer.b -= 1,
        _ => (),
    }
    answer
}

fn refused_fault<const FAULT: usize>(
    night: Night,
    steps: usize,
    codes: &mut [u16],
    answer: Answer,
) -> Answer {
    let mut ample_codes = vec![0; night.inbound.len()];
    // What is told in its place, if it has this number.
    let (other, number) = match (FAULT, answer.number) {
        (NO_ROOM_SAID_AS_NO_CODES, 6) | (ONE_STEP_MORE_NEEDED, 5) => {
            (refuse(5, steps + 1).into(), 5)
        }
        (LAST_OVERFULL_STEP, 6) => (last_overfull(night, steps, answer), 6),
        (STEPS_BEFORE_BUFFER, 4) => {
            let told = Idiomatic::fewest_passes(night, steps, &mut ample_codes);
            (told, 5)
        }
        (ROOM_BEFORE_STEPS, 5) => (Idiomatic::derive(night, 8, &mut ample_codes), 6),
        (OTHER_CODES_WITH_ROOM, 6) => {
            let derived = Idiomatic::derive(night, steps, codes);
            (
                Answer {
                    a: steps,
                    ..derived
                },
                0,
            )
        }
        (FOUND_AND_REFUSED, 6) => {
            Idiomatic::fewest_passes(ample(night), steps, codes);
            (answer, 6)
        }
        _ => (answer, answer.number),
    };
    match other.number == number {
        true => other,
        false => answer,
    }
}

/// The same night with room for all cars.
fn ample(night: Night) -> Night {
    Night { room: 512, ..night }
}

fn last_overfull(night: Night, steps: usize, answer: Answer) -> Answer {
    let mut codes = vec![0; night.inbound.len()];
    Idiomatic::fewest_passes(ample(night), steps, &mut codes);
    let pulled = |step: usize| codes.iter().filter(|&code| code >> step & 1 == 1).count();
    let last = (0..steps).rfind(|&step| pulled(step) > night.room);
    last.map_or(answer, |a| Answer {
        a,
        b: pulled(a),
        ..answer
    })
}

/// The found codes, or, in short nights, a list with a greater code for one car, if check accepts it with as many
/// passes.
fn larger_among_equals(night: Night, steps: usize, codes: &mut [u16]) -> Answer {
    let answer = Idiomatic::fewest_passes(night, steps, codes);
    let cars = night.inbound.len();
    if answer.number != 0 || cars > 8 {
        return answer;
    }
    let mut larger = codes[..cars].to_vec();
    for car in 0..cars {
        for code in codes[car] + 1..1 << steps {
            larger[car] = code;
            if checked(night, steps, &larger) == Some(answer.b) {
                codes[car] = code;
                return answer;
            }
        }
        larger[car] = codes[car];
    }
    answer
}

/// The passes of codes that check accepts.
fn checked(night: Night, steps: usize, codes: &[u16]) -> Option<usize> {
    let told = Idiomatic::check(Plan {
        night,
        steps,
        codes,
    });
    (told.number == 0).then_some(told.a)
}

/// The codes with the fewest passes of a night in which the cars between two breaks are one car: as if a block of many
/// cars cost no more than one of few.
fn blocks_for_cars(night: Night, steps: usize, codes: &mut [u16]) -> Answer {
    let answer = Idiomatic::fewest_passes(night, steps, codes);
    if answer.number != 0 {
        return answer;
    }
    let breaks = breaks_before(night);
    let mut rest = &breaks[..];
    let (mut blocks, mut trains) = (Vec::new(), Vec::new());
    for &length in night.lengths {
        let (train, later) = rest.split_at(usize::from(length));
        blocks.extend(train.chunk_by(|one, next| one == next).map(<[usize]>::len));
        trains.push(train[train.len() - 1] as u16 + 1);
        rest = later;
    }
    let of_blocks = Night {
        lengths: &trains,
        inbound: &(1..=blocks.len() as u16).rev().collect::<Vec<u16>>(),
        ..ample(night)
    };
    let mut found = vec![0; blocks.len()];
    Idiomatic::fewest_passes(of_blocks, steps, &mut found);
    let of_cars = found
        .iter()
        .zip(blocks)
        .flat_map(|(&code, cars)| repeat_n(code, cars));
    let of_cars: Vec<u16> = of_cars.collect();
    codes[..of_cars.len()].copy_from_slice(&of_cars);
    let passes = checked(ample(night), steps, &of_cars);
    Answer::done(steps, passes.unwrap_or(0))
}

fn is_found<const FAULT: usize>() {
    let found = run::<Faulty<FAULT>>(&mut Tally::default());
    assert!(found.is_err(), "fault {FAULT} is not found");
}

/// By the trials, and by trying every list as well.
fn is_found_twice<const FAULT: usize>() {
    is_found::<FAULT>();
    let found = try_lists::<Faulty<FAULT>>(&mut Tally::default());
    assert!(found.is_err(), "fault {FAULT} is not found by trying");
}

#[test]
fn faults_of_derive_are_found() {
    is_found::<LAST_CODE_KEPT>();
    is_found::<ONE_CODE_MORE>();
    is_found::<BREAKS_BETWEEN_TRAINS>();
    is_found::<LENGTH_IN_16_BITS>();
    is_found::<OPEN_PLAN_DERIVED>();
    is_found::<STEPS_OF_OPEN>();
}

#[test]
fn faults_in_the_fewest_passes_are_found() {
    is_found_twice::<LARGER_AMONG_EQUALS>();
    is_found_twice::<DERIVED_CODES>();
    is_found_twice::<BLOCKS_FOR_CARS>();
    is_found_twice::<ONE_TRAIN_OF_ALL>();
    is_found_twice::<OPEN_CODES_FOUND>();
    is_found_twice::<STEPS_AS_LIMIT>();
    is_found_twice::<ONE_PASS_FEWER>();
}

#[test]
fn faults_in_refusing_the_fewest_passes_are_found() {
    is_found_twice::<NO_ROOM_SAID_AS_NO_CODES>();
    is_found_twice::<LAST_OVERFULL_STEP>();
    is_found_twice::<ONE_STEP_MORE_NEEDED>();
    is_found_twice::<ROOM_BEFORE_STEPS>();
    is_found_twice::<FOUND_AND_REFUSED>();
    is_found::<OTHER_CODES_WITH_ROOM>();
    is_found::<STEPS_BEFORE_BUFFER>();
    is_found::<ONE_FOUND_CODE_MORE>();
}

#[test]
fn faults_of_check_and_replay_are_found() {
    is_found::<ONE_PASS_MORE>();
    is_found::<ROOM_BEFORE_EARLY>();
    is_found::<ORDER_NOT_TESTED>();
    is_found::<LATER_LISTING>();
    is_found::<OUT_OF_RANGE_LISTED>();
    is_found::<TURNED_ROUND>();
    is_found::<REFUSED_AND_WRITTEN>();
}

#[test]
fn faults_of_zero_codes_are_found() {
    is_found::<ZERO_CODE_ACCEPTED>();
    is_found::<ZERO_CODE_NEVER_ACCEPTED>();
    is_found::<LAST_ZERO_CODE>();
    is_found::<ZERO_CODE_FIRST_IN>();
    is_found::<ZERO_BEFORE_TOO_LARGE>();
    is_found::<EARLY_BEFORE_ZERO>();
    is_found::<ROOM_BEFORE_ZERO>();
    is_found::<ORDER_BEFORE_ZERO>();
    is_found::<ZERO_CODE_REPLAYED>();
}

#[test]
fn faults_of_cards_prices_and_the_table_are_found() {
    is_found::<PADDING_NOT_READ>();
    is_found::<COUNTS_WHEN_REFUSED>();
    is_found::<CARD_TAKEN_FOR_CLOSED>();
    is_found::<MARK_WHEN_REFUSED>();
    is_found::<ONE_BYTE_MORE>();
    is_found::<NEGATIVE_ZERO>();
    is_found::<WRONG_ENTRY>();
    is_found::<PRICE_IN_32_BITS>();
    is_found::<TRACKS_OF_THE_LOW_BYTE>();
}

#[test]
fn faults_of_bigger_nights_are_found() {
    is_found::<FOUND_BEYOND_FIRST_RANGES>();
    is_found::<SORTED_BY_EIGHT_BITS>();
    is_found::<NO_MORE_THAN_EIGHT_STEPS>();
    is_found::<NO_MORE_THAN_SEVENTEEN_STEPS_TOLD>();
    let found = run_big::<Faulty<PASSES_IN_16_BITS>>(&mut Tally::default());
    assert!(found.is_err(), "passes in 16 bits are not found");
}

#[test]
fn faults_of_the_editions_are_found() {
    is_found::<SMALL_CLOSED_ON_EDITION_1>();
    is_found::<EDITION_2_FOR_ALL>();
    is_found::<WRONG_EDITION_READ>();
    is_found::<WRONG_EDITION_BEFORE_END>();
    is_found::<CLOSED_READ_AS_OPEN>();
    is_found::<EDITION_1_BEYOND_ITS_RANGES>();
}
