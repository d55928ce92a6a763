//! The reference for each call: the tests in the paper's order, then the work car by car.

use crate::answers::{refuse, Answer, CardAnswer, PriceAnswer, Refusal, Timings};
use crate::cards::Card;
use crate::counts::{Counts, FIRST, MOST, MOST_PASSES};
use crate::steps::{breaks_before, codes_for, fewest_steps, two_to};
use crate::yard::{first_out_of_order, place_of, Replay, Yard};
use crate::{Night, Plan};

/// What an accepted derive or search for the fewest passes answers and writes.
#[derive(Clone, Debug, PartialEq, Eq)]
pub struct Derived {
    pub steps: usize,
    pub passes: usize,
    pub codes: Vec<u16>,
}

/// What an accepted check answers.
#[derive(Clone, Copy, Debug, PartialEq, Eq)]
pub struct Checked {
    pub passes: usize,
    pub fullest: usize,
}

/// What an accepted replay to a stage answers and writes, in car order.
#[derive(Clone, Debug, PartialEq, Eq)]
pub struct Staged {
    pub passes: usize,
    pub on: Vec<u16>,
    pub at: Vec<u16>,
}

pub fn derive(night: Night, limit: usize, codes_len: usize) -> Result<Derived, Refusal> {
    test_night(night, limit)?;
    test_buffer(codes_len, night.inbound.len(), 3)?;
    let breaks = breaks_before(night);
    let steps = steps_needed(night, &breaks);
    if steps > limit {
        return Err(refuse(5, steps));
    }
    let codes = codes_for(night.mark, &breaks, night.tracks, steps);
    with_room(night, steps, codes)
}

/// The codes come from a search that is given the night and the steps, and may find that there are none.
pub fn fewest_passes(
    night: Night,
    steps: usize,
    codes_len: usize,
    search: impl Fn(Night, usize) -> Option<Vec<u16>>,
) -> Result<Derived, Refusal> {
    test_counts(night.counts(steps), FIRST)?;
    test_lists(night)?;
    test_buffer(codes_len, night.inbound.len(), 3)?;
    match search(night, steps) {
        Some(codes) => with_room(night, steps, codes),
        None => Err(refuse(5, steps_needed(night, &breaks_before(night)))),
    }
}

fn steps_needed(night: Night, breaks: &[usize]) -> usize {
    let most_breaks = breaks.iter().copied().max().unwrap_or(0);
    fewest_steps(night.mark, night.tracks, most_breaks)
}

/// These codes with the passes of their replay, unless it overfills a track.
fn with_room(night: Night, steps: usize, codes: Vec<u16>) -> Result<Derived, Refusal> {
    let replay = Replay::of(Plan {
        night,
        steps,
        codes: &codes,
    });
    test_room(night, &replay)?;
    Ok(Derived {
        steps,
        passes: replay.end().passes,
        codes,
    })
}

pub fn check(plan: Plan) -> Result<Checked, Refusal> {
    test_night(plan.night, plan.steps)?;
    test_codes_length(plan)?;
    test_codes(plan)?;
    let replay = Replay::of(plan);
    test_turned_away(&replay)?;
    test_early(&replay)?;
    test_room(plan.night, &replay)?;
    let built = &replay.end().destinations;
    match first_out_of_order(plan.night.lengths, built) {
        Some(car) => Err(refuse(9, usize::from(car))),
        None => Ok(Checked {
            passes: replay.end().passes,
            fullest: replay.fullest_pull(),
        }),
    }
}

pub fn replay(plan: Plan, stage: usize, on_len: usize, at_len: usize) -> Result<Staged, Refusal> {
    let night = plan.night;
    let cars = night.inbound.len();
    test_counts(night.counts(plan.steps), MOST)?;
    // The stage is the last of the counts, so it comes after the five others.
    if stage > plan.steps {
        return Err(refuse(1, 6));
    }
    test_lists(night)?;
    test_codes_length(plan)?;
    test_buffer(on_len, cars, 4)?;
    test_buffer(at_len, cars, 5)?;
    test_codes(plan)?;
    let replay = Replay::of(plan);
    test_turned_away(&replay)?;
    test_early(&replay)?;
    test_room(night, &replay)?;
    Ok(stand(&replay.stages[stage], cars))
}

pub fn price(steps: usize, passes: usize, timings: Timings) -> Result<f64, Refusal> {
    if steps > MOST.steps {
        return Err(refuse(1, 5));
    }
    if passes > MOST_PASSES {
        return Err(refuse(1, 7));
    }
    let pull = sixteenths(timings.pull).ok_or(refuse(13, 1))?;
    let push = sixteenths(timings.push).ok_or(refuse(13, 2))?;
    let mut sum = 0;
    for _ in 0..steps {
        sum += pull;
    }
    for _ in 0..passes {
        sum += push;
    }
    // Below 2^53, so the whole number and its sixteenth are both exact.
    Ok(sum as f64 / 16.0)
}

/// The tests 1, 2 and 3 of a night; steps may be a limit.
pub fn test_night(night: Night, steps: usize) -> Result<(), Refusal> {
    test_counts(night.counts(steps), MOST)?;
    test_lists(night)
}

pub fn test_counts(counts: Counts, most: Counts) -> Result<(), Refusal> {
    let ranges = [
        (counts.cars, 1, most.cars),
        (counts.trains, 1, most.trains),
        (counts.tracks, 1, most.tracks),
        (counts.room, 1, most.room),
        (counts.steps, 0, most.steps),
    ];
    for (place, (count, least, most)) in ranges.into_iter().enumerate() {
        if count < least || count > most {
            return Err(refuse(1, place + 1));
        }
    }
    Ok(())
}

fn test_lists(night: Night) -> Result<(), Refusal> {
    test_lengths(night.lengths, night.inbound.len())?;
    test_inbound(night.inbound)
}

pub fn test_lengths(lengths: &[u16], cars: usize) -> Result<(), Refusal> {
    for (place, &length) in lengths.iter().enumerate() {
        if length == 0 {
            return Err(refuse(2, place + 1));
        }
    }
    let mut sum = 0;
    for &length in lengths {
        sum += usize::from(length);
    }
    if sum != cars {
        return Err(refuse(2, 0));
    }
    Ok(())
}

pub fn test_inbound(inbound: &[u16]) -> Result<(), Refusal> {
    for (place, &car) in inbound.iter().enumerate() {
        if car == 0 || usize::from(car) > inbound.len() {
            return Err(refuse(3, place + 1));
        }
        if inbound[..place].contains(&car) {
            return Err(Refusal {
                b: place_of(inbound, car) + 1,
                ..refuse(3, place + 1)
            });
        }
    }
    Ok(())
}

pub fn test_codes_length(plan: Plan) -> Result<(), Refusal> {
    if plan.codes.len() != plan.night.inbound.len() {
        return Err(refuse(4, 3));
    }
    Ok(())
}

/// A buffer may be longer than what is written to it, not shorter.
pub fn test_buffer(len: usize, needed: usize, list: usize) -> Result<(), Refusal> {
    if len < needed {
        return Err(refuse(4, list));
    }
    Ok(())
}

pub fn test_codes(plan: Plan) -> Result<(), Refusal> {
    for (place, &code) in plan.codes.iter().enumerate() {
        if usize::from(code) >= two_to(plan.steps) {
            return Err(refuse(7, place + 1));
        }
    }
    Ok(())
}

fn test_turned_away(replay: &Replay) -> Result<(), Refusal> {
    match replay.turned_away {
        Some(car) => Err(refuse(14, usize::from(car))),
        None => Ok(()),
    }
}

fn test_early(replay: &Replay) -> Result<(), Refusal> {
    match replay.early {
        Some(early) => Err(Refusal {
            number: 8,
            a: usize::from(early.car),
            b: early.step,
        }),
        None => Ok(()),
    }
}

fn test_room(night: Night, replay: &Replay) -> Result<(), Refusal> {
    match replay.overfilled(night.room) {
        Some((step, cars)) => Err(Refusal {
            number: 6,
            a: step,
            b: cars,
        }),
        None => Ok(()),
    }
}

/// Where each car stands at a stage: sorting tracks first, then the destinations.
fn stand(yard: &Yard, cars: usize) -> Staged {
    let mut on = vec![u16::MAX; cars];
    let mut at = vec![u16::MAX; cars];
    let all_tracks = yard.tracks.iter().chain(&yard.destinations);
    for (track, list) in (0..).zip(all_tracks) {
        for (place, &car) in (0..).zip(list) {
            on[usize::from(car) - 1] = track;
            at[usize::from(car) - 1] = place;
        }
    }
    Staged {
        passes: yard.passes,
        on,
        at,
    }
}

/// A timing in sixteenths, taken from the double's own bits, or nothing if it is not allowed.
fn sixteenths(timing: f64) -> Option<u64> {
    let bits = timing.to_bits();
    let is_negative = bits >> 63 == 1;
    let exponent = (bits >> 52) % 2048;
    let fraction = bits % (1 << 52);
    if exponent == 0 && fraction == 0 && !is_negative {
        return Some(0);
    }
    // From 1/16 up to below 8192 the exponent is 1019 to 1035; no timing lies outside.
    if is_negative || !(1019..=1035).contains(&exponent) {
        return None;
    }
    // The value is the significand times 2^(exponent - 1075), so in sixteenths it is
    // the significand divided by 2^(1071 - exponent).
    let significand = fraction + (1 << 52);
    let divisor = 1u64 << (1071 - exponent);
    let whole = significand / divisor;
    if !significand.is_multiple_of(divisor) || whole > 4096 * 16 {
        return None;
    }
    Some(whole)
}

/// The answer of a call that hands back numbers alone.
pub fn derive_answer(outcome: &Result<Derived, Refusal>) -> Answer {
    match outcome {
        Ok(derived) => Answer::done(derived.steps, derived.passes),
        Err(refusal) => Answer::from(*refusal),
    }
}

pub fn check_answer(outcome: &Result<Checked, Refusal>) -> Answer {
    match outcome {
        Ok(checked) => Answer::done(checked.passes, checked.fullest),
        Err(refusal) => Answer::from(*refusal),
    }
}

pub fn replay_answer(outcome: &Result<Staged, Refusal>) -> Answer {
    match outcome {
        Ok(staged) => Answer::done(staged.passes, 0),
        Err(refusal) => Answer::from(*refusal),
    }
}

pub fn read_answer(outcome: &Result<Card, Refusal>) -> CardAnswer {
    match outcome {
        Ok(card) => CardAnswer {
            number: 0,
            a: 0,
            b: 0,
            mark: card.mark.number(),
            steps: card.steps,
            tracks: card.tracks,
            room: card.room,
            cars: card.inbound.len(),
            trains: card.lengths.len(),
        },
        Err(refusal) => CardAnswer::from(*refusal),
    }
}

pub fn write_answer(outcome: &Result<Vec<u8>, Refusal>) -> Answer {
    match outcome {
        Ok(card) => Answer::done(card.len(), 0),
        Err(refusal) => Answer::from(*refusal),
    }
}

pub fn price_answer(outcome: &Result<f64, Refusal>) -> PriceAnswer {
    match outcome {
        Ok(price) => PriceAnswer {
            number: 0,
            a: 0,
            b: 0,
            price: *price,
        },
        Err(refusal) => PriceAnswer::from(*refusal),
    }
}
