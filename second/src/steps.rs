//! Usable codes, how many there are, breaks, and the fewest steps.

use crate::counts::MOST;
use crate::yard::{places_in, Yard};
use crate::{Mark, Night, Plan};
use std::sync::OnceLock;

/// The roll-ins of a lone car with this code, replayed on these tracks in a night of this mark, or
/// nothing where it is pulled early or turned away by a barred destination.
fn lone_passes(mark: Mark, code: u16, tracks: usize, steps: usize) -> Option<u16> {
    let night = Night {
        lengths: &[1],
        inbound: &[1],
        tracks,
        room: 1,
        mark,
    };
    let plan = Plan {
        night,
        steps,
        codes: &[code],
    };
    let mut yard = Yard::rolled_in(plan);
    let is_turned_away = yard.turned_away().is_some();
    let is_early = |step| yard.take_step(plan, step).1.is_some();
    let is_stopped = is_turned_away || (0..steps).any(is_early);
    (!is_stopped).then_some(yard.passes as u16)
}

/// Whether a lone car with this code gets through the yard.
pub fn is_usable(mark: Mark, code: u16, tracks: usize, steps: usize) -> bool {
    lone_passes(mark, code, tracks, steps).is_some()
}

/// 2^h, one more than the greatest code of these steps.
pub fn two_to(steps: usize) -> usize {
    let mut power = 1;
    for _ in 0..steps {
        power *= 2;
    }
    power
}

/// All codes below 2^h, counted upward.
pub fn all_codes(steps: usize) -> impl Iterator<Item = u16> {
    (0..=u16::MAX).take(two_to(steps))
}

/// What lone cars showed of the codes below 2^h: the usable ones, counted upward, and the roll-ins with each of all.
struct Kept {
    usable: Vec<u16>,
    passes: Vec<Option<u16>>,
}

impl Kept {
    /// Each code is tried by a replay of its own.
    fn of(mark: Mark, tracks: usize, steps: usize) -> Kept {
        let mut kept = Kept {
            usable: Vec::new(),
            passes: Vec::new(),
        };
        for code in all_codes(steps) {
            let passes = lone_passes(mark, code, tracks, steps);
            kept.passes.push(passes);
            if passes.is_some() {
                kept.usable.push(code);
            }
        }
        kept
    }
}

/// Nothing is kept until it is first asked for, by mark, tracks and steps.
type AllKept = [[[OnceLock<Kept>; MOST.steps + 1]; MOST.tracks]; 2];

/// The codes of these steps, all of them replayed once and kept.
fn kept(mark: Mark, tracks: usize, steps: usize) -> &'static Kept {
    static KEPT: AllKept =
        [const { [const { [const { OnceLock::new() }; MOST.steps + 1] }; MOST.tracks] }; 2];
    KEPT[mark.number()][tracks - 1][steps].get_or_init(|| Kept::of(mark, tracks, steps))
}

/// The usable codes below 2^h, counted upward.
pub fn kept_codes(mark: Mark, tracks: usize, steps: usize) -> &'static [u16] {
    &kept(mark, tracks, steps).usable
}

/// The roll-ins of a lone car with each code below 2^h, or nothing where it is not usable.
pub fn kept_passes(mark: Mark, tracks: usize, steps: usize) -> &'static [Option<u16>] {
    &kept(mark, tracks, steps).passes
}

/// F(0), F(1), .. by the paper's recursion, up to the first that is at least `enough`.
pub fn recursive_counts(tracks: usize, enough: usize) -> Vec<usize> {
    // `a` holds a(-1), a(0), ..; what lies further back is 0.
    let mut a = vec![1];
    let mut counts = vec![1];
    let mut last_count = 1;
    while last_count < enough {
        let mut next_a = 0;
        for back in 1..=tracks.min(a.len()) {
            next_a += a[a.len() - back];
        }
        a.push(next_a);
        last_count += next_a;
        counts.push(last_count);
    }
    counts
}

/// The least h with a usable code for each number of breaks: found by counting those that the yard
/// lets through, and beyond sixteen steps, where there are too many to try, by the recursion.
pub fn fewest_steps(mark: Mark, tracks: usize, most_breaks: usize) -> usize {
    let is_enough = |&steps: &usize| kept_codes(mark, tracks, steps).len() > most_breaks;
    match (0..=MOST.steps).find(is_enough) {
        Some(steps) => steps,
        None => recursive_steps(mark, tracks, most_breaks),
    }
}

/// The least h with F(h) at least c+1, of which a closed night leaves one, code 0, unused.
pub fn recursive_steps(mark: Mark, tracks: usize, most_breaks: usize) -> usize {
    let enough = match mark {
        Mark::Open => most_breaks + 1,
        Mark::Closed => most_breaks + 2,
    };
    recursive_counts(tracks, enough).len() - 1
}

/// For each car, in car order, the breaks before it in its train.
pub fn breaks_before(night: Night) -> Vec<usize> {
    let arrivals = Arrivals::of(night);
    let mut breaks = Vec::new();
    let mut car = 0;
    for &length in night.lengths {
        let mut met = 0;
        for place in 0..length {
            car += 1;
            if place > 0 && arrivals.is_break(car - 1) {
                met += 1;
            }
            breaks.push(met);
        }
    }
    breaks
}

/// Where each car of a night comes in, by its number.
pub struct Arrivals {
    places: Vec<usize>,
}

impl Arrivals {
    pub fn of(night: Night) -> Arrivals {
        Arrivals {
            places: places_in(&[night.inbound]),
        }
    }

    /// Whether the pair of this car and the next is a break, both being in one train.
    pub fn is_break(&self, car: u16) -> bool {
        self.places[usize::from(car) + 1] < self.places[usize::from(car)]
    }
}

/// For each car's number of breaks q, the code with q others below it that the yard lets through.
pub fn codes_for(mark: Mark, breaks: &[usize], tracks: usize, steps: usize) -> Vec<u16> {
    let usable = kept_codes(mark, tracks, steps);
    breaks.iter().map(|&met| usable[met]).collect()
}

/// The numbers of tracks on which a lone car with this code is never pulled early.
pub fn usable_tracks(code: u16) -> Vec<usize> {
    let is_usable_on = |&tracks: &usize| {
        let passes = kept_passes(Mark::Open, tracks, MOST.steps);
        passes[usize::from(code)].is_some()
    };
    (1..=MOST.tracks).filter(is_usable_on).collect()
}
