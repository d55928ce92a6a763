//! The codes of given steps with the fewest passes, found in two ways that have only the yard in common: every list is
//! tried there, or lists grow car by car, by the paper's rule on pairs and what the yard shows of lone cars.

use crate::steps::{kept_passes, two_to, Arrivals};
use crate::yard::{first_out_of_order, Replay};
use crate::{Night, Plan};
use std::cmp::Ordering;

/// All code lists for these steps, a list that is smaller at the first differing car before a larger one.
pub fn code_lists(cars: usize, steps: usize) -> impl Iterator<Item = Vec<u16>> {
    std::iter::successors(Some(vec![0; cars]), move |codes| {
        let place = codes
            .iter()
            .rposition(|&code| usize::from(code) + 1 < two_to(steps))?;
        let mut next = codes.clone();
        next[place] += 1;
        next[place + 1..].fill(0);
        Some(next)
    })
}

/// Tries every list of codes on the yard and keeps the first of those with the fewest roll-ins.
pub fn try_all_lists(night: Night, steps: usize) -> Option<Vec<u16>> {
    let mut fewest = usize::MAX;
    let mut found = None;
    for codes in code_lists(night.inbound.len(), steps) {
        let plan = Plan {
            night,
            steps,
            codes: &codes,
        };
        if let Some(passes) = passes_if_built(plan).filter(|&passes| passes < fewest) {
            fewest = passes;
            found = Some(codes);
        }
    }
    found
}

/// How many cars rolled in, where none was turned away or pulled early and the trains stand in order.
fn passes_if_built(plan: Plan) -> Option<usize> {
    let replay = Replay::of(plan);
    let yard = replay.end();
    let is_built =
        replay.goes_on() && first_out_of_order(plan.night.lengths, &yard.destinations).is_none();
    is_built.then_some(yard.passes)
}

/// Lengthens lists by one car after the other and keeps, for each code that a list may end with, the best one: what
/// may follow it depends on this code alone.
pub fn go_car_by_car(night: Night, steps: usize) -> Option<Vec<u16>> {
    let lone_passes = kept_passes(night.mark, night.tracks, steps);
    let arrivals = Arrivals::of(night);
    let mut lists = Lists::of_no_cars(lone_passes.len());
    let mut car = 0;
    for &length in night.lengths {
        for place in 0..length {
            car += 1;
            let follows = match place {
                0 => Follows::AnyCode,
                _ if arrivals.is_break(car - 1) => Follows::Smaller,
                _ => Follows::SmallerOrEqual,
            };
            lists.lengthen(follows, lone_passes);
            if lists.last().iter().all(Option::is_none) {
                return None;
            }
        }
    }
    lists.best_list()
}

/// Which codes of the car before it a car's code may follow.
#[derive(Clone, Copy)]
enum Follows {
    AnyCode,
    SmallerOrEqual,
    Smaller,
}

/// The best list that ends with a certain code: its passes, and with which code it ended one car before.
#[derive(Clone, Copy)]
struct Best {
    passes: u16,
    before: u16,
}

/// For each number of cars, from 0, the best list that ends with each code, or nothing where no list does.
struct Lists {
    by_cars: Vec<Vec<Option<Best>>>,
}

impl Lists {
    /// The empty list, which has no last code, is kept under code 0.
    fn of_no_cars(codes: usize) -> Lists {
        let mut empty = vec![None; codes];
        empty[0] = Some(Best {
            passes: 0,
            before: 0,
        });
        Lists {
            by_cars: vec![empty],
        }
    }

    fn last(&self) -> &[Option<Best>] {
        &self.by_cars[self.by_cars.len() - 1]
    }

    /// One car more: with each code that lets a lone car through, the best list that the code may follow.
    fn lengthen(&mut self, follows: Follows, lone_passes: &[Option<u16>]) {
        let mut best = None;
        let mut seen = 0;
        let with_code = |(code, lone): (u16, &Option<u16>)| {
            let end = match follows {
                Follows::AnyCode => lone_passes.len() as u16,
                Follows::SmallerOrEqual => code + 1,
                Follows::Smaller => code,
            };
            while seen < end {
                best = self.better(best, seen);
                seen += 1;
            }
            let (shorter, before) = best?;
            let passes = shorter + (*lone)?;
            Some(Best { passes, before })
        };
        let longer = (0..).zip(lone_passes).map(with_code).collect();
        self.by_cars.push(longer);
    }

    /// The better of two lists for all cars so far, each by its passes and the code it ends with: the one with fewer
    /// passes, or the smaller one where they have as many.
    fn better(&self, best: Option<(u16, u16)>, code: u16) -> Option<(u16, u16)> {
        let Some(Best { passes, .. }) = self.last()[usize::from(code)] else {
            return best;
        };
        let stays = best.is_some_and(|(fewest, other)| match fewest.cmp(&passes) {
            Ordering::Equal => self.is_smaller(other, code),
            order => order == Ordering::Less,
        });
        match stays {
            true => best,
            false => Some((passes, code)),
        }
    }

    /// Whether of two lists, each by the code it ends with, the one is smaller at the first differing car: looking at
    /// one car after the other from the last one, until both lists are the same.
    fn is_smaller(&self, mut one: u16, mut other: u16) -> bool {
        let mut smaller = false;
        for lists in self.by_cars.iter().rev() {
            if one == other {
                break;
            }
            smaller = one < other;
            let before = |code: u16| lists[usize::from(code)].map_or(0, |best| best.before);
            (one, other) = (before(one), before(other));
        }
        smaller
    }

    /// The codes of the best list for all cars, read from the last one to the first.
    fn best_list(&self) -> Option<Vec<u16>> {
        let codes = 0..self.last().len() as u16;
        let (_, mut code) = codes.fold(None, |best, code| self.better(best, code))?;
        let mut list = Vec::new();
        for lists in self.by_cars[1..].iter().rev() {
            list.push(code);
            code = lists[usize::from(code)]?.before;
        }
        list.reverse();
        Some(list)
    }
}
