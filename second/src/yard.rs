//! The yard as the paper describes it: real lists of cars, moved over the hump one by one.

use crate::{Mark, Plan};

/// Whether a car with this code is pulled in this step: its bit of value 2^step is set.
pub fn is_pulled_in(code: u16, step: usize) -> bool {
    let mut rest = code;
    for _ in 0..step {
        rest /= 2;
    }
    rest % 2 == 1
}

/// The train of a car, counted from 0, found by walking along the trains.
pub fn train_of(lengths: &[u16], car: u16) -> usize {
    let mut last_car = 0;
    for (train, &length) in lengths.iter().enumerate() {
        last_car += usize::from(length);
        if usize::from(car) <= last_car {
            return train;
        }
    }
    panic!("car {car} is in no train of {lengths:?}")
}

/// All tracks at one stage, front car first, and the hump passes up to it.
#[derive(Clone, Debug)]
pub struct Yard {
    pub tracks: Vec<Vec<u16>>,
    pub destinations: Vec<Vec<u16>>,
    pub passes: usize,
    /// Whether the destinations serve other work: in a closed night, until the first pull.
    barred: bool,
    /// The cars that rolled to a destination while it was barred, and so stand nowhere.
    turned_away: Vec<u16>,
}

impl Yard {
    /// The yard after the first roll-in of a plan whose lists are sound and whose codes are below 2^h.
    pub fn rolled_in(plan: Plan) -> Yard {
        let mut yard = Yard {
            tracks: vec![Vec::new(); plan.night.tracks],
            destinations: vec![Vec::new(); plan.night.lengths.len()],
            passes: 0,
            barred: plan.night.mark == Mark::Closed,
            turned_away: Vec::new(),
        };
        for &car in plan.night.inbound {
            yard.roll_in(plan, car, 0);
        }
        yard
    }

    /// The lowest car that a barred destination turned away.
    pub fn turned_away(&self) -> Option<u16> {
        self.turned_away.iter().copied().min()
    }

    /// Pulls the cars of a step and rolls them in again, unless one of them is pulled early; hands back how many were pulled.
    pub fn take_step(&mut self, plan: Plan, step: usize) -> (usize, Option<EarlyPull>) {
        let pulled = self.pull(plan, step);
        let cars = pulled.len();
        let early = first_early(plan, &pulled, step);
        if early.is_none() {
            for car in pulled {
                self.roll_in(plan, car, step + 1);
            }
        }
        (cars, early)
    }

    /// One car over the hump, bound for its first step from `from` on, or its destination.
    fn roll_in(&mut self, plan: Plan, car: u16, from: usize) {
        self.passes += 1;
        let code = plan.codes[usize::from(car) - 1];
        let bound_for = (from..plan.steps).find(|&step| is_pulled_in(code, step));
        match bound_for {
            Some(step) => self.tracks[step % plan.night.tracks].push(car),
            None if self.barred => self.turned_away.push(car),
            None => self.destinations[train_of(plan.night.lengths, car)].push(car),
        }
    }

    /// Empties the track of a step; first in is first over the hump again. From the first pull on
    /// no destination is barred.
    fn pull(&mut self, plan: Plan, step: usize) -> Vec<u16> {
        self.barred = false;
        std::mem::take(&mut self.tracks[step % plan.night.tracks])
    }
}

/// A car that a step takes although its code has 0 there.
#[derive(Clone, Copy, Debug, PartialEq, Eq)]
pub struct EarlyPull {
    pub car: u16,
    pub step: usize,
}

/// What was seen while a plan was replayed; a car turned away or pulled early ends it.
#[derive(Clone, Debug)]
pub struct Replay {
    /// Stage s stands at index s, as far as the replay came.
    pub stages: Vec<Yard>,
    /// The cars on the track of each step when the step came.
    pub pulls: Vec<usize>,
    /// The lowest car that a barred destination turned away.
    pub turned_away: Option<u16>,
    pub early: Option<EarlyPull>,
}

impl Replay {
    /// Replays a plan whose lists are sound and whose codes are below 2^h.
    pub fn of(plan: Plan) -> Replay {
        let yard = Yard::rolled_in(plan);
        let mut replay = Replay {
            turned_away: yard.turned_away(),
            stages: vec![yard],
            pulls: Vec::new(),
            early: None,
        };
        for step in 0..plan.steps {
            if !replay.goes_on() {
                break;
            }
            replay.take_step(plan, step);
        }
        replay
    }

    /// Whether no car has been turned away or pulled early so far.
    pub fn goes_on(&self) -> bool {
        self.turned_away.is_none() && self.early.is_none()
    }

    fn take_step(&mut self, plan: Plan, step: usize) {
        let mut yard = self.stages[step].clone();
        let (cars, early) = yard.take_step(plan, step);
        self.pulls.push(cars);
        self.early = early;
        if early.is_none() {
            self.stages.push(yard);
        }
    }

    /// The first step whose track held more cars than the room, with its cars.
    pub fn overfilled(&self, room: usize) -> Option<(usize, usize)> {
        for (step, &cars) in self.pulls.iter().enumerate() {
            if cars > room {
                return Some((step, cars));
            }
        }
        None
    }

    pub fn fullest_pull(&self) -> usize {
        let mut fullest = 0;
        for &cars in &self.pulls {
            if cars > fullest {
                fullest = cars;
            }
        }
        fullest
    }

    /// The yard after the last step that was replayed.
    pub fn end(&self) -> &Yard {
        &self.stages[self.stages.len() - 1]
    }
}

/// The lowest car among the pulled ones whose code has 0 at this step.
fn first_early(plan: Plan, pulled: &[u16], step: usize) -> Option<EarlyPull> {
    let mut lowest = None;
    for &car in pulled {
        let due = is_pulled_in(plan.codes[usize::from(car) - 1], step);
        if !due && lowest.is_none_or(|other| car < other) {
            lowest = Some(car);
        }
    }
    lowest.map(|car| EarlyPull { car, step })
}

/// The lowest car that stands in front of the car numbered one less, in a train as built.
///
/// This looks at the built trains alone; the rule on codes is not used.
pub fn first_out_of_order(lengths: &[u16], built: &[Vec<u16>]) -> Option<u16> {
    let places = places_in(built);
    let mut first_car = 1;
    for &length in lengths {
        let next_train = first_car + length;
        for car in first_car + 1..next_train {
            if places[usize::from(car)] < places[usize::from(car) - 1] {
                return Some(car);
            }
        }
        first_car = next_train;
    }
    None
}

/// By the numbers of the cars, of which each stands in one of these lists: its place there, from 0.
pub fn places_in<List: AsRef<[u16]>>(lists: &[List]) -> Vec<usize> {
    let cars: usize = lists.iter().map(|list| list.as_ref().len()).sum();
    let mut places = vec![0; cars + 1];
    for list in lists {
        for (place, &car) in list.as_ref().iter().enumerate() {
            places[usize::from(car)] = place;
        }
    }
    places
}

/// Where a car stands in a list that holds it, from 0.
pub fn place_of(list: &[u16], car: u16) -> usize {
    match list.iter().position(|&other| other == car) {
        Some(place) => place,
        None => panic!("car {car} is not in {list:?}"),
    }
}
