//! Multistage sorting plans, derived, checked, replayed, priced and stored on night cards.
//!
//! A safe wrapper over the proved library: lists in, a result with named fields out, and a
//! [`Refusal`] with the paper's number, details and words where a call refuses.
//!
//! Every night has a [`Mark`]: its destination tracks are open from the first roll-in on or, as in most
//! yards, closed until the first pull. In a closed night no car has code 0. There is no default:
//!
//! ```compile_fail,E0063
//! let night = altairpeg::Night { lengths: &[1], inbound: &[1], tracks: 1, room: 1 };
//! ```
//!
//! ```
//! use altairpeg::{check, derive, Mark, Night, STEPS};
//!
//! let night = Night { lengths: &[6], inbound: &[3, 6, 1, 5, 2, 4], tracks: 2, room: 4, mark: Mark::Closed };
//! let derived = derive(night, STEPS)?;
//! assert_eq!((derived.steps, derived.passes), (3, 14));
//! assert_eq!(derived.codes, [1, 1, 2, 2, 3, 5]);
//!
//! assert_eq!(check(derived.plan(night))?.fullest_pull, 4);
//! # Ok::<(), altairpeg::Refusal>(())
//! ```

#![warn(missing_docs)]

mod refusal;
#[rustfmt::skip]
mod words;

use altairpeg_sys::Answer;
#[doc(inline)]
pub use altairpeg_sys::{Mark, Night, Plan, Timings};
#[doc(inline)]
pub use altairpeg_sys::{CARD_BYTES, CARS, PASSES, ROOM, STEPS, TRACKS, TRAINS};
#[doc(inline)]
pub use altairpeg_sys::{
    FIRST_CARD_BYTES, FIRST_CARS, FIRST_ROOM, FIRST_STEPS, FIRST_TRACKS, FIRST_TRAINS,
};
pub use refusal::Refusal;
pub use words::Kind;

/// A derived plan: its steps, the hump passes of the whole plan, and the code of each car.
#[derive(Clone, Debug, PartialEq, Eq)]
pub struct Derived {
    /// The steps: the fewest from [`derive()`], those given from [`fewest_passes`].
    pub steps: usize,
    /// The hump passes of the whole plan.
    pub passes: usize,
    /// The code of each car, in car order.
    pub codes: Vec<u16>,
}

impl Derived {
    /// The plan, with the night of which it was derived.
    pub fn plan<'a>(&'a self, night: Night<'a>) -> Plan<'a> {
        Plan {
            night,
            steps: self.steps,
            codes: &self.codes,
        }
    }
}

/// What check says of an accepted plan: its hump passes, and the cars of its fullest pull.
#[derive(Clone, Copy, Debug, PartialEq, Eq)]
pub struct Checked {
    /// The hump passes of the whole plan.
    pub passes: usize,
    /// The cars of the fullest pull, 0 where the plan has no steps.
    pub fullest_pull: usize,
}

/// The yard at a stage: the passes so far, and each car's track and place there, in car order.
///
/// The destination of train t is track `tracks + t - 1`; the place at the front is 0.
#[derive(Clone, Debug, PartialEq, Eq)]
pub struct Stage {
    /// The hump passes up to this stage.
    pub passes: usize,
    /// Each car's track.
    pub tracks: Vec<u16>,
    /// Each car's place on its track.
    pub places: Vec<u16>,
}

impl Stage {
    /// The cars on a track, front first.
    ///
    /// ```
    /// use altairpeg::{replay, Mark, Night, Plan};
    ///
    /// let night = Night { lengths: &[6], inbound: &[3, 6, 1, 5, 2, 4], tracks: 2, room: 3, mark: Mark::Open };
    /// let plan = Plan { night, steps: 2, codes: &[0, 0, 1, 1, 2, 3] };
    /// assert_eq!(replay(plan, 0)?.cars_on(0), [3, 6, 4]);
    /// assert_eq!(replay(plan, 2)?.cars_on(2), [1, 2, 3, 4, 5, 6]);
    /// # Ok::<(), altairpeg::Refusal>(())
    /// ```
    pub fn cars_on(&self, track: usize) -> Vec<u16> {
        let mut standing: Vec<(u16, u16)> = (1..)
            .zip(self.tracks.iter().zip(&self.places))
            .filter(|(_, (&on, _))| usize::from(on) == track)
            .map(|(car, (_, &place))| (place, car))
            .collect();
        standing.sort_unstable();
        standing.into_iter().map(|(_, car)| car).collect()
    }
}

/// What a night card says.
#[derive(Clone, Debug, PartialEq, Eq)]
pub struct Card {
    /// The cars of each train.
    pub lengths: Vec<u16>,
    /// The cars in the order in which they come in.
    pub inbound: Vec<u16>,
    /// The sorting tracks.
    pub tracks: usize,
    /// The room on each.
    pub room: usize,
    /// The mark of the night: a card of edition 1 is open.
    pub mark: Mark,
    /// The steps of the plan.
    pub steps: usize,
    /// The code of each car, in car order.
    pub codes: Vec<u16>,
}

impl Card {
    /// The night of the card.
    pub fn night(&self) -> Night<'_> {
        Night {
            lengths: &self.lengths,
            inbound: &self.inbound,
            tracks: self.tracks,
            room: self.room,
            mark: self.mark,
        }
    }

    /// The plan of the card.
    pub fn plan(&self) -> Plan<'_> {
        Plan {
            night: self.night(),
            steps: self.steps,
            codes: &self.codes,
        }
    }
}

/// The answer where all is done, and else the refusal.
fn done(answer: Answer) -> Result<Answer, Refusal> {
    let Answer { number, a, b } = answer;
    match number {
        0 => Ok(answer),
        _ => Err(Refusal { number, a, b }),
    }
}

/// A list to be written, with an item for each car of the night; a night of too many is refused
/// before anything is written, whatever its length.
fn items(night: Night) -> Vec<u16> {
    vec![0; night.inbound.len().min(CARS)]
}

/// What a call that finds codes for a night says: steps, passes and the codes.
fn derived(
    call: fn(Night, usize, &mut [u16]) -> Answer,
    night: Night,
    steps: usize,
) -> Result<Derived, Refusal> {
    let mut codes = items(night);
    let answer = done(call(night, steps, &mut codes))?;
    Ok(Derived {
        steps: answer.a,
        passes: answer.b,
        codes,
    })
}

/// Derives the plan with the fewest steps; refuses 1, 2, 3, 5 or 6.
///
/// In a closed night no car gets code 0. 5 says that no plan that builds the trains, and in a closed
/// night has no code 0, keeps to the limit; 6 speaks of the derived plan alone.
pub fn derive(night: Night, limit: usize) -> Result<Derived, Refusal> {
    derived(altairpeg_sys::derive, night, limit)
}

/// Finds the plan of just so many steps with the fewest passes; refuses 1, 2, 3, 5 or 6.
///
/// It keeps document 01's limits: up to [`FIRST_CARS`] cars, [`FIRST_STEPS`] steps, and so on.
///
/// Of the plans with as few it is the one whose list of codes is smallest at the first differing car. In a
/// closed night no car gets code 0. 5 says that no codes of these steps build the trains, and A is the fewest
/// steps of which some do; 6 speaks of the found codes alone. One step more never makes the passes more:
///
/// ```
/// use altairpeg::{derive, fewest_passes, Mark, Night, STEPS};
///
/// let night = Night { lengths: &[6], inbound: &[6, 4, 5, 3, 2, 1], tracks: 4, room: 3, mark: Mark::Open };
/// assert_eq!(derive(night, STEPS)?.passes, 13);
/// assert_eq!([3, 4, 5].map(|steps| fewest_passes(night, steps).unwrap().passes), [12, 11, 11]);
/// assert_eq!(fewest_passes(night, 4)?.codes, [0, 1, 2, 4, 4, 8]);
/// assert_eq!(fewest_passes(night, 2).unwrap_err().a, 3);
/// # Ok::<(), altairpeg::Refusal>(())
/// ```
pub fn fewest_passes(night: Night, steps: usize) -> Result<Derived, Refusal> {
    derived(altairpeg_sys::fewest_passes, night, steps)
}

/// Checks a plan offered by anyone, by its replay; refuses 1, 2, 3, 4, 7, 14 (only in a closed
/// night), 8, 6 or 9.
pub fn check(plan: Plan) -> Result<Checked, Refusal> {
    let answer = done(altairpeg_sys::check(plan))?;
    Ok(Checked {
        passes: answer.a,
        fullest_pull: answer.b,
    })
}

/// Replays a plan to a stage; refuses as [`check`] does, but not 9, and a stage above the steps with 1.
///
/// Stage 0 is the yard after the first roll-in, stage s after s steps.
pub fn replay(plan: Plan, stage: usize) -> Result<Stage, Refusal> {
    let mut tracks = items(plan.night);
    let mut places = items(plan.night);
    let answer = done(altairpeg_sys::replay(plan, stage, &mut tracks, &mut places))?;
    Ok(Stage {
        passes: answer.a,
        tracks,
        places,
    })
}

/// Reads a night card; refuses 10, 11, 1, 2, 3, 12 or 17. It accepts plans that [`check`] would refuse.
///
/// ```
/// let card = altairpeg::read_card(&[
///     0x12, 0x20, 0x0C, 0x06, 0x02, 0x03, 0x00, 0x60, 0x30, 0x02, 0x02, 0x80, 0x40, 0x20, 0x2D, 0x80,
/// ])?;
/// assert_eq!(card.inbound, [3, 6, 1, 5, 2, 4]);
/// assert_eq!(altairpeg::write_card(card.plan())?.len(), 16);
/// # Ok::<(), altairpeg::Refusal>(())
/// ```
pub fn read_card(card: &[u8]) -> Result<Card, Refusal> {
    let mut lengths = vec![0; TRAINS];
    let mut inbound = vec![0; CARS];
    let mut codes = vec![0; CARS];
    let told = altairpeg_sys::read(card, &mut lengths, &mut inbound, &mut codes);
    done(told.answer)?;
    lengths.truncate(told.trains);
    inbound.truncate(told.cars);
    codes.truncate(told.cars);
    Ok(Card {
        lengths,
        inbound,
        tracks: told.tracks,
        room: told.room,
        mark: Mark::of(told.mark),
        steps: told.steps,
        codes,
    })
}

/// Writes the night card of a plan; refuses 1, 2, 3, 4 or 7.
///
/// It is of edition 1 where the night is open and all counts keep document 01's limits, else of edition 2.
pub fn write_card(plan: Plan) -> Result<Vec<u8>, Refusal> {
    let mut card = vec![0; CARD_BYTES];
    let answer = done(altairpeg_sys::write(plan, &mut card))?;
    card.truncate(answer.a);
    Ok(card)
}

/// Prices a night, exactly: steps times pull plus passes times push; refuses 1 or 13.
///
/// ```
/// let timings = altairpeg::Timings { pull: 1.5, push: 0.25 };
/// assert_eq!(altairpeg::price(2, 11, timings), Ok(5.75));
/// assert_eq!(altairpeg::price(17, 11, timings).unwrap_err().a, 5);
/// ```
pub fn price(steps: usize, passes: usize, timings: Timings) -> Result<f64, Refusal> {
    let told = altairpeg_sys::price(steps, passes, timings);
    done(told.answer).map(|_| told.price)
}

/// The fewest tracks, 1 to 16, on which a car with this code is never pulled early.
///
/// ```
/// assert_eq!([0, 4, 5, 9, 129, 128].map(altairpeg::fewest_tracks), [1, 3, 2, 3, 7, 8]);
/// assert_eq!([256, 257, 1 << 15].map(altairpeg::fewest_tracks), [9, 8, 16]);
/// ```
pub fn fewest_tracks(code: u16) -> usize {
    altairpeg_sys::fewest_tracks(code)
}
