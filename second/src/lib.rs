//! The second, independent program: every night is replayed car by car on real lists,
//! so that no table, closed form or shortcut is shared with the library it is compared with.

pub mod answers;
pub mod arguments;
pub mod big_nights;
pub mod bits;
pub mod cards;
pub mod counts;
pub mod harness;
pub mod idiomatic;
#[cfg(feature = "library")]
pub mod library;
pub mod nights;
pub mod passes;
pub mod programs;
pub mod random;
pub mod reference;
pub mod steps;
pub mod tally;
pub mod trials;
pub mod yard;

use answers::{Answer, CardAnswer, PriceAnswer, Timings};
use counts::Counts;

/// Whether the destination tracks are open from the first roll-in on, or closed until the first pull.
/// It is as wide as the counts beside it, since a copy of a night that waits for one byte would be measured, too.
#[derive(Clone, Copy, Debug, PartialEq, Eq, PartialOrd, Ord)]
#[repr(usize)]
pub enum Mark {
    Open,
    Closed,
}

pub const MARKS: [Mark; 2] = [Mark::Open, Mark::Closed];

impl Mark {
    /// The number by which the card reader tells it.
    pub fn number(self) -> usize {
        match self {
            Mark::Open => 0,
            Mark::Closed => 1,
        }
    }
}

/// A night as a caller gives it; nothing about it is tested yet.
#[derive(Clone, Copy, Debug)]
pub struct Night<'a> {
    pub lengths: &'a [u16],
    pub inbound: &'a [u16],
    pub tracks: usize,
    pub room: usize,
    pub mark: Mark,
}

/// A plan as a caller gives it; nothing about it is tested yet.
#[derive(Clone, Copy, Debug)]
pub struct Plan<'a> {
    pub night: Night<'a>,
    pub steps: usize,
    pub codes: &'a [u16],
}

impl Night<'_> {
    /// All counts, with these steps, which may be a limit.
    pub fn counts(self, steps: usize) -> Counts {
        Counts {
            cars: self.inbound.len(),
            trains: self.lengths.len(),
            tracks: self.tracks,
            room: self.room,
            steps,
        }
    }
}

impl<'a> Plan<'a> {
    /// The same lists and counts with the destinations open, whatever the mark was.
    pub fn opened(self) -> Plan<'a> {
        let mark = Mark::Open;
        let night = Night { mark, ..self.night };
        Plan { night, ..self }
    }
}

/// The calls as the library offers them, so that one harness drives every implementation.
/// Each answers in its own types, so that what is measured is the call and not a copy of its answer.
pub trait Calls {
    const NAME: &'static str;
    type Told: Into<Answer>;
    type CardTold: Into<CardAnswer>;
    fn derive(night: Night, limit: usize, codes: &mut [u16]) -> Self::Told;
    fn fewest_passes(night: Night, steps: usize, codes: &mut [u16]) -> Self::Told;
    fn check(plan: Plan) -> Self::Told;
    fn replay(plan: Plan, stage: usize, on: &mut [u16], at: &mut [u16]) -> Self::Told;
    fn read(
        card: &[u8],
        lengths: &mut [u16],
        inbound: &mut [u16],
        codes: &mut [u16],
    ) -> Self::CardTold;
    fn write(plan: Plan, card: &mut [u8]) -> Self::Told;
    fn price(steps: usize, passes: usize, timings: Timings) -> PriceAnswer;
    fn fewest_tracks(code: u16) -> usize;
}
