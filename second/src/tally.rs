//! Which answers were reached how often, and which of the paper's table must be.

use crate::{Mark, MARKS};
use std::collections::BTreeMap;
use std::fmt;

/// A call, with the mark of the night where it takes one, or the edition that a card bears.
#[derive(Clone, Copy, Debug, PartialEq, Eq, PartialOrd, Ord)]
pub enum Call {
    Derive(Mark),
    FewestPasses(Mark),
    Check(Mark),
    Replay(Mark),
    Read(Edition),
    Write(Mark),
    Price,
    FewestTracks,
}

/// The edition that a card bears; an empty one bears none that is read.
#[derive(Clone, Copy, Debug, PartialEq, Eq, PartialOrd, Ord)]
pub enum Edition {
    First,
    Second,
    Other,
}

impl Edition {
    pub fn of(card: &[u8]) -> Edition {
        match card.first().map(|byte| byte / 16) {
            Some(1) => Edition::First,
            Some(2) => Edition::Second,
            _ => Edition::Other,
        }
    }
}

/// Detail A, sorted as the paper sorts it: kinds one by one, places and cars together.
#[derive(Clone, Copy, Debug, PartialEq, Eq, PartialOrd, Ord)]
pub enum Detail {
    Done,
    DoneWith(Mark),
    DoneOn(Edition),
    Exactly(usize),
    Train,
    OutOfRange,
    MetBefore,
    Car,
    CarInStep(usize),
    UpTo8,
    UpTo16,
    Above16,
    Length,
}

impl Detail {
    /// The kind of detail in an answer of this number.
    pub fn of(number: usize, a: usize, b: usize) -> Detail {
        match number {
            0 => Detail::Done,
            2 if a > 0 => Detail::Train,
            3 if b == 0 => Detail::OutOfRange,
            3 => Detail::MetBefore,
            5 if a <= 8 => Detail::UpTo8,
            5 if a <= 16 => Detail::UpTo16,
            5 => Detail::Above16,
            7 | 9 | 14 => Detail::Car,
            8 => Detail::CarInStep(b),
            // The shortest whole card has eight bytes, so 1, 5 and 7 are what they seem.
            10 if ![1, 5, 7].contains(&a) => Detail::Length,
            12 => Detail::Length,
            _ => Detail::Exactly(a),
        }
    }
}

impl fmt::Display for Detail {
    fn fmt(&self, out: &mut fmt::Formatter) -> fmt::Result {
        match self {
            Detail::Done => out.write_str("as the call says"),
            Detail::DoneWith(mark) => write!(out, "{mark:?}"),
            Detail::DoneOn(edition) => write!(out, "{edition:?} edition"),
            Detail::Exactly(a) => write!(out, "{a}"),
            Detail::Train => out.write_str("a train"),
            Detail::OutOfRange => out.write_str("a place, B 0"),
            Detail::MetBefore => out.write_str("a place, B before it"),
            Detail::Car => out.write_str("a car"),
            Detail::CarInStep(step) => write!(out, "a car, B {step}"),
            Detail::UpTo8 => out.write_str("1 to 8"),
            Detail::UpTo16 => out.write_str("9 to 16"),
            Detail::Above16 => out.write_str("above 16"),
            Detail::Length => out.write_str("a whole length"),
        }
    }
}

type Reached = (Call, usize, Detail);

#[derive(Default)]
pub struct Tally {
    times: BTreeMap<Reached, u64>,
}

impl Tally {
    pub fn count(&mut self, call: Call, number: usize, a: usize, b: usize) {
        self.count_detail(call, number, Detail::of(number, a, b));
    }

    pub fn count_detail(&mut self, call: Call, number: usize, detail: Detail) {
        *self.times.entry((call, number, detail)).or_default() += 1;
    }

    pub fn total(&self) -> u64 {
        self.times.values().sum()
    }

    /// What the paper's table offers a call and no answer has given.
    pub fn never_reached(&self) -> Vec<Reached> {
        let mut missing = required();
        missing.retain(|reached| !self.times.contains_key(reached));
        missing
    }

    /// The table 'call, number, A, times'.
    pub fn table(&self) -> String {
        let mut table =
            String::from("call                  number  A                          times\n");
        for ((call, number, detail), times) in &self.times {
            let call = format!("{call:?}");
            let detail = detail.to_string();
            table += &format!("{call:<20}  {number:>6}  {detail:<20}  {times:>10}\n");
        }
        table
    }
}

/// No plan that derive finds for 4,096 cars or fewer overfills step 14 or 15 before all others.
pub const LAST_FULL_STEP: usize = 13;

/// Every number with every A that the paper lets a call answer.
pub fn required() -> Vec<Reached> {
    use Call::{Check, FewestTracks, Price, Replay};
    let mut all = Vec::new();
    for mark in MARKS {
        require_marked(&mut all, mark);
    }
    for call in [Check, Replay] {
        require(&mut all, call(Mark::Closed), 14, [Detail::Car]);
    }
    require_cards(&mut all);
    require(&mut all, Price, 0, [Detail::Done]);
    require(&mut all, Price, 1, [5, 7].map(Detail::Exactly));
    require(&mut all, Price, 13, [1, 2].map(Detail::Exactly));
    require(&mut all, FewestTracks, 0, (1..=16).map(Detail::Exactly));
    all
}

/// What the calls that take a mark answer in open and closed nights alike.
fn require_marked(all: &mut Vec<Reached>, mark: Mark) {
    let [check, replay, write] = [Call::Check(mark), Call::Replay(mark), Call::Write(mark)];
    let [derive, fewest_passes] = [Call::Derive(mark), Call::FewestPasses(mark)];
    for call in [derive, fewest_passes, check, replay] {
        require(all, call, 0, [Detail::Done]);
    }
    for call in [derive, fewest_passes, check, replay, write] {
        require_sound(all, call);
    }
    for call in [derive, fewest_passes] {
        let steps = [Detail::UpTo8, Detail::UpTo16, Detail::Above16];
        require(all, call, 5, steps);
    }
    require(all, derive, 6, (0..=LAST_FULL_STEP).map(Detail::Exactly));
    require(all, fewest_passes, 6, (0..8).map(Detail::Exactly));
    for call in [check, replay] {
        require(all, call, 6, (0..16).map(Detail::Exactly));
        // An early pull comes before a later step, so never in the last one.
        require(all, call, 8, (0..15).map(Detail::CarInStep));
    }
    for call in [check, replay, write] {
        require(all, call, 7, [Detail::Car]);
    }
    require(all, check, 9, [Detail::Car]);
    require(all, replay, 1, [Detail::Exactly(6)]);
    require(all, replay, 4, [4, 5].map(Detail::Exactly));
    require(all, write, 4, [Detail::Exactly(6)]);
}

/// What reader and writer answer of cards, edition by edition.
fn require_cards(all: &mut Vec<Reached>) {
    let [first, second, other] = [Edition::First, Edition::Second, Edition::Other].map(Call::Read);
    require(all, first, 0, [Detail::DoneWith(Mark::Open)]);
    require(all, second, 0, MARKS.map(Detail::DoneWith));
    for (call, header) in [(first, 5), (second, 7)] {
        require_sound(all, call);
        require(all, call, 4, [1, 2].map(Detail::Exactly));
        require(all, call, 10, [Detail::Exactly(header), Detail::Length]);
        require(all, call, 12, [Detail::Length]);
    }
    require(all, second, 17, [Detail::Exactly(0)]);
    require(all, other, 10, [Detail::Exactly(1)]);
    require(all, other, 11, [Detail::Exactly(0)]);
    require(all, other, 11, (3..16).map(Detail::Exactly));
    let [on_first, on_second] = [Edition::First, Edition::Second].map(Detail::DoneOn);
    require(all, Call::Write(Mark::Open), 0, [on_first, on_second]);
    require(all, Call::Write(Mark::Closed), 0, [on_second]);
}

/// What every call that takes or reads the lists of a night refuses of them.
fn require_sound(all: &mut Vec<Reached>, call: Call) {
    require(all, call, 1, (1..=5).map(Detail::Exactly));
    require(all, call, 2, [Detail::Exactly(0), Detail::Train]);
    require(all, call, 3, [Detail::OutOfRange, Detail::MetBefore]);
    require(all, call, 4, [Detail::Exactly(3)]);
}

fn require(
    all: &mut Vec<Reached>,
    call: Call,
    number: usize,
    details: impl IntoIterator<Item = Detail>,
) {
    all.extend(details.into_iter().map(|detail| (call, number, detail)));
}
