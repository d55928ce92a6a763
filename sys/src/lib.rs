//! The C interface of Altairpeg: its structs, its exports, and a safe call for each of them.
//!
//! `include/altairpeg.h` says what each call tests, writes and answers. The build script finds the
//! archive: the one that `ALTAIRPEG_ARCHIVE` names, or that of the repository.

#![warn(missing_docs)]

/// The most cars of a night.
pub const CARS: usize = 4096;
/// The most trains of a night.
pub const TRAINS: usize = 256;
/// The most sorting tracks of a night.
pub const TRACKS: usize = 16;
/// The most cars for which a sorting track has room.
pub const ROOM: usize = 4096;
/// The most steps of a plan, and the highest step limit.
pub const STEPS: usize = 16;
/// The most passes that are priced.
pub const PASSES: usize = 69632;
/// The bytes of the longest card.
pub const CARD_BYTES: usize = 15271;

/// The most cars on a card of edition 1, and for the fewest passes.
pub const FIRST_CARS: usize = 512;
/// The most trains on a card of edition 1, and for the fewest passes.
pub const FIRST_TRAINS: usize = 64;
/// The most sorting tracks on a card of edition 1, and for the fewest passes.
pub const FIRST_TRACKS: usize = 8;
/// The most room on a card of edition 1, and for the fewest passes.
pub const FIRST_ROOM: usize = 512;
/// The most steps on a card of edition 1, and for the fewest passes.
pub const FIRST_STEPS: usize = 8;
/// The bytes of the longest card of edition 1.
pub const FIRST_CARD_BYTES: usize = 1237;

/// A night's mark: whether cars may roll to the destination tracks from the start.
///
/// It has no default: most yards are closed by day, every card of edition 1 is open, so the caller says which.
#[derive(Clone, Copy, Debug, PartialEq, Eq, Hash)]
pub enum Mark {
    /// The destination tracks take cars from the first roll-in on.
    Open,
    /// The destination tracks serve other work until the first pull: no car rolls to one before it.
    Closed,
}

impl Mark {
    /// The mark of a number, as the calls take it: 0 is open, every other closed.
    #[inline]
    pub fn of(number: usize) -> Mark {
        if number == 0 {
            Mark::Open
        } else {
            Mark::Closed
        }
    }

    /// The number by which a call takes it.
    #[inline]
    pub fn number(self) -> usize {
        match self {
            Mark::Open => 0,
            Mark::Closed => 1,
        }
    }
}

/// A night: the lengths of the outbound trains, the inbound order of the cars, the sorting tracks,
/// the room on each, and its mark.
#[derive(Clone, Copy, Debug, PartialEq, Eq)]
pub struct Night<'a> {
    /// The cars of each train; the list sets how many trains there are.
    pub lengths: &'a [u16],
    /// The cars, from 1, in the order in which they come in; the list sets how many there are.
    pub inbound: &'a [u16],
    /// The sorting tracks, 1 to 16.
    pub tracks: usize,
    /// The cars for which a sorting track has room, 1 to 4096.
    pub room: usize,
    /// Whether the destination tracks are open, or closed until the first pull.
    pub mark: Mark,
}

/// A plan: a night, its steps, and one code for each car, in car order.
#[derive(Clone, Copy, Debug, PartialEq, Eq)]
pub struct Plan<'a> {
    /// The night that is sorted.
    pub night: Night<'a>,
    /// The steps, 0 to 16.
    pub steps: usize,
    /// The codes: bit k set means that the car is pulled in step k.
    pub codes: &'a [u16],
}

/// The counts of a call that no list sets: the sorting tracks, the room on each, and the steps of a
/// plan or the step limit of derive.
#[repr(C)]
#[derive(Clone, Copy)]
struct Counts {
    tracks: usize,
    room: usize,
    steps: usize,
}

impl Counts {
    fn of(night: Night, steps: usize) -> Counts {
        Counts {
            tracks: night.tracks,
            room: night.room,
            steps,
        }
    }
}

/// A number and its two details.
#[repr(C)]
#[derive(Clone, Copy, Debug, PartialEq, Eq)]
pub struct Answer {
    /// The number, 0 where all is done.
    pub number: usize,
    /// Detail A, 0 where unused.
    pub a: usize,
    /// Detail B, 0 where unused.
    pub b: usize,
}

/// What the card reader tells: an answer, and a mark and counts that are all 0 where it refuses.
#[repr(C)]
#[derive(Clone, Copy, Debug, PartialEq, Eq)]
pub struct CardAnswer {
    /// The number and its details.
    pub answer: Answer,
    /// The number of the card's mark, for [`Mark::of`]; a card of edition 1 is open.
    pub mark: usize,
    /// The card's steps.
    pub steps: usize,
    /// The card's tracks.
    pub tracks: usize,
    /// The card's room.
    pub room: usize,
    /// The card's cars.
    pub cars: usize,
    /// The card's trains.
    pub trains: usize,
}

/// Seconds for a pull-out, and seconds to push one car: each 0 to 4096 and a multiple of 1/16.
#[repr(C)]
#[derive(Clone, Copy, Debug, PartialEq)]
pub struct Timings {
    /// Seconds for a pull-out.
    pub pull: f64,
    /// Seconds to push one car.
    pub push: f64,
}

/// What the price tells: an answer, and a price that is positive zero where it refuses.
#[repr(C)]
#[derive(Clone, Copy, Debug, PartialEq)]
pub struct PriceAnswer {
    /// The number and its details.
    pub answer: Answer,
    /// The price in seconds.
    pub price: f64,
}

/// The exports as the archive has them; the build script asks the archive for each name found here.
mod raw {
    use super::{Answer, CardAnswer, Counts, PriceAnswer, Timings};

    #[link(name = "altairpeg", kind = "static")]
    extern "C" {
        pub fn altairpeg_derive(
            lengths: *const u16,
            lengths_len: usize,
            inbound: *const u16,
            inbound_len: usize,
            mark: usize,
            counts: Counts,
            codes: *mut u16,
            codes_len: usize,
        ) -> Answer;
        pub fn altairpeg_fewest_passes(
            lengths: *const u16,
            lengths_len: usize,
            inbound: *const u16,
            inbound_len: usize,
            mark: usize,
            counts: Counts,
            codes: *mut u16,
            codes_len: usize,
        ) -> Answer;
        pub fn altairpeg_check(
            lengths: *const u16,
            lengths_len: usize,
            inbound: *const u16,
            inbound_len: usize,
            codes: *const u16,
            codes_len: usize,
            mark: usize,
            counts: Counts,
        ) -> Answer;
        pub fn altairpeg_replay(
            lengths: *const u16,
            lengths_len: usize,
            inbound: *const u16,
            inbound_len: usize,
            codes: *const u16,
            codes_len: usize,
            mark: usize,
            counts: Counts,
            stage: usize,
            on: *mut u16,
            on_len: usize,
            at: *mut u16,
            at_len: usize,
        ) -> Answer;
        pub fn altairpeg_read(
            card: *const u8,
            card_len: usize,
            lengths: *mut u16,
            lengths_len: usize,
            inbound: *mut u16,
            inbound_len: usize,
            codes: *mut u16,
            codes_len: usize,
        ) -> CardAnswer;
        pub fn altairpeg_write(
            lengths: *const u16,
            lengths_len: usize,
            inbound: *const u16,
            inbound_len: usize,
            codes: *const u16,
            codes_len: usize,
            mark: usize,
            counts: Counts,
            card: *mut u8,
            card_len: usize,
        ) -> Answer;
        pub fn altairpeg_price(steps: usize, passes: usize, timings: Timings) -> PriceAnswer;
        pub fn altairpeg_fewest_tracks(code: u16) -> usize;
    }
}

/// Calls an export with the lists it reads, its numbers, and the lists it writes; a list goes over as
/// a pointer, then a length.
macro_rules! call {
    ($name:ident reads [$($read:expr),*] counts [$($count:expr),*] writes [$($written:expr),*]) => {
        // SAFETY: each pointer comes from a slice and goes with its length, the slices written are
        // lent mutably and so overlap no other, and the library keeps no pointer.
        unsafe {
            raw::$name(
                $($read.as_ptr(), $read.len(),)*
                $($count,)*
                $($written.as_mut_ptr(), $written.len(),)*
            )
        }
    };
}

/// Derives the plan of a night with the fewest steps.
#[inline]
pub fn derive(night: Night, limit: usize, codes: &mut [u16]) -> Answer {
    call!(altairpeg_derive
        reads [night.lengths, night.inbound]
        counts [night.mark.number(), Counts::of(night, limit)]
        writes [codes])
}

/// Finds the codes of a night and a given number of steps with the fewest passes; the night and the
/// steps keep the first ranges, up to [`FIRST_CARS`] cars, and so on.
#[inline]
pub fn fewest_passes(night: Night, steps: usize, codes: &mut [u16]) -> Answer {
    call!(altairpeg_fewest_passes
        reads [night.lengths, night.inbound]
        counts [night.mark.number(), Counts::of(night, steps)]
        writes [codes])
}

/// Checks a plan by its replay.
#[inline]
pub fn check(plan: Plan) -> Answer {
    call!(altairpeg_check
        reads [plan.night.lengths, plan.night.inbound, plan.codes]
        counts [plan.night.mark.number(), Counts::of(plan.night, plan.steps)]
        writes [])
}

/// Replays a plan to a stage: each car's track to `on`, its place there to `at`.
#[inline]
pub fn replay(plan: Plan, stage: usize, on: &mut [u16], at: &mut [u16]) -> Answer {
    call!(altairpeg_replay
        reads [plan.night.lengths, plan.night.inbound, plan.codes]
        counts [plan.night.mark.number(), Counts::of(plan.night, plan.steps), stage]
        writes [on, at])
}

/// Reads a night card of edition 1 or 2.
#[inline]
pub fn read(
    card: &[u8],
    lengths: &mut [u16],
    inbound: &mut [u16],
    codes: &mut [u16],
) -> CardAnswer {
    call!(altairpeg_read reads [card] counts [] writes [lengths, inbound, codes])
}

/// Writes the night card of a plan: edition 1 where its night is open and all its counts keep the first ranges, else edition 2.
#[inline]
pub fn write(plan: Plan, card: &mut [u8]) -> Answer {
    call!(altairpeg_write
        reads [plan.night.lengths, plan.night.inbound, plan.codes]
        counts [plan.night.mark.number(), Counts::of(plan.night, plan.steps)]
        writes [card])
}

/// Prices a night, exactly.
#[inline]
pub fn price(steps: usize, passes: usize, timings: Timings) -> PriceAnswer {
    call!(altairpeg_price reads [] counts [steps, passes, timings] writes [])
}

/// The fewest tracks, 1 to 16, on which a car with this code is never pulled early.
#[inline]
pub fn fewest_tracks(code: u16) -> usize {
    call!(altairpeg_fewest_tracks reads [] counts [code] writes [])
}
