//! The library through its C interface, with its answers in the second program's own types.

use crate::answers::{Answer, CardAnswer, PriceAnswer, Timings};
use crate::{Calls, Mark, Night, Plan};

pub struct Library;

impl Calls for Library {
    const NAME: &'static str = "library";
    type Told = altairpeg_sys::Answer;
    type CardTold = altairpeg_sys::CardAnswer;

    #[inline]
    fn derive(night: Night, limit: usize, codes: &mut [u16]) -> altairpeg_sys::Answer {
        altairpeg_sys::derive(lent_night(night), limit, codes)
    }

    #[inline]
    fn fewest_passes(night: Night, steps: usize, codes: &mut [u16]) -> altairpeg_sys::Answer {
        altairpeg_sys::fewest_passes(lent_night(night), steps, codes)
    }

    #[inline]
    fn check(plan: Plan) -> altairpeg_sys::Answer {
        altairpeg_sys::check(lent(plan))
    }

    #[inline]
    fn replay(plan: Plan, stage: usize, on: &mut [u16], at: &mut [u16]) -> altairpeg_sys::Answer {
        altairpeg_sys::replay(lent(plan), stage, on, at)
    }

    #[inline]
    fn read(
        card: &[u8],
        lengths: &mut [u16],
        inbound: &mut [u16],
        codes: &mut [u16],
    ) -> altairpeg_sys::CardAnswer {
        altairpeg_sys::read(card, lengths, inbound, codes)
    }

    #[inline]
    fn write(plan: Plan, card: &mut [u8]) -> altairpeg_sys::Answer {
        altairpeg_sys::write(lent(plan), card)
    }

    fn price(steps: usize, passes: usize, timings: Timings) -> PriceAnswer {
        let Timings { pull, push } = timings;
        let told = altairpeg_sys::price(steps, passes, altairpeg_sys::Timings { pull, push });
        PriceAnswer {
            number: told.answer.number,
            a: told.answer.a,
            b: told.answer.b,
            price: told.price,
        }
    }

    fn fewest_tracks(code: u16) -> usize {
        altairpeg_sys::fewest_tracks(code)
    }
}

#[inline]
fn lent_mark(mark: Mark) -> altairpeg_sys::Mark {
    match mark {
        Mark::Open => altairpeg_sys::Mark::Open,
        Mark::Closed => altairpeg_sys::Mark::Closed,
    }
}

#[inline]
fn lent_night(night: Night) -> altairpeg_sys::Night {
    altairpeg_sys::Night {
        lengths: night.lengths,
        inbound: night.inbound,
        tracks: night.tracks,
        room: night.room,
        mark: lent_mark(night.mark),
    }
}

#[inline]
fn lent(plan: Plan) -> altairpeg_sys::Plan {
    altairpeg_sys::Plan {
        night: lent_night(plan.night),
        steps: plan.steps,
        codes: plan.codes,
    }
}

impl From<altairpeg_sys::Answer> for Answer {
    #[inline]
    fn from(told: altairpeg_sys::Answer) -> Answer {
        Answer {
            number: told.number,
            a: told.a,
            b: told.b,
        }
    }
}

impl From<altairpeg_sys::CardAnswer> for CardAnswer {
    #[inline]
    fn from(told: altairpeg_sys::CardAnswer) -> CardAnswer {
        CardAnswer {
            number: told.answer.number,
            a: told.answer.a,
            b: told.answer.b,
            mark: told.mark,
            steps: told.steps,
            tracks: told.tracks,
            room: told.room,
            cars: told.cars,
            trains: told.trains,
        }
    }
}
