//! Drives an implementation of the calls and the reference with the same input, and
//! compares every answer, every item written and every item that must stay.

use crate::answers::{Answer, CardAnswer, Refusal, Timings};
use crate::cards::{self, CardBuffers};
use crate::counts::MOST;
use crate::random::Random;
use crate::reference::{self, Derived};
use crate::steps::usable_tracks;
use crate::tally::{Call, Detail, Edition, Tally};
use crate::{Calls, Night, Plan};
use std::fmt::Debug;

/// Items that stand before and behind each lent list and that no call may touch.
const GUARDS: usize = 8;

/// A list lent to a call as a part of a longer one.
#[derive(Clone)]
struct Lent<T> {
    whole: Vec<T>,
}

impl<T: Copy> Lent<T> {
    /// These items, with guards around them.
    fn holding(items: &[T], mut guard: impl FnMut() -> T) -> Lent<T> {
        let mut whole: Vec<T> = (0..GUARDS).map(|_| guard()).collect();
        whole.extend(items);
        whole.extend((0..GUARDS).map(|_| guard()));
        Lent { whole }
    }

    /// A buffer of this length whose items are guards as well until they are written.
    fn blank(len: usize, mut guard: impl FnMut() -> T) -> Lent<T> {
        let whole = (0..len + 2 * GUARDS).map(|_| guard()).collect();
        Lent { whole }
    }

    fn part(&self) -> &[T] {
        &self.whole[GUARDS..self.whole.len() - GUARDS]
    }

    fn part_mut(&mut self) -> &mut [T] {
        let end = self.whole.len() - GUARDS;
        &mut self.whole[GUARDS..end]
    }

    /// What must stand here after a call that writes these items first and no others.
    fn after_writing(&self, items: &[T]) -> Vec<T> {
        let mut after = self.whole.clone();
        after[GUARDS..GUARDS + items.len()].copy_from_slice(items);
        after
    }
}

/// An answer and all lists, guards included, as they stand after the call.
#[derive(Debug, PartialEq)]
struct Outcome<A> {
    answer: A,
    lists: Vec<Vec<u16>>,
    card: Vec<u8>,
}

/// The first difference, with the whole input.
fn judge<A: Debug + PartialEq>(
    name: &str,
    input: impl Fn() -> String,
    wanted: Outcome<A>,
    got: Outcome<A>,
) -> Result<(), String> {
    if wanted == got {
        return Ok(());
    }
    let mut report = format!("{name} differs from the reference\ninput: {}\n", input());
    report += &format!("the reference answers {:?}\n", wanted.answer);
    report += &format!("the {name} answers {:?}\n", got.answer);
    for (wanted, got) in wanted.lists.iter().zip(&got.lists) {
        if wanted != got {
            report += &format!("a list of {GUARDS} guards, items and guards must be {wanted:?}\n");
            report += &format!("and is {got:?}\n");
        }
    }
    if wanted.card != got.card {
        report += &format!("a card between {GUARDS} guards must be {:?}\n", wanted.card);
        report += &format!("and is {:?}\n", got.card);
    }
    Err(report)
}

/// The lists of a night or plan as they are lent, with their guards.
struct LentPlan {
    lengths: Lent<u16>,
    inbound: Lent<u16>,
    codes: Lent<u16>,
}

impl LentPlan {
    fn of(random: &mut Random, night: Night, codes: &[u16]) -> LentPlan {
        let mut guard = || random.bits() as u16;
        LentPlan {
            lengths: Lent::holding(night.lengths, &mut guard),
            inbound: Lent::holding(night.inbound, &mut guard),
            codes: Lent::holding(codes, &mut guard),
        }
    }

    fn night<'a>(&'a self, night: Night) -> Night<'a> {
        Night {
            lengths: self.lengths.part(),
            inbound: self.inbound.part(),
            tracks: night.tracks,
            room: night.room,
            mark: night.mark,
        }
    }

    fn plan<'a>(&'a self, plan: Plan) -> Plan<'a> {
        Plan {
            night: self.night(plan.night),
            steps: plan.steps,
            codes: self.codes.part(),
        }
    }

    /// All items, for no call may change what it is lent to read.
    fn items(&self) -> Vec<Vec<u16>> {
        let lists = [&self.lengths, &self.inbound, &self.codes];
        lists.map(|list| list.whole.clone()).to_vec()
    }
}

fn count(tally: &mut Tally, call: Call, answer: Answer) {
    tally.count(call, answer.number, answer.a, answer.b);
}

pub fn compare_derive<C: Calls>(
    random: &mut Random,
    tally: &mut Tally,
    night: Night,
    limit: usize,
    codes_len: usize,
) -> Result<(), String> {
    let asked = Asked {
        call: Call::Derive(night.mark),
        night,
        steps: limit,
        codes_len,
    };
    let outcome = reference::derive(night, limit, codes_len);
    compare_codes::<C>(random, tally, asked, outcome, C::derive)
}

/// The reference finds its codes by this search.
pub fn compare_fewest_passes<C: Calls>(
    random: &mut Random,
    tally: &mut Tally,
    night: Night,
    steps: usize,
    codes_len: usize,
    search: impl Fn(Night, usize) -> Option<Vec<u16>>,
) -> Result<(), String> {
    let asked = Asked {
        call: Call::FewestPasses(night.mark),
        night,
        steps,
        codes_len,
    };
    let outcome = reference::fewest_passes(night, steps, codes_len, search);
    compare_codes::<C>(random, tally, asked, outcome, C::fewest_passes)
}

/// What is asked of a call that finds codes: the steps may be a limit.
#[derive(Debug)]
struct Asked<'a> {
    call: Call,
    night: Night<'a>,
    steps: usize,
    codes_len: usize,
}

fn compare_codes<C: Calls>(
    random: &mut Random,
    tally: &mut Tally,
    asked: Asked,
    outcome: Result<Derived, Refusal>,
    find: fn(Night, usize, &mut [u16]) -> C::Told,
) -> Result<(), String> {
    let lent = LentPlan::of(random, asked.night, &[]);
    let mut codes = Lent::blank(asked.codes_len, || random.bits() as u16);
    let written = outcome.as_ref().map_or(&[][..], |derived| &derived.codes);
    let mut lists = lent.items();
    lists.push(codes.after_writing(written));
    let wanted = Outcome {
        answer: reference::derive_answer(&outcome),
        lists,
        card: Vec::new(),
    };
    count(tally, asked.call, wanted.answer);
    let answer = find(lent.night(asked.night), asked.steps, codes.part_mut()).into();
    let mut lists = lent.items();
    lists.push(codes.whole);
    let got = Outcome {
        answer,
        lists,
        card: Vec::new(),
    };
    judge(C::NAME, || format!("{asked:?}"), wanted, got)
}

pub fn compare_check<C: Calls>(
    random: &mut Random,
    tally: &mut Tally,
    plan: Plan,
) -> Result<(), String> {
    let lent = LentPlan::of(random, plan.night, plan.codes);
    let wanted = Outcome {
        answer: reference::check_answer(&reference::check(plan)),
        lists: lent.items(),
        card: Vec::new(),
    };
    count(tally, Call::Check(plan.night.mark), wanted.answer);
    let got = Outcome {
        answer: C::check(lent.plan(plan)).into(),
        lists: lent.items(),
        card: Vec::new(),
    };
    judge(C::NAME, || format!("check {plan:?}"), wanted, got)
}

/// The buffers for tracks and places, by their lengths.
#[derive(Clone, Copy, Debug)]
pub struct StageBuffers {
    pub on: usize,
    pub at: usize,
}

pub fn compare_replay<C: Calls>(
    random: &mut Random,
    tally: &mut Tally,
    plan: Plan,
    stage: usize,
    buffers: StageBuffers,
) -> Result<(), String> {
    let lent = LentPlan::of(random, plan.night, plan.codes);
    let mut on = Lent::blank(buffers.on, || random.bits() as u16);
    let mut at = Lent::blank(buffers.at, || random.bits() as u16);
    let outcome = reference::replay(plan, stage, buffers.on, buffers.at);
    let (tracks, places) = match &outcome {
        Ok(staged) => (&staged.on[..], &staged.at[..]),
        Err(_) => (&[][..], &[][..]),
    };
    let mut lists = lent.items();
    lists.extend([on.after_writing(tracks), at.after_writing(places)]);
    let wanted = Outcome {
        answer: reference::replay_answer(&outcome),
        lists,
        card: Vec::new(),
    };
    count(tally, Call::Replay(plan.night.mark), wanted.answer);
    let answer = C::replay(lent.plan(plan), stage, on.part_mut(), at.part_mut()).into();
    let mut lists = lent.items();
    lists.extend([on.whole, at.whole]);
    let got = Outcome {
        answer,
        lists,
        card: Vec::new(),
    };
    let input = || format!("replay {plan:?} stage {stage} {buffers:?}");
    judge(C::NAME, input, wanted, got)
}

pub fn compare_write<C: Calls>(
    random: &mut Random,
    tally: &mut Tally,
    plan: Plan,
    card_len: usize,
) -> Result<(), String> {
    let lent = LentPlan::of(random, plan.night, plan.codes);
    let mut card = Lent::blank(card_len, || random.bits() as u8);
    let outcome = cards::write(plan, card_len);
    let written = outcome.as_ref().map_or(&[][..], |bytes| bytes);
    let wanted = Outcome {
        answer: reference::write_answer(&outcome),
        lists: lent.items(),
        card: card.after_writing(written),
    };
    let call = Call::Write(plan.night.mark);
    match &outcome {
        Ok(bytes) => tally.count_detail(call, 0, Detail::DoneOn(Edition::of(bytes))),
        Err(_) => count(tally, call, wanted.answer),
    }
    let got = Outcome {
        answer: C::write(lent.plan(plan), card.part_mut()).into(),
        lists: lent.items(),
        card: card.whole,
    };
    let input = || format!("write {plan:?} buffer {card_len}");
    judge(C::NAME, input, wanted, got)
}

pub fn compare_read<C: Calls>(
    random: &mut Random,
    tally: &mut Tally,
    bytes: &[u8],
    buffers: CardBuffers,
) -> Result<(), String> {
    let card = Lent::holding(bytes, || random.bits() as u8);
    let mut lengths = Lent::blank(buffers.lengths, || random.bits() as u16);
    let mut inbound = Lent::blank(buffers.inbound, || random.bits() as u16);
    let mut codes = Lent::blank(buffers.codes, || random.bits() as u16);
    let outcome = cards::read(bytes, buffers);
    let written = match &outcome {
        Ok(card) => [&card.lengths[..], &card.inbound, &card.codes],
        Err(_) => [&[][..]; 3],
    };
    let wanted = Outcome {
        answer: reference::read_answer(&outcome),
        lists: vec![
            lengths.after_writing(written[0]),
            inbound.after_writing(written[1]),
            codes.after_writing(written[2]),
        ],
        card: card.whole.clone(),
    };
    let call = Call::Read(Edition::of(bytes));
    let CardAnswer { number, a, b, .. } = wanted.answer;
    match &outcome {
        Ok(card) => tally.count_detail(call, 0, Detail::DoneWith(card.mark)),
        Err(_) => tally.count(call, number, a, b),
    }
    let answer = C::read(
        card.part(),
        lengths.part_mut(),
        inbound.part_mut(),
        codes.part_mut(),
    )
    .into();
    let got = Outcome {
        answer,
        lists: vec![lengths.whole, inbound.whole, codes.whole],
        card: card.whole,
    };
    judge(
        C::NAME,
        || format!("read {bytes:?} {buffers:?}"),
        wanted,
        got,
    )
}

pub fn compare_price<C: Calls>(
    tally: &mut Tally,
    steps: usize,
    passes: usize,
    timings: Timings,
) -> Result<(), String> {
    let wanted = Outcome {
        answer: reference::price_answer(&reference::price(steps, passes, timings)),
        lists: Vec::new(),
        card: Vec::new(),
    };
    tally.count(
        Call::Price,
        wanted.answer.number,
        wanted.answer.a,
        wanted.answer.b,
    );
    let got = Outcome {
        answer: C::price(steps, passes, timings),
        lists: Vec::new(),
        card: Vec::new(),
    };
    let bits = [timings.pull.to_bits(), timings.push.to_bits()];
    let input = || format!("price steps {steps} passes {passes} {timings:?} bits {bits:x?}");
    judge(C::NAME, input, wanted, got)
}

/// A code must be usable on just those numbers of tracks that are at least the fewest which a call tells.
pub fn compare_fewest_tracks<C: Calls>(tally: &mut Tally, code: u16) -> Result<(), String> {
    let usable = usable_tracks(code);
    tally.count_detail(Call::FewestTracks, 0, Detail::Exactly(usable[0]));
    let wanted = Outcome {
        answer: usable,
        lists: Vec::new(),
        card: Vec::new(),
    };
    let got = Outcome {
        answer: (C::fewest_tracks(code)..=MOST.tracks).collect(),
        lists: Vec::new(),
        card: Vec::new(),
    };
    let input = || format!("tracks on which code {code} is usable");
    judge(C::NAME, input, wanted, got)
}
