//! Nights, plans, cards and timings, sound ones and damaged ones, from a seed.

use crate::answers::Timings;
use crate::cards::{self, pack, pack_counts, write, Layout};
use crate::counts::{Counts, FIRST, LONGEST_CARD, MOST};
use crate::passes::go_car_by_car;
use crate::random::Random;
use crate::reference::derive;
use crate::steps::{all_codes, breaks_before, kept_codes};
use crate::yard::{place_of, Replay};
use crate::{Mark, Night, Plan, MARKS};

/// A night that owns its lists.
#[derive(Clone, Debug)]
pub struct OwnNight {
    pub lengths: Vec<u16>,
    pub inbound: Vec<u16>,
    pub tracks: usize,
    pub room: usize,
    pub mark: Mark,
}

/// A plan that owns its lists.
#[derive(Clone, Debug)]
pub struct OwnPlan {
    pub night: OwnNight,
    pub steps: usize,
    pub codes: Vec<u16>,
}

impl OwnNight {
    pub fn lend(&self) -> Night<'_> {
        Night {
            lengths: &self.lengths,
            inbound: &self.inbound,
            tracks: self.tracks,
            room: self.room,
            mark: self.mark,
        }
    }
}

impl OwnPlan {
    pub fn lend(&self) -> Plan<'_> {
        Plan {
            night: self.night.lend(),
            steps: self.steps,
            codes: &self.codes,
        }
    }
}

/// The ranges of document 01, in which both kinds of card and every call are met, or those of bigger nights.
pub fn any_ranges(random: &mut Random) -> Counts {
    random.pick(&[FIRST, MOST])
}

/// A sound night within these ranges, open or closed; most are short, since faults show there as well.
pub fn any_night(random: &mut Random, most: Counts) -> OwnNight {
    let mark = random.pick(&MARKS);
    if random.chance(5) {
        return heavy_night(random, mark);
    }
    let cars = any_count(random, most);
    let trains = any_trains(random, cars, most);
    let mut night = night_of(random, mark, cars, trains, most);
    if random.chance(30) {
        night.room = random.within(1..=cars);
    }
    night
}

/// One train in which most cars share a code with one set bit, so that the step of this
/// bit pulls the most cars, however late it comes.
fn heavy_night(random: &mut Random, mark: Mark) -> OwnNight {
    let step = random.below(FIRST.steps);
    let tracks = random.within(step + 1..=FIRST.tracks);
    let usable = kept_codes(mark, tracks, FIRST.steps);
    let number = place_of(usable, 1 << step);
    let blocks = random.within(number + 1..=number + 10);
    let cars = random.within(2 * blocks..=FIRST.cars);
    let mut lengths = vec![1; blocks];
    lengths[number] += (cars - blocks) as u16;
    OwnNight {
        tracks,
        room: FIRST.room,
        mark,
        ..one_train(&lengths)
    }
}

/// Some nights take the reference long, so that few of them are as long as they may be.
fn any_count(random: &mut Random, most: Counts) -> usize {
    match random.below(200) {
        0..=89 => random.within(1..=8),
        90..=159 => random.within(9..=64),
        160..=195 => random.within(65..=FIRST.cars),
        196 => random.within(FIRST.cars..=most.cars),
        197 => most.cars,
        _ => FIRST.cars,
    }
}

fn any_trains(random: &mut Random, cars: usize, most: Counts) -> usize {
    let most = cars.min(most.trains);
    match random.below(10) {
        0..=3 => 1,
        4..=6 => random.within(1..=most.min(4)),
        7..=8 => random.within(1..=most),
        _ => most,
    }
}

/// A sound night with this mark and these counts, any number of tracks and room for all cars.
pub fn night_of(
    random: &mut Random,
    mark: Mark,
    cars: usize,
    trains: usize,
    most: Counts,
) -> OwnNight {
    OwnNight {
        lengths: any_lengths(random, cars, trains),
        inbound: any_inbound(random, cars),
        tracks: random.within(1..=most.tracks),
        room: most.room,
        mark,
    }
}

/// The cars cut into trains at places of their own.
fn any_lengths(random: &mut Random, cars: usize, trains: usize) -> Vec<u16> {
    let mut cuts: Vec<usize> = (1..cars).collect();
    random.shuffle(&mut cuts);
    cuts.truncate(trains - 1);
    cuts.sort_unstable();
    cuts.push(cars);
    let mut last_cut = 0;
    let mut lengths = Vec::new();
    for cut in cuts {
        lengths.push((cut - last_cut) as u16);
        last_cut = cut;
    }
    lengths
}

fn any_inbound(random: &mut Random, cars: usize) -> Vec<u16> {
    let sorted: Vec<u16> = (1..=cars as u16).collect();
    match random.below(10) {
        0 => sorted,
        1 => sorted.into_iter().rev().collect(),
        2..=3 => shuffled(random, sorted),
        4..=6 => runs(random, sorted),
        7 => swapped(random, sorted),
        _ => blocks_reversed(random, &sorted),
    }
}

pub fn shuffled(random: &mut Random, mut cars: Vec<u16>) -> Vec<u16> {
    random.shuffle(&mut cars);
    cars
}

/// Presorted as inbound trains are: a few runs, each in order, one behind the other.
pub fn runs(random: &mut Random, cars: Vec<u16>) -> Vec<u16> {
    let count = random.within(2..=12);
    let mut runs = vec![Vec::new(); count];
    for car in cars {
        runs[random.below(count)].push(car);
    }
    runs.concat()
}

/// In order but for a few pairs that changed places.
fn swapped(random: &mut Random, mut cars: Vec<u16>) -> Vec<u16> {
    for _ in 0..random.within(1..=4) {
        let (one, other) = (random.below(cars.len()), random.below(cars.len()));
        cars.swap(one, other);
    }
    cars
}

/// Blocks of neighbouring cars, the last block in front, so that breaks are many and known.
fn blocks_reversed(random: &mut Random, cars: &[u16]) -> Vec<u16> {
    let few = random.within(1..=cars.len().min(300));
    let count = match cars.len() > FIRST.cars && random.chance(50) {
        true => random.within(few..=cars.len()),
        false => few,
    };
    let lengths = any_lengths(random, cars.len(), count);
    last_block_first(cars, &lengths)
}

/// An open night of one train with exactly so many breaks, on eight tracks with room for all cars.
pub fn train_with_breaks(random: &mut Random, cars: usize, breaks: usize) -> OwnNight {
    OwnNight {
        tracks: FIRST.tracks,
        room: FIRST.room,
        ..one_train(&any_lengths(random, cars, breaks + 1))
    }
}

/// A night of one train of 4,096 cars on two tracks, in whose derived plan this step, at most step 13, pulls the most cars:
/// about half of those that it pulls have either of two codes with no other set bit in common.
pub fn late_heavy_train(mark: Mark, step: usize) -> OwnNight {
    let usable = kept_codes(mark, 2, MOST.steps);
    let every_other = |from: usize| (0..=from).rev().step_by(2).map(|bit| 1 << bit).sum::<u16>();
    let last_bit = 1 << step;
    let one = place_of(usable, every_other(step));
    let other = place_of(usable, last_bit | every_other(step.saturating_sub(1)));
    let mut blocks = vec![1; other + 1];
    let half = (MOST.cars - blocks.len()) / 2;
    blocks[one] += half as u16;
    blocks[other] += half as u16;
    OwnNight {
        tracks: 2,
        mark,
        ..one_train(&blocks)
    }
}

/// An open night of one train that comes in as blocks of these lengths, the last one first, on one track with room for
/// all cars.
pub fn one_train(blocks: &[u16]) -> OwnNight {
    let cars = blocks.iter().sum();
    let sorted: Vec<u16> = (1..=cars).collect();
    OwnNight {
        lengths: vec![cars],
        inbound: last_block_first(&sorted, blocks),
        tracks: 1,
        room: MOST.room,
        mark: Mark::Open,
    }
}

fn last_block_first(cars: &[u16], lengths: &[u16]) -> Vec<u16> {
    let mut inbound = Vec::new();
    let mut end = cars.len();
    for &length in lengths.iter().rev() {
        let start = end - usize::from(length);
        inbound.extend(&cars[start..end]);
        end = start;
    }
    inbound
}

/// A plan for a sound night: derived, raised, strewn or random, before any damage.
pub fn any_plan(random: &mut Random, night: &OwnNight) -> OwnPlan {
    let mut plan = match random.below(20) {
        0..=7 => derived_plan(night),
        8..=11 => rising_plan(random, night),
        12..=13 => more_steps(random, derived_plan(night)),
        14..=15 => usable_plan(random, night),
        16..=17 => flipped_plan(random, night),
        18 => gapped_plan(random, night),
        _ => random_plan(random, night),
    };
    if random.chance(40) {
        plan.night.room = tight_room(random, &plan);
    }
    plan
}

/// The plan of these steps, or eight, with the fewest passes, or one with the lowest code for all cars where no
/// codes build the trains.
pub fn lightest_plan(night: &OwnNight, steps: usize) -> OwnPlan {
    let steps = steps.min(FIRST.steps);
    let lowest = || vec![lowest_code(night.mark); night.inbound.len()];
    OwnPlan {
        night: night.clone(),
        steps,
        codes: go_car_by_car(night.lend(), steps).unwrap_or_else(lowest),
    }
}

/// The derived plan, or one with the lowest code for all cars where no sixteen steps are enough.
pub fn derived_plan(night: &OwnNight) -> OwnPlan {
    let lowest = || OwnPlan {
        night: night.clone(),
        steps: MOST.steps,
        codes: vec![lowest_code(night.mark); night.inbound.len()],
    };
    derived_within(night, MOST.steps).unwrap_or_else(lowest)
}

/// The derived plan, if so many steps are enough; room aside.
pub fn derived_within(night: &OwnNight, limit: usize) -> Option<OwnPlan> {
    let ample = Night {
        room: MOST.room,
        ..night.lend()
    };
    let derived = derive(ample, limit, night.inbound.len()).ok()?;
    Some(OwnPlan {
        night: night.clone(),
        steps: derived.steps,
        codes: derived.codes,
    })
}

/// The lowest code that no barred destination turns away.
fn lowest_code(mark: Mark) -> u16 {
    kept_codes(mark, 1, 1)[0]
}

/// A plan that builds the trains with other codes than the derived one, if enough are there.
fn rising_plan(random: &mut Random, night: &OwnNight) -> OwnPlan {
    let mut plan = more_steps(random, derived_plan(night));
    let usable = kept_codes(night.mark, night.tracks, plan.steps);
    let breaks = breaks_before(night.lend());
    let most_breaks = breaks.iter().copied().max().unwrap_or(0);
    if most_breaks < usable.len() {
        let spare = usable.len() - 1 - most_breaks;
        let mut car = 0;
        for &length in &night.lengths {
            let mut lifted = random.below(spare + 1);
            for _ in 0..length {
                plan.codes[car] = usable[breaks[car] + lifted];
                lifted = random.within(lifted..=spare.min(lifted + 1));
                car += 1;
            }
        }
    }
    plan
}

/// The same codes with more steps, in which no car is pulled.
fn more_steps(random: &mut Random, mut plan: OwnPlan) -> OwnPlan {
    let most = any_ranges(random).steps;
    plan.steps = random.within(plan.steps..=most.max(plan.steps));
    plan
}

/// Up to eight steps, which a card of edition 1 may have, or up to sixteen.
fn any_steps(random: &mut Random) -> usize {
    let most = any_ranges(random).steps;
    random.within(0..=most)
}

fn usable_plan(random: &mut Random, night: &OwnNight) -> OwnPlan {
    let steps = any_steps(random);
    let usable = strewn_codes(random, night, steps);
    plan_with(night, steps, || random.pick(usable))
}

/// The usable codes of a night; now and then, and where there are none, code 0 is among them although
/// the night is closed.
fn strewn_codes(random: &mut Random, night: &OwnNight, steps: usize) -> &'static [u16] {
    let mark = match steps == 0 || random.chance(25) {
        true => Mark::Open,
        false => night.mark,
    };
    kept_codes(mark, night.tracks, steps)
}

/// Usable codes, but for a few in which bits are turned over.
fn flipped_plan(random: &mut Random, night: &OwnNight) -> OwnPlan {
    let mut plan = usable_plan(random, night);
    for _ in 0..random.within(1..=3) {
        let car = random.below(plan.codes.len());
        plan.codes[car] ^= random.below(1 << plan.steps) as u16;
    }
    plan
}

/// Usable codes on few tracks, but for one with a gap that a late step falls into.
fn gapped_plan(random: &mut Random, night: &OwnNight) -> OwnPlan {
    let most = any_ranges(random).steps;
    let steps = random.within(most - 2..=most);
    let tracks = random.within(1..=3);
    let night = OwnNight {
        tracks,
        ..night.clone()
    };
    let usable = strewn_codes(random, &night, steps);
    let mut plan = plan_with(&night, steps, || random.pick(usable));
    let car = random.below(plan.codes.len());
    plan.codes[car] = late_gap(random, tracks, steps);
    plan
}

/// All bits but W neighbouring ones; the step of the lowest of these takes the car early.
fn late_gap(random: &mut Random, tracks: usize, steps: usize) -> u16 {
    let gap = all_bits(tracks) << random.below(steps - tracks);
    all_bits(steps) & !gap
}

/// The code of a car that is pulled in each of these steps.
pub fn all_bits(steps: usize) -> u16 {
    all_codes(steps).last().unwrap_or(0)
}

fn random_plan(random: &mut Random, night: &OwnNight) -> OwnPlan {
    let steps = any_steps(random);
    plan_with(night, steps, || random.below(1 << steps) as u16)
}

fn plan_with(night: &OwnNight, steps: usize, code: impl FnMut() -> u16) -> OwnPlan {
    let codes = std::iter::repeat_with(code).take(night.inbound.len());
    OwnPlan {
        night: night.clone(),
        steps,
        codes: codes.collect(),
    }
}

/// A room within one car of what some step pulls, so that refusal 6 is just met or missed.
pub fn tight_room(random: &mut Random, plan: &OwnPlan) -> usize {
    // With open destinations no code 0 ends the replay before its pulls.
    let pulls = Replay::of(plan.lend().opened()).pulls;
    if pulls.is_empty() {
        let most = any_ranges(random).room;
        return random.within(1..=most);
    }
    let fullest = pulls.iter().copied().max().unwrap_or(0);
    let some = random.pick(&pulls);
    let cars = random.pick(&[fullest, some]);
    (cars + 1)
        .saturating_sub(random.below(3))
        .clamp(1, MOST.room)
}

/// The ends of the ranges, and what lies just beyond them.
const EDGES: [usize; 16] = [
    8, 9, 16, 17, 64, 65, 256, 257, 512, 513, 4096, 4097, 4608, 4609, 69_632, 69_633,
];

/// A count that is out of its range in most cases, or looks like `count` in fewer bits.
pub fn wild_count(random: &mut Random, count: usize) -> usize {
    let bits = random.pick(&[8, 16, 32, 63]);
    match random.below(6) {
        0 => 0,
        1 => random.pick(&EDGES),
        2 => usize::MAX - random.below(3),
        3 => count.wrapping_add(1 << bits),
        4 => count.wrapping_neg(),
        _ => count.wrapping_add(1),
    }
}

/// One fault in a night; some leave it sound, as a length moved from train to train or a mark picked anew.
pub fn damage_night(random: &mut Random, night: &mut OwnNight) {
    match random.below(13) {
        0 => night.tracks = wild_count(random, night.tracks),
        1 => night.room = wild_count(random, night.room),
        2 => damage_item(random, &mut night.lengths),
        3 => zero_item(random, &mut night.lengths),
        4 => move_length(random, &mut night.lengths),
        5 => damage_length(random, &mut night.lengths, |most| most.trains),
        6 => wrap_lengths(&mut night.lengths),
        7 => damage_item(random, &mut night.inbound),
        8 => zero_item(random, &mut night.inbound),
        9 => duplicate_item(random, &mut night.inbound),
        10 => damage_length(random, &mut night.inbound, |most| most.cars),
        11 => night.mark = random.pick(&MARKS),
        _ => put_beyond(random, &mut night.inbound),
    }
}

/// One fault in a plan's codes or steps.
pub fn damage_codes(random: &mut Random, plan: &mut OwnPlan) {
    match random.below(8) {
        0 => damage_item(random, &mut plan.codes),
        1 => flip_bit(random, &mut plan.codes),
        2 => set_too_large(random, plan),
        3 => duplicate_item(random, &mut plan.codes),
        4 => damage_length(random, &mut plan.codes, |most| most.cars),
        5 => plan.steps = any_steps(random),
        6 => zero_item(random, &mut plan.codes),
        _ => plan.steps = wild_count(random, plan.steps),
    }
}

fn place_in<T>(random: &mut Random, list: &[T]) -> Option<usize> {
    (!list.is_empty()).then(|| random.below(list.len()))
}

fn damage_item(random: &mut Random, list: &mut [u16]) {
    if let Some(place) = place_in(random, list) {
        list[place] = match random.below(4) {
            0 => list[place].wrapping_add(1),
            1 => list[place].wrapping_sub(1),
            2 => random.bits() as u16,
            _ => random.below(list.len() + 2) as u16,
        };
    }
}

fn zero_item(random: &mut Random, list: &mut [u16]) {
    if let Some(place) = place_in(random, list) {
        list[place] = 0;
    }
}

fn duplicate_item(random: &mut Random, list: &mut [u16]) {
    if let (Some(from), Some(to)) = (place_in(random, list), place_in(random, list)) {
        list[to] = list[from];
    }
}

/// A number just above the list's own length, which no car bears.
fn put_beyond(random: &mut Random, list: &mut [u16]) {
    if let Some(place) = place_in(random, list) {
        list[place] = (list.len() as u16).wrapping_add(random.below(2) as u16);
    }
}

fn flip_bit(random: &mut Random, list: &mut [u16]) {
    if let Some(place) = place_in(random, list) {
        list[place] ^= 1 << random.below(16);
    }
}

fn set_too_large(random: &mut Random, plan: &mut OwnPlan) {
    if let Some(place) = place_in(random, &plan.codes) {
        let least = 1u16.checked_shl(plan.steps as u32).unwrap_or(u16::MAX);
        plan.codes[place] = random.pick(&[least, least.saturating_add(1), 255, 256, u16::MAX]);
    }
}

fn move_length(random: &mut Random, lengths: &mut [u16]) {
    if let (Some(from), Some(to)) = (place_in(random, lengths), place_in(random, lengths)) {
        lengths[from] = lengths[from].wrapping_sub(1);
        lengths[to] = lengths[to].wrapping_add(1);
    }
}

/// Adds 65536 to the sum, so that a sum kept in 16 bits would still be right.
fn wrap_lengths(lengths: &mut Vec<u16>) {
    match lengths.last_mut() {
        Some(last) if *last > 1 => {
            *last -= 1;
            lengths.extend([u16::MAX, 2]);
        }
        _ => lengths.extend([u16::MAX, 1]),
    }
}

/// One item short or long, empty, or as long as the ranges allow and just beyond.
fn damage_length(random: &mut Random, list: &mut Vec<u16>, most: fn(Counts) -> usize) {
    let next = (list.len() as u16).wrapping_add(1);
    match random.below(40) {
        0..=11 => {
            list.pop();
        }
        12..=23 => list.push(next),
        24..=29 => list.clear(),
        30..=38 => extend_to(list, most(any_ranges(random)) + random.below(3)),
        // A length that looks right in 16 bits; rare, since it takes long.
        _ => extend_to(list, list.len() + 65536),
    }
}

/// Goes on with the numbers that would follow in a list in order.
fn extend_to(list: &mut Vec<u16>, len: usize) {
    while list.len() < len {
        list.push((list.len() as u16).wrapping_add(1));
    }
}

/// A card: written whole, in the other edition or packed with counts out of range, then perhaps damaged.
pub fn any_card(random: &mut Random, plan: &OwnPlan) -> Vec<u8> {
    let mut card = match random.below(20) {
        0..=12 => whole_card(plan),
        13..=14 => pack(other_layout(plan), plan.lend()),
        15..=17 => wild_card(random, plan),
        _ => random_bytes(random),
    };
    if random.chance(60) {
        damage_card(random, &mut card);
    }
    card
}

/// The card as the reference writes it, or with wild lists where it refuses to.
pub fn whole_card(plan: &OwnPlan) -> Vec<u8> {
    let plan = plan.lend();
    write(plan, LONGEST_CARD).unwrap_or_else(|_| pack(Layout::right_for(plan), plan))
}

fn other_layout(plan: &OwnPlan) -> &'static Layout {
    match Layout::right_for(plan.lend()).edition {
        1 => &cards::SECOND,
        _ => &cards::FIRST,
    }
}

/// A card on which the edition or one or two counts are at the end of some range or the most that their bits hold; the
/// lists stay as they are.
fn wild_card(random: &mut Random, plan: &OwnPlan) -> Vec<u8> {
    let layout = random.pick(&[&cards::FIRST, &cards::SECOND]);
    let [_, steps, tracks, room, cars, trains] = layout.header;
    let mut counts = plan.night.lend().counts(plan.steps);
    for _ in 0..random.within(1..=2) {
        match random.below(5) {
            0 => counts.steps = wild_field(random, steps),
            1 => counts.tracks = wild_field(random, tracks),
            2 => counts.room = wild_field(random, room),
            3 => counts.cars = wild_field(random, cars),
            _ => counts.trains = wild_field(random, trains),
        }
    }
    let mut card = pack_counts(layout, plan.lend(), counts);
    if random.chance(20) {
        card[0] = (random.below(16) * 16) as u8 + card[0] % 16;
    }
    card
}

/// A number that a field of so many bits holds.
fn wild_field(random: &mut Random, bits: usize) -> usize {
    let most = usize::from(all_bits(bits));
    let held: Vec<usize> = EDGES.into_iter().filter(|&edge| edge < most).collect();
    match random.below(4) {
        0 => 0,
        1 => most,
        2 => random.within(0..=most),
        _ => random.pick(&held),
    }
}

fn random_bytes(random: &mut Random) -> Vec<u8> {
    let len = random.pick(&[1, 4, 5, 6, 7, 8, 40]);
    let mut bytes: Vec<u8> = (0..len).map(|_| random.bits() as u8).collect();
    if random.chance(80) {
        bytes[0] = random.pick(&[16, 32]) + bytes[0] % 16;
    }
    bytes
}

fn damage_card(random: &mut Random, card: &mut Vec<u8>) {
    match random.below(6) {
        0 => card.truncate(random.below(9)),
        1 => card.truncate(random.below(card.len() + 1)),
        2 => {
            card.pop();
        }
        3 => lengthen_card(random, card),
        4 => flip_card_bits(random, card, 0),
        // The last byte holds the padding.
        _ => {
            let last = card.len().saturating_sub(1);
            flip_card_bits(random, card, last);
        }
    }
}

fn lengthen_card(random: &mut Random, card: &mut Vec<u8>) {
    for _ in 0..random.within(1..=3) {
        card.push(random.pick(&[0, 0, 1, 255]));
    }
}

/// Turns over one to three bits from a byte on.
fn flip_card_bits(random: &mut Random, card: &mut [u8], from: usize) {
    let part = &mut card[from..];
    for _ in 0..random.within(1..=3) {
        if let Some(place) = place_in(random, part) {
            part[place] ^= 1 << random.below(8);
        }
    }
}

pub fn any_timings(random: &mut Random) -> Timings {
    Timings {
        pull: any_timing(random),
        push: any_timing(random),
    }
}

/// Mostly a timing that is allowed, else one of every kind that is not.
fn any_timing(random: &mut Random) -> f64 {
    let sixteenths = random.below(4096 * 16 + 1) as f64;
    let edges = [0.0, 0.0625, 1.0, 4096.0, 4095.9375];
    let edge = random.pick(&edges);
    match random.below(16) {
        0..=7 => sixteenths / 16.0,
        8..=9 => edge,
        10 => neighbour(random, edge),
        11 => neighbour(random, sixteenths / 16.0),
        12 => random.pick(&[f64::NAN, f64::INFINITY, f64::NEG_INFINITY, -0.0, f64::MAX]),
        13 => (sixteenths * 2.0 + 1.0) / 32.0,
        14 => random.pick(&[
            f64::from_bits(1),
            f64::MIN_POSITIVE,
            4096.0625,
            4097.0,
            8192.0,
        ]),
        _ => random_double(random),
    }
}

/// The next double up or down, or the same below zero.
fn neighbour(random: &mut Random, timing: f64) -> f64 {
    match random.below(3) {
        0 => f64::from_bits(timing.to_bits().wrapping_add(1)),
        1 => f64::from_bits(timing.to_bits().wrapping_sub(1)),
        _ => -timing,
    }
}

/// Any bits: not-a-numbers of every kind and subnormals are among them.
fn random_double(random: &mut Random) -> f64 {
    let bits = random.bits();
    match random.below(3) {
        0 => f64::from_bits(bits),
        1 => f64::from_bits(bits | 0x7ff0_0000_0000_0000),
        _ => f64::from_bits(bits & 0x800f_ffff_ffff_ffff),
    }
}

/// Lengths and inbound lists of the paper's trial nights; of the longest reversed trains for which eight
/// steps do, in closed nights and in open ones; and of the longest there is.
pub fn trial_nights() -> Vec<(Vec<u16>, Vec<u16>)> {
    let mut nights = vec![
        (vec![6], vec![3, 6, 1, 5, 2, 4]),
        (vec![1], vec![1]),
        (vec![1, 1], vec![2, 1]),
        (vec![2], vec![2, 1]),
        (vec![2], vec![1, 1]),
    ];
    for cars in [7, 8, 255, 256, 257, 512] {
        nights.push((vec![cars], (1..=cars).rev().collect()));
    }
    nights
}

/// All orders of the cars 1 to n: car n at every place of each shorter order.
pub fn orders(cars: u16) -> Vec<Vec<u16>> {
    if cars == 0 {
        return vec![Vec::new()];
    }
    let mut all = Vec::new();
    for shorter in orders(cars - 1) {
        for place in 0..=shorter.len() {
            let mut order = shorter.clone();
            order.insert(place, cars);
            all.push(order);
        }
    }
    all
}

/// The cars 1 to n cut into blocks in all ways, the last block in front.
pub fn block_orders(cars: u16) -> Vec<Vec<u16>> {
    let sorted: Vec<u16> = (1..=cars).collect();
    let blocks = all_trains(cars);
    let orders = blocks
        .iter()
        .map(|lengths| last_block_first(&sorted, lengths));
    orders.collect()
}

/// All ways to cut the cars into trains.
pub fn all_trains(cars: u16) -> Vec<Vec<u16>> {
    if cars == 0 {
        return vec![Vec::new()];
    }
    let mut all = Vec::new();
    for first in 1..=cars {
        for rest in all_trains(cars - first) {
            all.push([vec![first], rest].concat());
        }
    }
    all
}

/// All ways to cut the cars into one to three trains.
pub fn train_lengths(cars: u16) -> Vec<Vec<u16>> {
    let mut all = all_trains(cars);
    all.retain(|lengths| lengths.len() <= 3);
    all
}
