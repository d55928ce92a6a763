//! Night cards of both editions, read and written bit by bit.

use crate::answers::{refuse, Refusal};
use crate::bits::{Packer, Unpacker};
use crate::counts::{self, Counts, MOST};
use crate::reference::{
    test_buffer, test_codes, test_codes_length, test_counts, test_inbound, test_lengths, test_night,
};
use crate::{Mark, Night, Plan};

/// How an edition lays out its cards: the bits of each field, and the most of each count.
#[derive(Debug)]
pub struct Layout {
    pub edition: usize,
    /// The bits of mark, steps, tracks, room, cars and trains, in this order behind the four of the edition.
    pub header: [usize; 6],
    /// The bits of a length and of an inbound number; a code has as many as there are steps.
    pub number: usize,
    pub most: Counts,
}

/// Edition 1 has no bit for the mark, and means open.
pub static FIRST: Layout = Layout {
    edition: 1,
    header: [0, 4, 4, 10, 10, 7],
    number: 10,
    most: counts::FIRST,
};

pub static SECOND: Layout = Layout {
    edition: 2,
    header: [1, 5, 5, 13, 13, 9],
    number: 13,
    most: MOST,
};

impl Layout {
    /// The layout of the edition that a card bears.
    fn of(card: &[u8]) -> Result<&'static Layout, Refusal> {
        let first_byte = card.first().ok_or(refuse(10, 1))?;
        match first_byte / 16 {
            1 => Ok(&FIRST),
            2 => Ok(&SECOND),
            other => Err(refuse(11, usize::from(other))),
        }
    }

    /// The layout that a plan's card must have.
    pub fn right_for(plan: Plan) -> &'static Layout {
        let counts = plan.night.counts(plan.steps);
        match plan.night.mark {
            Mark::Open if test_counts(counts, counts::FIRST).is_ok() => &FIRST,
            _ => &SECOND,
        }
    }

    fn header_bits(&self) -> usize {
        4 + self.header.iter().sum::<usize>()
    }

    /// The bytes of a card with these counts.
    pub fn length(&self, counts: Counts) -> usize {
        let numbers = counts.trains + counts.cars;
        bytes_of(self.header_bits() + numbers * self.number + counts.cars * counts.steps)
    }
}

/// The bytes that hold so many bits.
fn bytes_of(bits: usize) -> usize {
    let mut bytes = 0;
    while bytes * 8 < bits {
        bytes += 1;
    }
    bytes
}

/// What an accepted card holds.
#[derive(Clone, Debug, PartialEq, Eq)]
pub struct Card {
    pub mark: Mark,
    pub steps: usize,
    pub tracks: usize,
    pub room: usize,
    pub lengths: Vec<u16>,
    pub inbound: Vec<u16>,
    pub codes: Vec<u16>,
}

impl Card {
    pub fn plan(&self) -> Plan<'_> {
        let night = Night {
            lengths: &self.lengths,
            inbound: &self.inbound,
            tracks: self.tracks,
            room: self.room,
            mark: self.mark,
        };
        Plan {
            night,
            steps: self.steps,
            codes: &self.codes,
        }
    }
}

/// How many items each buffer lent to the card reader can hold.
#[derive(Clone, Copy, Debug)]
pub struct CardBuffers {
    pub lengths: usize,
    pub inbound: usize,
    pub codes: usize,
}

impl CardBuffers {
    /// Buffers that hold the lists of these counts.
    pub fn of(counts: Counts) -> CardBuffers {
        CardBuffers {
            lengths: counts.trains,
            inbound: counts.cars,
            codes: counts.cars,
        }
    }
}

pub fn read(card: &[u8], buffers: CardBuffers) -> Result<Card, Refusal> {
    let layout = Layout::of(card)?;
    test_long_enough(card, bytes_of(layout.header_bits()))?;
    let mut bits = Unpacker::new(card);
    bits.take(4);
    let [mark, steps, tracks, room, cars, trains] = layout.header.map(|width| bits.take(width));
    let counts = Counts {
        cars,
        trains,
        tracks,
        room,
        steps,
    };
    test_counts(counts, layout.most)?;
    let whole = layout.length(counts);
    test_long_enough(card, whole)?;
    test_buffer(buffers.lengths, trains, 1)?;
    test_buffer(buffers.inbound, cars, 2)?;
    test_buffer(buffers.codes, cars, 3)?;
    let lengths = take_list(&mut bits, trains, layout.number);
    test_lengths(&lengths, cars)?;
    let inbound = take_list(&mut bits, cars, layout.number);
    test_inbound(&inbound)?;
    let codes = take_list(&mut bits, cars, steps);
    if !bits.is_rest_of_byte_zero() || card.len() > whole {
        return Err(refuse(12, whole));
    }
    let found = Card {
        mark: if mark == 0 { Mark::Open } else { Mark::Closed },
        steps,
        tracks,
        room,
        lengths,
        inbound,
        codes,
    };
    if layout.edition != Layout::right_for(found.plan()).edition {
        return Err(refuse(17, 0));
    }
    Ok(found)
}

fn test_long_enough(card: &[u8], needed: usize) -> Result<(), Refusal> {
    if card.len() < needed {
        return Err(refuse(10, needed));
    }
    Ok(())
}

fn take_list(bits: &mut Unpacker, count: usize, width: usize) -> Vec<u16> {
    // No width is above 16, so every number fits.
    (0..count).map(|_| bits.take(width) as u16).collect()
}

pub fn write(plan: Plan, card_len: usize) -> Result<Vec<u8>, Refusal> {
    test_night(plan.night, plan.steps)?;
    test_codes_length(plan)?;
    test_codes(plan)?;
    let card = pack(Layout::right_for(plan), plan);
    test_buffer(card_len, card.len(), 6)?;
    Ok(card)
}

/// The card of a plan in a layout, each number cut to its bits, whatever it is.
pub fn pack(layout: &Layout, plan: Plan) -> Vec<u8> {
    pack_counts(layout, plan, plan.night.counts(plan.steps))
}

/// The same with these counts in the header, whatever the lists are.
pub fn pack_counts(layout: &Layout, plan: Plan, counts: Counts) -> Vec<u8> {
    let Counts {
        cars,
        trains,
        tracks,
        room,
        steps,
    } = counts;
    let mark = plan.night.mark.number();
    let mut bits = Packer::default();
    bits.put(layout.edition, 4);
    for (number, width) in [mark, steps, tracks, room, cars, trains]
        .into_iter()
        .zip(layout.header)
    {
        bits.put(number, width);
    }
    bits.put_all(plan.night.lengths, layout.number);
    bits.put_all(plan.night.inbound, layout.number);
    // Steps out of every range would make codes of any width.
    bits.put_all(plan.codes, steps.min(MOST.steps));
    bits.bytes()
}
