//! The night card: the paper's example, the reader's refusals in order, and the programs.

use second::answers::{refuse, CardAnswer, Refusal};
use second::cards::{self, pack, read, write, Card, CardBuffers};
use second::counts::{LONGEST_CARD, MOST};
use second::nights::{any_card, any_night, any_plan, any_ranges};
use second::programs::{nightcard, nightplan};
use second::random::Random;
use second::reference::read_answer;
use second::{Mark, MARKS};

const EXAMPLE: [u8; 16] = [
    0x12, 0x20, 0x0C, 0x06, 0x02, 0x03, 0x00, 0x60, 0x30, 0x02, 0x02, 0x80, 0x40, 0x20, 0x2D, 0x80,
];
/// Night N closed on two tracks with room for four: 159 bits, put together by hand.
const CLOSED: [u8; 20] = [
    0x28, 0xC4, 0x00, 0x40, 0x03, 0x00, 0x40, 0x0C, 0x00, 0x30, 0x03, 0x00, 0x04, 0x00, 0xA0, 0x02,
    0x00, 0x21, 0x29, 0x3A,
];
const LINES: &str = "steps 2 tracks 2 room 3 cars 6 trains 1 passes 11\ntrain 1: 1 2 3 4 5 6\n";

fn buffers(lengths: usize, inbound: usize, codes: usize) -> CardBuffers {
    CardBuffers {
        lengths,
        inbound,
        codes,
    }
}

/// Case 1 with room for three cars, which is the example.
fn case_one() -> Card {
    Card {
        mark: Mark::Open,
        steps: 2,
        tracks: 2,
        room: 3,
        lengths: vec![6],
        inbound: vec![3, 6, 1, 5, 2, 4],
        codes: vec![0, 0, 1, 1, 2, 3],
    }
}

/// The plan that the card of a closed night holds.
fn night_n_closed() -> Card {
    Card {
        mark: Mark::Closed,
        steps: 3,
        room: 4,
        codes: vec![1, 1, 2, 2, 3, 5],
        ..case_one()
    }
}

fn written(card: &Card) -> Result<Vec<u8>, Refusal> {
    write(card.plan(), LONGEST_CARD)
}

fn read_amply(card: &[u8]) -> Result<Card, Refusal> {
    read(card, CardBuffers::of(MOST))
}

fn refused(card: &[u8]) -> Option<Refusal> {
    read_amply(card).err()
}

/// The example with some bits turned over, counted from the first of the card.
fn flipped(bits: &[usize]) -> Vec<u8> {
    with_flipped(&EXAMPLE, bits)
}

fn with_flipped(card: &[u8], bits: &[usize]) -> Vec<u8> {
    let mut card = card.to_vec();
    for bit in bits {
        card[bit / 8] ^= 128 >> (bit % 8);
    }
    card
}

#[test]
fn the_example_is_written_and_read() {
    assert_eq!(written(&case_one()), Ok(EXAMPLE.to_vec()));
    let found = read(&EXAMPLE, buffers(1, 6, 6));
    assert_eq!(found, Ok(case_one()));
    let answer = CardAnswer {
        number: 0,
        a: 0,
        b: 0,
        mark: 0,
        steps: 2,
        tracks: 2,
        room: 3,
        cars: 6,
        trains: 1,
    };
    assert_eq!(read_answer(&found), answer);
}

#[test]
fn a_closed_night_goes_on_edition_2_and_comes_back_closed() {
    assert_eq!(written(&night_n_closed()), Ok(CLOSED.to_vec()));
    let found = read(&CLOSED, buffers(1, 6, 6));
    assert_eq!(read_answer(&found).mark, 1);
    assert_eq!(found, Ok(night_n_closed()));
}

/// The longest plan of edition 1.
fn longest_of_edition_1() -> Card {
    Card {
        mark: Mark::Open,
        steps: 8,
        tracks: 8,
        room: 512,
        lengths: vec![8; 64],
        inbound: (1..=512).collect(),
        codes: vec![255; 512],
    }
}

/// The longest plan of all.
fn longest() -> Card {
    Card {
        mark: Mark::Open,
        steps: 16,
        tracks: 16,
        room: 4096,
        lengths: vec![16; 256],
        inbound: (1..=4096).collect(),
        codes: vec![65535; 4096],
    }
}

#[test]
fn the_longest_cards_have_1237_and_15271_bytes() {
    let closed = Card {
        mark: Mark::Closed,
        ..longest()
    };
    for (card, len) in [
        (longest_of_edition_1(), 1237),
        (longest(), 15271),
        (closed, 15271),
    ] {
        let bytes = written(&card);
        assert_eq!(bytes.as_ref().map(Vec::len), Ok(len));
        assert_eq!(bytes.and_then(|bytes| read_amply(&bytes)), Ok(card));
    }
}

#[test]
fn a_plan_that_is_closed_or_beyond_the_first_ranges_goes_on_edition_2() {
    let edition = |change: &dyn Fn(&mut Card)| {
        let mut card = longest_of_edition_1();
        change(&mut card);
        let bytes = written(&card).unwrap_or_default();
        assert_eq!(read_amply(&bytes), Ok(card));
        bytes[0] / 16
    };
    assert_eq!(edition(&|_| ()), 1);
    assert_eq!(edition(&|card| card.mark = Mark::Closed), 2);
    assert_eq!(edition(&|card| card.steps = 9), 2);
    assert_eq!(edition(&|card| card.tracks = 9), 2);
    assert_eq!(edition(&|card| card.room = 513), 2);
    let one_more_train = |card: &mut Card| {
        card.lengths[0] -= 1;
        card.lengths.push(1);
    };
    assert_eq!(edition(&one_more_train), 2);
    let one_more_car = |card: &mut Card| {
        card.lengths[0] += 1;
        card.inbound.push(513);
        card.codes.push(255);
    };
    assert_eq!(edition(&one_more_car), 2);
}

#[test]
fn the_wrong_edition_is_refused_after_all_else() {
    // 39 bits of edition 1 are 50 of edition 2, and each of the seven numbers has three bits more.
    let card = pack(&cards::SECOND, case_one().plan());
    assert_eq!(card.len(), 20);
    assert_eq!(refused(&card), Some(refuse(17, 0)));
    assert_eq!(refused(&card[..19]), Some(refuse(10, 20)));
    assert_eq!(refused(&[&card[..], &[0]].concat()), Some(refuse(12, 20)));
    assert_eq!(refused(&with_flipped(&card, &[159])), Some(refuse(12, 20)));
    let short = read(&card, buffers(1, 6, 5)).err();
    assert_eq!(short, Some(refuse(4, 3)));
    // Closed, the same card is right.
    let closed = read_amply(&with_flipped(&card, &[4]));
    assert_eq!(closed.map(|card| card.mark), Ok(Mark::Closed));
}

/// Written and read back a plan is the same, and an accepted card is the one that its plan is written as.
#[test]
fn a_plan_has_one_card_and_a_card_one_plan() {
    let mut accepted = [0; 2];
    for trial in 0..3000 {
        let mut random = Random::new(108, trial);
        let most = any_ranges(&mut random);
        let night = any_night(&mut random, most);
        let plan = any_plan(&mut random, &night);
        let bytes = write(plan.lend(), LONGEST_CARD);
        let back = bytes.and_then(|bytes| read_amply(&bytes));
        let back = back.expect("a sound plan is written and read");
        assert_eq!(format!("{:?}", back.plan()), format!("{:?}", plan.lend()));
        let card = any_card(&mut random, &plan);
        if let Ok(found) = read_amply(&card) {
            accepted[usize::from(card[0] / 16) - 1] += 1;
            assert_eq!(written(&found), Ok(card));
        }
    }
    assert!(accepted.iter().all(|&cards| cards > 100), "{accepted:?}");
}

#[test]
fn a_card_is_read_that_check_would_refuse() {
    let card = Card {
        codes: vec![3, 2, 1, 0, 3, 3],
        ..case_one()
    };
    let bytes = written(&card);
    assert_eq!(
        bytes.and_then(|bytes| read(&bytes, buffers(1, 6, 6))),
        Ok(card)
    );
}

#[test]
fn short_cards_say_what_they_need() {
    assert_eq!(refused(&[]), Some(refuse(10, 1)));
    for len in 1..5 {
        assert_eq!(refused(&EXAMPLE[..len]), Some(refuse(10, 5)), "{len} bytes");
    }
    for len in 5..16 {
        assert_eq!(
            refused(&EXAMPLE[..len]),
            Some(refuse(10, 16)),
            "{len} bytes"
        );
    }
    for len in 1..7 {
        assert_eq!(refused(&CLOSED[..len]), Some(refuse(10, 7)), "{len} bytes");
    }
    for len in 7..20 {
        assert_eq!(refused(&CLOSED[..len]), Some(refuse(10, 20)), "{len} bytes");
    }
}

#[test]
fn the_edition_comes_before_all_but_an_empty_card() {
    for edition in 0..16 {
        let found = refused(&[edition * 16]);
        let wanted = match edition {
            1 => refuse(10, 5),
            2 => refuse(10, 7),
            _ => refuse(11, usize::from(edition)),
        };
        assert_eq!(found, Some(wanted));
    }
}

#[test]
fn counts_come_before_the_whole_length() {
    // Fields: edition 0..4, h 4..8, W 8..12, C 12..22, n 22..32, m 32..39; ten steps and ten tracks, else zeros.
    let first: [&[usize]; 5] = [&[4], &[20, 21], &[8], &[38], &[29, 30]];
    counts_are_refused_first(&EXAMPLE, &first, 5);
    // Fields: edition 0..4, mark 4, h 5..10, W 10..15, C 15..28, n 28..41, m 41..50; 19 steps and 18 tracks, else zeros.
    let second: [&[usize]; 5] = [&[5], &[25], &[10], &[49], &[38, 39]];
    counts_are_refused_first(&CLOSED, &second, 7);
}

/// Puts faults into steps, room, tracks, trains and cars, the last of the counts first, by turning over these bits.
fn counts_are_refused_first(card: &[u8], faults: &[&[usize]; 5], header: usize) {
    let mut bits: Vec<usize> = Vec::new();
    for (fault, a) in faults.iter().zip([5, 4, 3, 2, 1]) {
        bits.extend(*fault);
        let card = with_flipped(card, &bits);
        assert_eq!(refused(&card), Some(refuse(1, a)));
        assert_eq!(refused(&card[..header]), Some(refuse(1, a)));
    }
}

#[test]
fn edition_1_keeps_its_ranges() {
    for (change, a) in [
        (longest_with(|card| card.steps = 9), 5),
        (longest_with(|card| card.room = 513), 4),
        (longest_with(|card| card.tracks = 9), 3),
        (longest_with(|card| card.lengths.push(1)), 2),
        (longest_with(|card| card.inbound.push(513)), 1),
    ] {
        let card = pack(&cards::FIRST, change.plan());
        assert_eq!(refused(&card), Some(refuse(1, a)));
    }
}

fn longest_with(change: impl Fn(&mut Card)) -> Card {
    let mut card = longest_of_edition_1();
    change(&mut card);
    card
}

#[test]
fn buffers_come_before_the_lists_and_lists_before_the_end() {
    // A first length of 7, an inbound list that begins with 2, set padding, a byte behind.
    let mut card = flipped(&[48, 58, 127]);
    card.push(0);
    let run =
        |card: &[u8], lengths, inbound, codes| read(card, buffers(lengths, inbound, codes)).err();
    assert_eq!(run(&card, 0, 0, 0), Some(refuse(4, 1)));
    assert_eq!(run(&card, 1, 5, 0), Some(refuse(4, 2)));
    assert_eq!(run(&card, 1, 6, 5), Some(refuse(4, 3)));
    assert_eq!(run(&card, 1, 6, 6), Some(refuse(2, 0)));
    let mut card = flipped(&[58, 127]);
    card.push(0);
    // Read as 2 6 1 5 2 4: the second 2, at place 5, was met before, at place 1.
    let met_before = Refusal {
        b: 1,
        ..refuse(3, 5)
    };
    assert_eq!(refused(&card), Some(met_before));
    let padded = flipped(&[127]);
    assert_eq!(refused(&padded), Some(refuse(12, 16)));
    let first_padding_bit = flipped(&[121]);
    assert_eq!(refused(&first_padding_bit), Some(refuse(12, 16)));
    let mut lengthened = EXAMPLE.to_vec();
    lengthened.push(0);
    assert_eq!(refused(&lengthened), Some(refuse(12, 16)));
}

#[test]
fn nightcard_prints_the_example() {
    assert_eq!(nightcard(&EXAMPLE), LINES);
    assert_eq!(nightcard(&[]), "refused 10 1 0\n");
    assert_eq!(nightcard(&EXAMPLE[..9]), "refused 10 16 0\n");
    // Room 2 instead of 3: step 0 holds three cars.
    assert_eq!(nightcard(&flipped(&[21])), "refused 6 0 3\n");
}

#[test]
fn nightcard_prints_a_line_for_each_train() {
    let card = Card {
        mark: Mark::Open,
        steps: 0,
        tracks: 1,
        room: 512,
        lengths: vec![1, 2],
        inbound: vec![2, 1, 3],
        codes: vec![0; 3],
    };
    let lines = written(&card).map(|bytes| nightcard(&bytes));
    let wanted = "steps 0 tracks 1 room 512 cars 3 trains 2 passes 3\ntrain 1: 1\ntrain 2: 2 3\n";
    assert_eq!(lines.as_deref(), Ok(wanted));
}

#[test]
fn nightplan_ignores_codes_and_steps() {
    let careless = Card {
        steps: 5,
        codes: vec![31, 30, 29, 7, 6, 5],
        ..case_one()
    };
    assert_eq!(
        written(&careless).map(|bytes| nightplan(&bytes)),
        Ok(EXAMPLE.to_vec())
    );
    let stepless = Card {
        steps: 0,
        codes: vec![0; 6],
        ..case_one()
    };
    assert_eq!(
        written(&stepless).map(|bytes| nightplan(&bytes)),
        Ok(EXAMPLE.to_vec())
    );
    assert_eq!(nightplan(&EXAMPLE[..3]), b"refused 10 5 0\n");
    assert_eq!(nightplan(&flipped(&[21])), b"refused 6 0 3\n");
}

#[test]
fn nightcard_prints_a_closed_night_without_its_mark() {
    let lines = "steps 3 tracks 2 room 4 cars 6 trains 1 passes 14\ntrain 1: 1 2 3 4 5 6\n";
    assert_eq!(nightcard(&CLOSED), lines);
    let first = with_flipped(&CLOSED, &[143]);
    assert_eq!(nightcard(&first), "refused 14 1 0\n");
}

#[test]
fn nightplan_keeps_the_mark() {
    let careless = Card {
        steps: 0,
        codes: vec![0; 6],
        ..night_n_closed()
    };
    let bytes = written(&careless);
    assert_eq!(bytes.map(|bytes| nightplan(&bytes)), Ok(CLOSED.to_vec()));
}

#[test]
fn nightplan_derives_with_sixteen_steps_and_writes_the_right_edition() {
    let reversed = |cars: u16, tracks| Card {
        lengths: vec![cars],
        inbound: (1..=cars).rev().collect(),
        steps: 0,
        codes: vec![0; usize::from(cars)],
        tracks,
        room: 512,
        ..case_one()
    };
    let derived = |card: &Card| {
        let new_card = nightplan(&written(card).unwrap_or_default());
        (
            new_card[0] / 16,
            read_amply(&new_card).map(|card| card.steps),
        )
    };
    assert_eq!(derived(&reversed(17, 1)), (2, Ok(16)));
    assert_eq!(derived(&reversed(9, 1)), (1, Ok(8)));
    assert_eq!(derived(&reversed(10, 1)), (2, Ok(9)));
    let bytes = written(&reversed(18, 1)).unwrap_or_default();
    assert_eq!(nightplan(&bytes), b"refused 5 17 0\n");
}

#[test]
fn more_bytes_than_any_card_has_are_answered_as_the_reader_says() {
    for mark in MARKS {
        let card = Card { mark, ..longest() };
        let mut bytes = written(&card).unwrap_or_default();
        bytes.push(0);
        assert_eq!(nightcard(&bytes), "refused 12 15271 0\n");
        bytes.resize(100_000, 0);
        assert_eq!(nightplan(&bytes), b"refused 12 15271 0\n");
    }
}
