//! The order of refusals: an input with every fault, mended one fault at a time.

use second::answers::{Refusal, Timings};
use second::cards::write;
use second::counts::{Counts, FIRST, MOST};
use second::passes::{go_car_by_car, try_all_lists};
use second::reference::{check, derive, fewest_passes, price, replay, Derived};
use second::{Mark, Night, Plan};

/// A plan that owns its lists, so that one fault after the other can be mended.
#[derive(Clone)]
struct Faulty {
    lengths: Vec<u16>,
    inbound: Vec<u16>,
    codes: Vec<u16>,
    tracks: usize,
    room: usize,
    steps: usize,
    mark: Mark,
}

impl Faulty {
    /// Every count is out of its range; the night is closed.
    fn in_all_counts() -> Faulty {
        Faulty {
            lengths: vec![],
            inbound: vec![],
            codes: vec![],
            tracks: 17,
            room: 0,
            steps: 17,
            mark: Mark::Closed,
        }
    }

    fn plan(&self) -> Plan<'_> {
        Plan {
            night: Night {
                lengths: &self.lengths,
                inbound: &self.inbound,
                tracks: self.tracks,
                room: self.room,
                mark: self.mark,
            },
            steps: self.steps,
            codes: &self.codes,
        }
    }
}

/// A mending and the refusal, number and A and B, that then comes.
type Mending<'a> = (&'a dyn Fn(&mut Faulty), (usize, usize, usize));

/// Mends the counts, the lengths and the inbound list, which all calls test alike.
fn mend_the_night(call: &str, run: &dyn Fn(&Faulty) -> Option<Refusal>) -> Faulty {
    let mendings: [Mending; 9] = [
        (&|_| (), (1, 1, 0)),
        (&|it| it.inbound = vec![1, 3, 1, 9], (1, 2, 0)),
        (&|it| it.lengths = vec![2, 0, 0, 5], (1, 3, 0)),
        (&|it| it.tracks = 1, (1, 4, 0)),
        (&|it| it.room = 1, (1, 5, 0)),
        (&|it| it.steps = 2, (2, 2, 0)),
        (&|it| it.lengths = vec![2, 1, 2], (2, 0, 0)),
        (&|it| it.lengths = vec![3, 1], (3, 3, 1)),
        (&|it| it.inbound = vec![0, 3, 1, 9], (3, 1, 0)),
    ];
    let mut faulty = Faulty::in_all_counts();
    for (mend, wanted) in mendings {
        mend(&mut faulty);
        expect(call, run(&faulty), wanted);
    }
    faulty.inbound = vec![3, 2, 1, 4];
    faulty
}

fn expect(call: &str, found: Option<Refusal>, wanted: (usize, usize, usize)) {
    let found = found.map(|refusal| (refusal.number, refusal.a, refusal.b));
    assert_eq!(found, Some(wanted), "{call}");
}

/// A call that finds codes is given a night, its steps or its limit, and the length of the buffer.
fn finding_tests_1_2_3_4_5_6(
    call: &str,
    find: impl Fn(Night, usize, usize) -> Result<Derived, Refusal>,
) {
    let run = |it: &Faulty, codes_len| find(it.plan().night, it.steps, codes_len).err();
    let mended = mend_the_night(call, &|it| run(it, 0));
    // Three cars reversed on one track need two steps, which pull two cars and one; closed they need
    // three, and the first pulls all four cars.
    for (mark, fewest, first_pull) in [(Mark::Open, 2, 2), (Mark::Closed, 3, 4)] {
        let mut night = Faulty {
            mark,
            steps: fewest - 1,
            ..mended.clone()
        };
        expect(call, run(&night, 3), (4, 3, 0));
        expect(call, run(&night, 4), (5, fewest, 0));
        night.steps = fewest;
        night.room = first_pull - 1;
        expect(call, run(&night, 4), (6, 0, first_pull));
        night.room = first_pull;
        assert_eq!(run(&night, 4), None);
        assert_eq!(run(&night, 400), None);
    }
}

#[test]
fn derive_tests_1_2_3_4_5_6() {
    finding_tests_1_2_3_4_5_6("derive", derive);
}

#[test]
fn fewest_passes_tests_1_2_3_4_5_6() {
    for search in [go_car_by_car, try_all_lists] {
        finding_tests_1_2_3_4_5_6("fewest passes", |night, steps, codes_len| {
            fewest_passes(night, steps, codes_len, search)
        });
    }
}

/// Mends what check and replay test alike: codes too large, zero codes, early pulls, room.
fn mend_the_plan(call: &str, faulty: &mut Faulty, run: &dyn Fn(&Faulty) -> Option<Refusal>) {
    faulty.codes = vec![0, 2, 4, 9];
    expect(call, run(faulty), (7, 3, 0));
    faulty.codes = vec![2, 0, 2, 0];
    expect(call, run(faulty), (14, 2, 0));
    // Codes of 2 are pulled early in step 0 on one track; car 2 is the lowest of them.
    faulty.codes = vec![1, 2, 1, 2];
    expect(call, run(faulty), (8, 2, 0));
    // Of these only step 1 takes a car early, after step 0 was overfilled.
    faulty.steps = 3;
    faulty.codes = vec![1, 1, 5, 1];
    expect(call, run(faulty), (8, 3, 1));
    faulty.codes = vec![1, 1, 0, 0];
    expect(call, run(faulty), (14, 3, 0));
    faulty.mark = Mark::Open;
    expect(call, run(faulty), (6, 0, 2));
    faulty.mark = Mark::Closed;
    faulty.codes = vec![1, 1, 1, 1];
    expect(call, run(faulty), (6, 0, 4));
    // Room is met by each step alone: step 1 is the first with two cars.
    faulty.tracks = 3;
    faulty.codes = vec![2, 1, 2, 4];
    expect(call, run(faulty), (6, 1, 2));
    faulty.room = 2;
}

#[test]
fn check_tests_1_2_3_4_7_14_8_6_9() {
    let run = |it: &Faulty| check(it.plan()).err();
    let mut plan = mend_the_night("check", &run);
    for codes in [vec![], vec![9; 3], vec![9; 5]] {
        plan.codes = codes;
        expect("check", run(&plan), (4, 3, 0));
    }
    mend_the_plan("check", &mut plan, &run);
    expect("check", run(&plan), (9, 2, 0));
    plan.codes = vec![1, 2, 4, 2];
    assert_eq!(run(&plan), None);
    plan.codes = vec![1, 2, 2, 0];
    expect("check", run(&plan), (14, 4, 0));
    plan.mark = Mark::Open;
    expect("check", run(&plan), (9, 3, 0));
    plan.codes = vec![0, 1, 2, 0];
    assert_eq!(run(&plan), None);
}

#[test]
fn replay_tests_the_same_but_not_9() {
    let run = |it: &Faulty, stage, on_len, at_len| replay(it.plan(), stage, on_len, at_len).err();
    let mut plan = mend_the_night("replay", &|it| run(it, it.steps, 0, 0));
    // The stage is a count, so it comes before every list, though after all other counts.
    let mut counts = Faulty::in_all_counts();
    counts.inbound = vec![1, 1];
    counts.lengths = vec![0];
    counts.tracks = 1;
    counts.room = 1;
    expect("replay", run(&counts, 10, 0, 0), (1, 5, 0));
    counts.steps = 16;
    expect("replay", run(&counts, 17, 0, 0), (1, 6, 0));
    expect("replay", run(&counts, usize::MAX, 0, 0), (1, 6, 0));
    expect("replay", run(&counts, 16, 0, 0), (2, 1, 0));
    plan.codes = vec![9; 5];
    expect("replay", run(&plan, 2, 3, 3), (4, 3, 0));
    plan.codes = vec![9; 4];
    expect("replay", run(&plan, 2, 3, 3), (4, 4, 0));
    expect("replay", run(&plan, 2, 4, 3), (4, 5, 0));
    mend_the_plan("replay", &mut plan, &|it| run(it, 0, 4, 4));
    // This plan builds its train out of order, and is still replayed.
    assert_eq!(run(&plan, 3, 4, 9), None);
}

#[test]
fn write_tests_1_2_3_4_7_4() {
    let run = |it: &Faulty, card_len| write(it.plan(), card_len).err();
    let mut plan = mend_the_night("write", &|it| run(it, 0));
    plan.codes = vec![4; 5];
    expect("write", run(&plan, 0), (4, 3, 0));
    plan.codes = vec![2, 3, 2, 4];
    expect("write", run(&plan, 0), (7, 4, 0));
    plan.codes = vec![2, 3, 2, 2];
    // 50 bits, two lengths and four cars of 13, and four codes of two bits: 136 bits in 17 bytes.
    expect("write", run(&plan, 16), (4, 6, 0));
    assert_eq!(run(&plan, 17), None);
    plan.mark = Mark::Open;
    // 39 bits, two lengths and four cars of 10, and four codes of two bits: 107 bits in 14 bytes.
    expect("write", run(&plan, 13), (4, 6, 0));
    assert_eq!(run(&plan, 14), None);
    assert_eq!(run(&plan, 15), None);
}

/// A call that finds codes, given a night in order with these counts.
fn find_in_order(
    counts: Counts,
    find: impl Fn(Night, usize, usize) -> Result<Derived, Refusal>,
) -> Option<Refusal> {
    let mut lengths = vec![1; counts.trains];
    lengths[0] += counts.cars.abs_diff(counts.trains) as u16;
    let night = Night {
        lengths: &lengths,
        inbound: &(1..=counts.cars as u16).collect::<Vec<u16>>(),
        tracks: counts.tracks,
        room: counts.room,
        mark: Mark::Open,
    };
    find(night, counts.steps, counts.cars).err()
}

/// A count made one too large, and A of the refusal that then comes.
type Beyond = (fn(&mut Counts), usize);

/// The ends of the ranges are accepted, and each count just beyond them is refused.
fn keeps_ranges(
    call: &str,
    most: Counts,
    find: impl Fn(Night, usize, usize) -> Result<Derived, Refusal>,
) {
    let least = Counts {
        cars: 1,
        trains: 1,
        tracks: 1,
        room: 1,
        steps: 0,
    };
    assert_eq!(find_in_order(least, &find), None, "{call}");
    assert_eq!(find_in_order(most, &find), None, "{call}");
    let beyond: [Beyond; 5] = [
        (|counts| counts.cars += 1, 1),
        (|counts| counts.trains += 1, 2),
        (|counts| counts.tracks += 1, 3),
        (|counts| counts.room += 1, 4),
        (|counts| counts.steps += 1, 5),
    ];
    for (change, a) in beyond {
        let mut counts = most;
        change(&mut counts);
        expect(call, find_in_order(counts, &find), (1, a, 0));
    }
}

#[test]
fn derive_keeps_the_ranges_of_bigger_nights() {
    keeps_ranges("derive", MOST, derive);
}

#[test]
fn the_fewest_passes_keep_the_first_ranges() {
    keeps_ranges("fewest passes", FIRST, |night, steps, codes_len| {
        fewest_passes(night, steps, codes_len, go_car_by_car)
    });
}

#[test]
fn counts_far_out_of_range_are_refused() {
    let sound = Night {
        lengths: &[2],
        inbound: &[1, 2],
        tracks: 1,
        room: 1,
        mark: Mark::Open,
    };
    for tracks in [0, 17, 257, usize::MAX] {
        let night = Night { tracks, ..sound };
        expect("derive", derive(night, 0, 2).err(), (1, 3, 0));
    }
    for room in [0, 4097, 65537, usize::MAX] {
        let night = Night { room, ..sound };
        expect("derive", derive(night, 0, 2).err(), (1, 4, 0));
    }
    for limit in [17, 256, usize::MAX] {
        expect("derive", derive(sound, limit, 2).err(), (1, 5, 0));
    }
    assert!(derive(sound, 0, 2).is_ok());
}

#[test]
fn a_length_list_is_summed_beyond_16_bits() {
    let night = Night {
        lengths: &[65535, 5],
        inbound: &[1, 2, 3, 4],
        tracks: 1,
        room: 1,
        mark: Mark::Open,
    };
    expect("derive", derive(night, 8, 4).err(), (2, 0, 0));
}

#[test]
fn price_tests_1_then_13() {
    let run = |steps, passes, pull, push| price(steps, passes, Timings { pull, push }).err();
    expect("price", run(17, 69_633, -1.0, f64::NAN), (1, 5, 0));
    expect("price", run(16, 69_633, -1.0, f64::NAN), (1, 7, 0));
    expect("price", run(16, 69_632, -1.0, f64::NAN), (13, 1, 0));
    expect("price", run(16, 69_632, 1.0, f64::NAN), (13, 2, 0));
    assert_eq!(run(16, 69_632, 1.0, 1.0), None);
}
