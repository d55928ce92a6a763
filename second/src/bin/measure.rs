//! Measures the library beside the idiomatic calls, in one run and on the same nights.

use second::answers::{Answer, CardAnswer};
use second::counts::{Counts, FIRST, MOST};
use second::idiomatic::Idiomatic;
use second::library::Library;
use second::nights::{derived_within, night_of, train_with_breaks, whole_card, OwnNight, OwnPlan};
use second::random::Random;
use second::{Calls, Mark};
use std::hint::black_box;
use std::iter::repeat_with;
use std::time::{Duration, Instant};

/// Cars of the nights within document 01's ranges; the bigger ones have as many as there may be.
const SIZES: [usize; 3] = [8, 64, 512];
/// Different nights for each size, so that no branch is learnt by heart.
const NIGHTS: usize = 128;
/// As many cars in all as the nights of 512 have.
const BIG_NIGHTS: usize = 16;
/// Each call is timed in many short rounds; the quickest counts as its time, the others were disturbed.
const ROUNDS: usize = 501;
const ROUND: Duration = Duration::from_micros(200);

/// One night with all that the calls read and write.
struct Work {
    plan: OwnPlan,
    limit: usize,
    stage: usize,
    /// What the fewest passes are asked for: as many steps as the night needs and two to spare, at most eight.
    steps: usize,
    card: Vec<u8>,
    lengths: Vec<u16>,
    inbound: Vec<u16>,
    codes: Vec<u16>,
    on: Vec<u16>,
    at: Vec<u16>,
    bytes: Vec<u8>,
}

impl Work {
    /// A night whose derived plan keeps to the steps of these ranges, so that every call is done.
    fn any(random: &mut Random, mark: Mark, cars: usize, most: Counts) -> Work {
        loop {
            let night = any_few_trains(random, mark, cars, most);
            if let Some(plan) = derived_within(&night, most.steps) {
                return Work::of(random, plan, most);
            }
        }
    }

    /// A night of one train with so many breaks that it needs sixteen steps on two tracks.
    fn with_many_steps(random: &mut Random, mark: Mark) -> Work {
        let breaks = random.within(2583..=MOST.cars - 1);
        let night = OwnNight {
            tracks: 2,
            room: MOST.room,
            mark,
            ..train_with_breaks(random, MOST.cars, breaks)
        };
        let plan = derived_within(&night, MOST.steps).expect("sixteen steps have 4180 codes");
        assert_eq!(plan.steps, MOST.steps);
        Work::of(random, plan, MOST)
    }

    fn of(random: &mut Random, plan: OwnPlan, most: Counts) -> Work {
        let cars = plan.codes.len();
        let card = whole_card(&plan);
        Work {
            limit: most.steps,
            stage: random.within(0..=plan.steps),
            steps: (plan.steps + 2).min(FIRST.steps),
            lengths: vec![0; most.trains],
            inbound: vec![0; cars],
            codes: vec![0; cars],
            on: vec![0; cars],
            at: vec![0; cars],
            bytes: vec![0; card.len()],
            card,
            plan,
        }
    }
}

/// A night of a few trains on three or more tracks.
fn any_few_trains(random: &mut Random, mark: Mark, cars: usize, most: Counts) -> OwnNight {
    let trains = random.within(1..=8);
    OwnNight {
        tracks: random.within(3..=most.tracks),
        ..night_of(random, mark, cars, trains, most)
    }
}

/// What is called and measured.
#[derive(Clone, Copy, PartialEq)]
enum Job {
    Derive,
    Check,
    Replay,
    Read,
    Write,
    FewestPasses,
}

/// The jobs in the order of the table, with the names of their rows, by the mark of their nights.
const JOBS: [(Mark, &[(&str, Job)]); 2] = [
    (
        Mark::Open,
        &[
            ("derive", Job::Derive),
            ("check", Job::Check),
            ("replay", Job::Replay),
            ("read", Job::Read),
            ("write", Job::Write),
            ("fewest-passes", Job::FewestPasses),
        ],
    ),
    (
        Mark::Closed,
        &[
            ("derive-closed", Job::Derive),
            ("check-closed", Job::Check),
            ("replay-closed", Job::Replay),
            ("read-closed", Job::Read),
            ("write-closed", Job::Write),
            ("fewest-passes-closed", Job::FewestPasses),
        ],
    ),
];

#[inline(never)]
fn call<C: Calls>(job: Job, work: &mut Work) {
    // What is lent comes from memory that was written long ago, as it does for a caller with a night at hand.
    let plan = black_box(&work.plan).lend();
    match job {
        Job::Derive => done(C::derive(plan.night, work.limit, &mut work.codes)),
        Job::Check => done(C::check(plan)),
        Job::Replay => done(C::replay(plan, work.stage, &mut work.on, &mut work.at)),
        Job::Read => read(C::read(
            black_box(&work.card),
            &mut work.lengths,
            &mut work.inbound,
            &mut work.codes,
        )),
        Job::Write => done(C::write(plan, &mut work.bytes)),
        Job::FewestPasses => done(C::fewest_passes(plan.night, work.steps, &mut work.codes)),
    }
}

/// A refusal would be measured as speed, so it stops the run.
fn done(told: impl Into<Answer>) {
    assert_eq!(black_box(told.into().number), 0);
}

fn read(told: impl Into<CardAnswer>) {
    assert_eq!(black_box(told.into().number), 0);
}

/// Seconds for a night, on average over all of them, by the quickest round; and how many times the idiomatic calls' time the library takes, in
/// the middle of all pairs of neighbouring rounds.
struct Times {
    library: f64,
    idiomatic: f64,
    ratio: f64,
}

/// The rounds of both alternate and are short, so that a machine that changes its pace disturbs both alike; each goes first
/// as often as the other.
fn times(job: Job, works: &mut [Work]) -> Times {
    let mut best = Times {
        library: f64::INFINITY,
        idiomatic: f64::INFINITY,
        ratio: 0.0,
    };
    let mut ratios = Vec::new();
    for turn in 0..ROUNDS {
        let (library, idiomatic);
        if turn % 2 == 0 {
            library = round::<Library>(job, works);
            idiomatic = round::<Idiomatic>(job, works);
        } else {
            idiomatic = round::<Idiomatic>(job, works);
            library = round::<Library>(job, works);
        }
        best.library = best.library.min(library);
        best.idiomatic = best.idiomatic.min(idiomatic);
        ratios.push(library / idiomatic);
    }
    ratios.sort_by(f64::total_cmp);
    best.ratio = ratios[ROUNDS / 2];
    best
}

/// Seconds for a night, on average over one round.
fn round<C: Calls>(job: Job, works: &mut [Work]) -> f64 {
    let began = Instant::now();
    let mut turns = 0;
    while began.elapsed() < ROUND {
        for work in works.iter_mut() {
            call::<C>(job, work);
        }
        turns += 1;
    }
    began.elapsed().as_secs_f64() / f64::from(turns) / works.len() as f64
}

fn row(name: &str, works: &[Work], times: &Times) -> String {
    let cars = works[0].plan.codes.len();
    let a_car = |seconds: f64| seconds * 1e9 / cars as f64;
    format!(
        "| {name} | {cars} | {:.0} | {:.0} | {:.2} | {:.2} | {:.2} |",
        1.0 / times.library,
        1.0 / times.idiomatic,
        a_car(times.library),
        a_car(times.idiomatic),
        times.ratio
    )
}

fn main() {
    let mut random = Random::new(1, 0);
    let mut big_random = Random::new(1, 1);
    println!("{NIGHTS} nights of each size, {BIG_NIGHTS} of {} cars, the quickest of {ROUNDS} rounds; the ratio is the middle one of neighbouring rounds.\n", MOST.cars);
    println!("| call | cars | library nights/s | idiomatic nights/s | library ns/car | idiomatic ns/car | library/idiomatic |");
    println!("|---|---|---|---|---|---|---|");
    let mut growth = Vec::new();
    for (mark, jobs) in JOBS {
        let mut by_size = SIZES.map(|cars| any_works(&mut random, mark, cars));
        let mut big = any_big_works(&mut big_random, mark);
        for &(name, job) in jobs {
            let rows = by_size.iter_mut().map(|works| print_row(name, job, works));
            let mut all: Vec<Times> = rows.collect();
            // The fewest passes keep document 01's ranges.
            if job != Job::FewestPasses {
                all.push(print_row(name, job, &mut big.any));
                print_row(&format!("{name}-steps"), job, &mut big.with_many_steps);
            }
            growth.push((name, all));
        }
    }
    let longest = print_longest_row(&mut random);
    print_growth(&growth);
    print_longest_time(&longest);
}

fn any_works(random: &mut Random, mark: Mark, cars: usize) -> Vec<Work> {
    let any = || Work::any(random, mark, cars, FIRST);
    repeat_with(any).take(NIGHTS).collect()
}

/// Nights of 4,096 cars: like the smaller ones, and with many steps on few tracks.
struct BigWorks {
    any: Vec<Work>,
    with_many_steps: Vec<Work>,
}

fn any_big_works(random: &mut Random, mark: Mark) -> BigWorks {
    let any = repeat_with(|| Work::any(random, mark, MOST.cars, MOST));
    let any = any.take(BIG_NIGHTS).collect();
    let with_many_steps = repeat_with(|| Work::with_many_steps(random, mark));
    BigWorks {
        any,
        with_many_steps: with_many_steps.take(BIG_NIGHTS).collect(),
    }
}

const LONGEST_CARS: usize = 512;
const LONGEST_BREAKS: usize = 200;

/// Measures the fewest passes of one long train, open, with many breaks, on eight tracks and with eight steps, and prints
/// their row.
fn print_longest_row(random: &mut Random) -> Times {
    let long = || {
        let night = train_with_breaks(random, LONGEST_CARS, LONGEST_BREAKS);
        let plan = derived_within(&night, FIRST.steps).expect("eight steps have 256 codes");
        assert_eq!(plan.steps, FIRST.steps);
        Work::of(random, plan, FIRST)
    };
    let mut works: Vec<Work> = repeat_with(long).take(NIGHTS).collect();
    print_row("fewest-passes-breaks", Job::FewestPasses, &mut works)
}

/// Microseconds say at once whether a call keeps within its millisecond.
fn print_longest_time(measured: &Times) {
    let a_night = |seconds: f64| seconds * 1e6;
    println!(
        "\nThe fewest passes of {LONGEST_CARS} cars in one train with {LONGEST_BREAKS} breaks, 8 tracks and 8 steps, \
         take the library {:.1} microseconds, the idiomatic program {:.1}.",
        a_night(measured.library),
        a_night(measured.idiomatic)
    );
}

/// Measures a call on these nights, all of one size, and prints its row.
fn print_row(name: &str, job: Job, works: &mut [Work]) -> Times {
    let measured = times(job, works);
    println!("{}", row(name, works, &measured));
    measured
}

/// How the cost of a night grows with eight times the cars; 8 is growth in step with them. The biggest nights have more tracks
/// and steps as well.
fn print_growth(growth: &[(&str, Vec<Times>)]) {
    println!("\n| call | library, 64 to 512 cars | idiomatic, 64 to 512 cars | library, 512 to 4096 cars | idiomatic, 512 to 4096 cars |");
    println!("|---|---|---|---|---|");
    for (name, all) in growth {
        let mut cells = String::new();
        for pair in all[1..].windows(2) {
            let library = pair[1].library / pair[0].library;
            let idiomatic = pair[1].idiomatic / pair[0].idiomatic;
            cells += &format!(" {library:.1} | {idiomatic:.1} |");
        }
        println!("| {name} |{cells}");
    }
}
